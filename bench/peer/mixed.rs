//! A program over crates `csv` and `juniperbowls` (bindings/rust) that a user might write in place of `pie run` for
//! a trace of every kind of record, of version one and without refused records: it decides with the C library,
//! keeps the queue and the statistics, and writes each record again with its answer. It records no events, so it
//! has no folds, replays or audits.
use juniperbowls::{Choices, Ecn, Opening, Params, State, Verdict};
use std::collections::VecDeque;
use std::error::Error;
use std::io;

#[derive(Clone, Copy)]
struct Packet {
    tag: u64,
    size: u32,
    ecn: Ecn,
    since: u64,
}

#[derive(Default)]
struct Statistics {
    verdicts: [u64; 5],
    left: u64,
    left_bytes: u64,
    empty: u64,
    updates: u64,
    resets: u64,
    changes: u64,
    largest_queue: u64,
    largest_delay: u64,
    waited: u128,
}

struct Link {
    pie: State,
    ring: VecDeque<Packet>,
    packets: usize,
    bytes: u64,
    events: u64,
    statistics: Statistics,
}

fn number<T: std::str::FromStr>(row: &csv::ByteRecord, place: usize) -> Result<T, Box<dyn Error>> {
    let field = row.get(place).ok_or("too few fields")?;
    std::str::from_utf8(field)?.parse().map_err(|_| "no number".into())
}

fn params(row: &csv::ByteRecord, from: usize) -> Result<Params, Box<dyn Error>> {
    Ok(Params {
        target: number(row, from)?,
        t_update: number(row, from + 1)?,
        max_burst: number(row, from + 2)?,
        alpha: number(row, from + 3)?,
        beta: number(row, from + 4)?,
        mean_pkt: number(row, from + 5)?,
        limit_bytes: number(row, from + 6)?,
        mark_ecnth: number(row, from + 7)?,
        dq_threshold: number(row, from + 8)?,
    })
}

fn ecn(word: &[u8]) -> Result<Ecn, Box<dyn Error>> {
    match word {
        b"not" => Ok(Ecn::NotEct),
        b"ect1" => Ok(Ecn::Ect1),
        b"ect0" => Ok(Ecn::Ect0),
        b"ce" => Ok(Ecn::Ce),
        _ => Err("no ECN field".into()),
    }
}

fn ecn_word(ecn: Ecn) -> &'static [u8] {
    match ecn {
        Ecn::NotEct => b"not",
        Ecn::Ect1 => b"ect1",
        Ecn::Ect0 => b"ect0",
        Ecn::Ce => b"ce",
    }
}

fn push(row: &mut csv::ByteRecord, number: impl ToString) {
    row.push_field(number.to_string().as_bytes());
}

impl Link {
    fn arrive(&mut self, row: &mut csv::ByteRecord) -> Result<(), Box<dyn Error>> {
        let (moment, tag, size): (u64, u64, u32) = (number(row, 2)?, number(row, 3)?, number(row, 4)?);
        let (ecn, word): (Ecn, u64) = (ecn(row.get(5).ok_or("too few fields")?)?, number(row, 6)?);
        let room = (self.packets - self.ring.len()) as u32;
        let verdict = self.pie.arrive(self.bytes, size, room, ecn, word, moment)?;
        let (place, said, ecn): (usize, &[u8], Ecn) = match verdict {
            Verdict::Enqueue => (0, b"enqueue", ecn),
            Verdict::Mark => (1, b"mark", Ecn::Ce),
            Verdict::Early => (2, b"early", ecn),
            Verdict::Bytes => (3, b"bytes", ecn),
            Verdict::Packets => (4, b"packets", ecn),
        };
        self.statistics.verdicts[place] += 1;
        if verdict.is_queued() {
            self.bytes += u64::from(size);
            self.ring.push_back(Packet { tag, size, ecn, since: self.pie.moment });
        }
        row.push_field(said);
        Ok(())
    }

    fn depart(&mut self, row: &mut csv::ByteRecord) -> Result<(), Box<dyn Error>> {
        let moment: u64 = number(row, 2)?;
        let Some(packet) = self.ring.pop_front() else {
            self.pie.empty(moment)?;
            self.statistics.empty += 1;
            row.push_field(b"empty");
            return Ok(());
        };
        self.bytes -= u64::from(packet.size);
        self.pie.depart(packet.size, self.bytes, moment)?;
        self.statistics.left += 1;
        self.statistics.left_bytes += u64::from(packet.size);
        self.statistics.waited += u128::from(self.pie.moment - packet.since);
        row.push_field(b"left");
        push(row, packet.tag);
        push(row, packet.size);
        row.push_field(ecn_word(packet.ecn));
        Ok(())
    }

    fn update(&mut self, row: &mut csv::ByteRecord) -> Result<(), Box<dyn Error>> {
        let updated = self.pie.update(self.bytes, number(row, 2)?)?;
        self.statistics.updates += 1;
        self.statistics.largest_delay = self.statistics.largest_delay.max(updated.delay);
        push(row, updated.delay);
        push(row, updated.prob);
        push(row, updated.burst);
        Ok(())
    }

    /// Answers a record, and replaces `row` by the record to be written.
    fn answer(&mut self, row: &mut csv::ByteRecord) -> Result<(), Box<dyn Error>> {
        match row.get(0) {
            Some(b"arrive") => self.arrive(row)?,
            Some(b"depart") => self.depart(row)?,
            Some(b"update") => self.update(row)?,
            Some(b"reset") => {
                self.pie.reset(number(row, 2)?)?;
                self.statistics.resets += 1;
                row.push_field(b"done");
            }
            Some(b"params") => {
                self.pie.set_params(&params(row, 3)?, number(row, 2)?)?;
                self.statistics.changes += 1;
                row.push_field(b"done");
            }
            Some(b"fold") => {
                *row = csv::ByteRecord::from(vec![b"folded", row.get(1).ok_or("too few fields")?]);
                return Ok(());
            }
            Some(b"show") => return Ok(self.show(row)),
            Some(b"tally") => return Ok(self.tally(row)),
            _ => return Err("unknown kind".into()),
        }
        self.events += 1;
        self.statistics.largest_queue = self.statistics.largest_queue.max(self.bytes);
        Ok(())
    }

    fn show(&self, row: &mut csv::ByteRecord) {
        let pie = &self.pie;
        row.clear();
        row.push_field(b"shown");
        for number in [self.events, pie.moment, self.ring.len() as u64, self.bytes, pie.prob, pie.old_delay, pie.accu, pie.burst, pie.last] {
            push(row, number);
        }
        push(row, pie.average);
        push(row, pie.measuring);
    }

    fn tally(&self, row: &mut csv::ByteRecord) {
        let it = &self.statistics;
        row.clear();
        row.push_field(b"tallied");
        push(row, it.verdicts.iter().sum::<u64>());
        for number in it.verdicts {
            push(row, number);
        }
        for number in [it.left, it.left_bytes, it.empty, it.updates, it.resets, it.changes, it.largest_queue, it.largest_delay] {
            push(row, number);
        }
        push(row, it.waited);
    }
}

fn main() -> Result<(), Box<dyn Error>> {
    let mut reader = csv::ReaderBuilder::new().has_headers(false).flexible(true).from_reader(io::stdin().lock());
    let mut writer = csv::WriterBuilder::new().flexible(true).from_writer(io::stdout().lock());
    let mut row = csv::ByteRecord::new();
    if !reader.read_byte_record(&mut row)? {
        return Err("no first record".into());
    }
    let chosen = if row.len() == 5 { Params::default() } else { params(&row, 5)? };
    // a trace of version one estimates delays from the departure rate
    let choices = Choices { delay_stamp: false, ..Choices::default() };
    let mut link = Link {
        pie: State::open(&Opening { params: chosen, moment: number(&row, 1)?, choices, ..Opening::for_rate(10_000_000) })?,
        ring: VecDeque::new(),
        packets: number(&row, 2)?,
        bytes: 0,
        events: 0,
        statistics: Statistics::default(),
    };
    writer.write_byte_record(&row)?;
    while reader.read_byte_record(&mut row)? {
        link.answer(&mut row)?;
        writer.write_byte_record(&row)?;
    }
    writer.flush()?;
    Ok(())
}
