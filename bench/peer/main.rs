//! A program over crate `csv` that a user might write in place of `pie run`: it reads the same trace of arrivals
//! and departures, keeps a queue of packets within a byte limit, and writes each record again with an answer.
use std::collections::VecDeque;
use std::io;

struct Packet {
    tag: u64,
    size: u32,
    ecn: String,
}

fn number<T: std::str::FromStr>(field: Option<&[u8]>) -> Option<T> {
    std::str::from_utf8(field?).ok()?.parse().ok()
}

fn main() -> Result<(), Box<dyn std::error::Error>> {
    let mut reader = csv::ReaderBuilder::new()
        .has_headers(false)
        .flexible(true)
        .from_reader(io::stdin().lock());
    let mut writer = csv::WriterBuilder::new()
        .flexible(true)
        .from_writer(io::stdout().lock());
    let mut row = csv::ByteRecord::new();
    let (mut queue, mut bytes) = (VecDeque::new(), 0u64);
    while reader.read_byte_record(&mut row)? {
        match row.get(0) {
            Some(b"arrive") => {
                let _caller: u16 = number(row.get(1)).ok_or("caller")?;
                let _moment: u64 = number(row.get(2)).ok_or("moment")?;
                let tag: u64 = number(row.get(3)).ok_or("tag")?;
                let size: u32 = number(row.get(4)).ok_or("size")?;
                let ecn = std::str::from_utf8(row.get(5).ok_or("ecn")?)?.to_string();
                let _word: u64 = number(row.get(6)).ok_or("word")?;
                if bytes + u64::from(size) > 262144 {
                    row.push_field(b"bytes");
                } else if queue.len() == 1024 {
                    row.push_field(b"packets");
                } else {
                    bytes += u64::from(size);
                    queue.push_back(Packet { tag, size, ecn });
                    row.push_field(b"enqueue");
                }
            }
            Some(b"depart") => {
                let _caller: u16 = number(row.get(1)).ok_or("caller")?;
                let _moment: u64 = number(row.get(2)).ok_or("moment")?;
                match queue.pop_front() {
                    Some(packet) => {
                        bytes -= u64::from(packet.size);
                        row.push_field(b"left");
                        row.push_field(packet.tag.to_string().as_bytes());
                        row.push_field(packet.size.to_string().as_bytes());
                        row.push_field(packet.ecn.as_bytes());
                    }
                    None => row.push_field(b"empty"),
                }
            }
            _ => {}
        }
        writer.write_byte_record(&row)?;
    }
    writer.flush()?;
    Ok(())
}
