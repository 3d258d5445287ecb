//! A queue with PIE in front of it that keeps its last events in a file, which survives a kill; and their text, which `pie audit` reads as
//! a history:
//!
//!     flight keep FILE    works until it is killed. Another thread writes the text to FILE.history ten times a second. An existing
//!                         file is from an earlier run: it is moved to FILE.before
//!     flight text FILE    writes the text of the file of a killed run
//!
//! Its clock and its entropy are made up: 16 Mbit/s into a link of 10 Mbit/s, a third of it with ECN.

mod mapped;

use std::collections::VecDeque;
use std::convert::Infallible;
use std::env;
use std::error::Error;
use std::fs::{self, File};
use std::io;
use std::path::Path;
use std::sync::atomic::AtomicU64;
use std::thread;
use std::time::Duration;

use juniperbowls::{DumpFault, Ecn, Flight, Opening, Packet, Params, State, Verdict, flight};

const KEPT: u64 = 20_000; // events
const BYTE: u64 = 800; // nanoseconds on the link
const RING: u32 = 200; // packets
const SIZE: u32 = 1000; // bytes
const CALLERS: [u16; 3] = [1, 2, 3]; // the sender, the link, the timer
const UNIX_TIME: u64 = 1_795_550_400_000_000_000; // of the moment 0: 2026-11-24, 20:00:00 UTC

fn main() -> Result<(), Box<dyn Error>> {
    let words: Vec<String> = env::args().skip(1).collect();
    match words.iter().map(String::as_str).collect::<Vec<_>>()[..] {
        ["keep", file] => match keep(file)? {},
        ["text", file] => Ok(flight::dump_left(&fs::read(file)?, io::stdout().lock())?),
        _ => Err("usage: flight keep FILE, or flight text FILE".into()),
    }
}

/// Works until it is killed.
fn keep(file: &str) -> Result<Infallible, Box<dyn Error>> {
    let params = Params { max_burst: 50_000_000, mark_ecnth: 300_000_000_000, ..Params::default() };
    let opening = Opening { params, packets: u64::from(RING), ..Opening::for_rate(0) };
    let mut pie = State::open(&opening)?;
    if Path::new(file).exists() {
        fs::rename(file, format!("{file}.before"))?;
    }
    let memory = mapped::new_file(Path::new(file), flight::words(KEPT, opening.packets).ok_or("out of range")?)?;
    let mut recorder = Flight::open(memory, KEPT, &opening, &pie)?;
    assert!(flight::clock(memory, 0, UNIX_TIME));
    let history = format!("{file}.history");
    thread::spawn(move || write_now_and_then(memory, &history));

    let [sender, link, timer] = CALLERS;
    let (mut ring, mut free_at, mut word) = (VecDeque::<(Packet, u64)>::new(), 0, 1_u64);
    for tag in 1.. {
        let now = tag * 500_000;
        while let Some((packet, arrived)) = ring.front().copied().filter(|_| free_at <= now) {
            ring.pop_front();
            let (event, left) = pie.depart_event(ring.len() as u64 * u64::from(SIZE), arrived, packet, link, free_at);
            recorder.keep(&pie, &event);
            left?;
            free_at += u64::from(SIZE) * BYTE;
        }
        let queued = ring.len() as u64 * u64::from(SIZE);
        if pie.due() <= now {
            let (event, updated) = pie.update_event(queued, timer, now);
            recorder.keep(&pie, &event);
            updated?;
        }
        word = word.wrapping_mul(6_364_136_223_846_793_005).wrapping_add(1_442_695_040_888_963_407);
        let packet = Packet { tag, size: SIZE, ecn: if tag % 3 == 0 { Ecn::Ect0 } else { Ecn::NotEct } };
        let (event, verdict) = pie.arrive_event(queued, RING - ring.len() as u32, packet, word ^ word >> 29, sender, now);
        recorder.keep(&pie, &event);
        let verdict = verdict?;
        if verdict.is_queued() {
            free_at = free_at.max(if ring.is_empty() { now } else { 0 });
            let ecn = if verdict == Verdict::Mark { Ecn::Ce } else { packet.ecn };
            ring.push_back((Packet { ecn, ..packet }, pie.moment));
        }
        if tag % 1000 == 0 {
            thread::sleep(Duration::from_millis(1));
        }
    }
    Err("the tags ran out".into())
}

/// Writes the text while the queue works. A text file is complete when it has its name.
fn write_now_and_then(memory: &[AtomicU64], history: &str) {
    let (mut scratch, new) = (Vec::new(), format!("{history}.new"));
    loop {
        thread::sleep(Duration::from_millis(100));
        let written = File::create(&new)
            .map_err(DumpFault::from)
            .and_then(|out| flight::dump(memory, &mut scratch, out))
            .and_then(|()| Ok(fs::rename(&new, history)?));
        if let Err(why) = written {
            eprintln!("flight: {history}: {why}");
        }
    }
}
