//! Four threads at one controller: two senders, the link, and one that writes the history, which `pie audit` decides again:
//!
//!     cargo run --features link --example link | pie audit

use std::error::Error;
use std::io;
use std::sync::atomic::{AtomicU32, Ordering::SeqCst};
use std::thread;
use std::time::{Duration, Instant};

use juniperbowls::{Ecn, Link, LinkRefusal, Mode, Opening, Packet, Port, Recorder};

const PACKETS: u64 = 20_000; // of each sender
const PAUSE: Duration = Duration::from_micros(20);

/// Nanoseconds since the opening.
fn since(start: Instant) -> u64 {
    start.elapsed().as_nanos() as u64
}

/// Each packet arrives, as soon as the writer has made room for its event.
fn send(mut port: Port, mut word: u64, start: Instant) {
    for tag in 1..=PACKETS {
        let packet = Packet { tag, size: 1000, ecn: Ecn::Ect0 };
        while port.arrive(packet, word, since(start)) == Err(LinkRefusal::Full) {
            thread::sleep(PAUSE);
        }
        word ^= word << 13;
        word ^= word >> 7;
        word ^= word << 17; // (use a better one)
    }
}

/// Removes queued packets and updates the probability, until no sender is left and the queue is empty.
fn transmit(mut port: Port, senders: &AtomicU32, start: Instant) {
    loop {
        let is_last = senders.load(SeqCst) == 0;
        let departed = port.depart(since(start)); // (a packet's tag, or none waits, or the log is full)
        let _ = port.update(since(start)); // (too soon, most of the time)
        match departed {
            Ok(Some(_)) => {}
            Ok(None) if is_last => return,
            _ => thread::sleep(PAUSE),
        }
    }
}

fn main() -> Result<(), Box<dyn Error>> {
    let opening = Opening { mode: Mode::Bounded, ..Opening::for_link(100_000_000) }; // (no event goes but by a fold)
    let [link, first, second, mut writer] = Link::ports(&opening)?;
    let mut history = Recorder::open(io::stdout().lock(), &opening)?;
    let (senders, workers) = (AtomicU32::new(2), AtomicU32::new(3));
    let (senders, workers) = (&senders, &workers);
    let start = Instant::now();
    thread::scope(|scope| {
        for (port, word) in [(first, 0x9e37_79b9_7f4a_7c15), (second, 0x2545_f491_4f6c_dd1d)] {
            scope.spawn(move || {
                send(port, word, start);
                senders.fetch_sub(1, SeqCst);
                workers.fetch_sub(1, SeqCst);
            });
        }
        scope.spawn(move || {
            transmit(link, senders, start);
            workers.fetch_sub(1, SeqCst);
        });
        loop {
            let is_last = workers.load(SeqCst) == 0;
            match writer.fold() {
                Ok(mut events) => events.try_for_each(|event| event.record(&mut history))?,
                Err(LinkRefusal::NoEvent) if is_last => return Ok(()),
                Err(LinkRefusal::NoEvent) => thread::sleep(PAUSE),
                Err(why) => return Err(why.into()),
            }
        }
    })
}
