//! A queue with PIE in front of it that writes its history to standard output: a second of 16 Mbit/s into a link of 10 Mbit/s, a third of it
//! with ECN. `pie audit` decides it again:
//!
//!     cargo run --features std --example recorded | pie audit
//!
//! Its clock and its entropy are made up, so that each run prints the same.

use std::collections::VecDeque;
use std::error::Error;
use std::io;

use juniperbowls::{Choices, Ecn, Opening, Packet, Params, Profile, Recorder, State};

const BYTE: u64 = 800; // nanoseconds on the link
const RING: u32 = 200; // packets
const SIZE: u32 = 1000; // bytes
const CALLERS: [u16; 3] = [1, 2, 3]; // the sender, the link, the timer
const UNIX_TIME: u64 = 1_795_550_400_000_000_000; // of the moment 0: 2026-11-24, 20:00:00 UTC

fn main() -> Result<(), Box<dyn Error>> {
    let params = Params { max_burst: 50_000_000, mark_ecnth: 300_000_000_000, ..Params::default() };
    let choices = Choices { delay_stamp: true, ..Choices::default() };
    let opening = Opening { params, profile: Profile::Two, choices, packets: u64::from(RING), ..Opening::for_rate(0) };
    let mut pie = State::open(&opening)?;
    let mut history = Recorder::open(io::stdout().lock(), &opening)?;
    history.clock(0, UNIX_TIME)?;
    let [sender, link, timer] = CALLERS;
    let (mut ring, mut free_at, mut word) = (VecDeque::<(Packet, u64)>::new(), 0, 1_u64);
    for tag in 1..=2000 {
        let now = tag * 500_000;
        while let Some((packet, arrived)) = ring.front().copied().filter(|_| free_at <= now) {
            ring.pop_front();
            let (event, left) = pie.depart_event(ring.len() as u64 * u64::from(SIZE), arrived, packet, link, free_at);
            history.record(&event)?;
            left?;
            free_at += u64::from(SIZE) * BYTE;
        }
        // a late timer, and one that is too soon: the update is refused and recorded
        if tag % 20 == 0 {
            let (event, _) = pie.update_event(ring.len() as u64 * u64::from(SIZE), timer, now);
            history.record(&event)?;
        }
        word = word.wrapping_mul(6_364_136_223_846_793_005).wrapping_add(1_442_695_040_888_963_407);
        let packet = Packet { tag, size: SIZE, ecn: if tag % 3 == 0 { Ecn::Ect0 } else { Ecn::NotEct } };
        let queued = ring.len() as u64 * u64::from(SIZE);
        let (event, verdict) = pie.arrive_event(queued, RING - ring.len() as u32, packet, word ^ word >> 29, sender, now);
        history.record(&event)?;
        let verdict = verdict?;
        if verdict.is_queued() {
            free_at = free_at.max(if ring.is_empty() { now } else { 0 });
            let ecn = if verdict == juniperbowls::Verdict::Mark { Ecn::Ce } else { packet.ecn };
            ring.push_back((Packet { ecn, ..packet }, pie.moment));
        }
    }
    let (event, done) = pie.set_params_event(&Params::for_rate(100_000_000), timer, 1_000_000_001);
    history.record_params(&event)?;
    done?;
    let (event, done) = pie.reset_event(timer, 1_000_000_002);
    history.record(&event)?;
    done?;
    Ok(())
}
