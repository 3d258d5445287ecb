//! A queue with PIE in front of it: ten seconds of 10 Mbit/s into a link of 8 Mbit/s. Prints the numbers of sent,
//! dropped and queued packets, and the delay at each sixtieth update.
//!
//! Its clock and its entropy are made up, so that each run prints the same: a program takes `std::time::Instant` and a good generator.

use std::collections::VecDeque;

use juniperbowls::{Ecn, Opening, Refusal, State};

const RATE: u64 = 8_000_000; // bits a second of the link
const BYTE: u64 = 1000; // nanoseconds
const RING: u32 = 1000; // packets

/// A linear congruential generator, whose halves are mixed.
fn random_word(last: &mut u64) -> u64 {
    *last = last.wrapping_mul(6_364_136_223_846_793_005).wrapping_add(1_442_695_040_888_963_407);
    *last ^ (*last >> 29)
}

fn main() -> Result<(), Refusal> {
    let mut pie = State::open(&Opening::for_rate(RATE))?;
    let (mut ring, mut queued, mut free_at, mut word) = (VecDeque::new(), 0_u64, 0, 1);
    let (mut sent, mut dropped, mut updates) = (0, 0, 0);
    for now in (0..10_000_000_000_u64).step_by(800_000) {
        while let Some((size, arrived)) = ring.front().copied().filter(|_| free_at <= now) {
            ring.pop_front();
            queued -= u64::from(size);
            pie.depart_waited(size, queued, arrived, free_at)?;
            free_at += u64::from(size) * BYTE;
            sent += 1;
        }
        if pie.due() <= now {
            let updated = pie.update(queued, now)?;
            updates += 1;
            if updates % 60 == 0 {
                let (delay, prob) = (updated.delay / 1_000_000, updated.prob as f64 / 1e12);
                println!("{:4} ms: delay {delay:3} ms, probability {prob:.3}", now / 1_000_000);
            }
        }
        let room = RING - ring.len() as u32;
        let verdict = pie.arrive(queued, 1000, room, Ecn::NotEct, random_word(&mut word), now)?;
        dropped += u32::from(!verdict.is_queued());
        if verdict.is_queued() {
            if ring.is_empty() {
                free_at = now + 1000 * BYTE;
            }
            ring.push_back((1000_u32, pie.moment));
            queued += 1000;
        }
    }
    println!("{sent} sent, {dropped} dropped, {} waiting", ring.len());
    Ok(())
}
