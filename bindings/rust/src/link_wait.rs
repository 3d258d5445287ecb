//! Waiting while another port has the turn.

use core::hint::spin_loop;
use core::time::Duration;
use std::thread::{sleep, yield_now};

use crate::LinkRefusal;

/// Rounds that are a pause, each twice as long as the one before: the last one of 64 `spin_loop`s.
const PAUSES: u32 = 7;
/// Rounds that yield the processor, after those and before the rounds that sleep: most turns are over by then.
const YIELDS: u32 = 500;
/// The first and the longest sleep, in microseconds. No call wakes a sleeper, so a turn may stay unused for that
/// time.
const SLEEPS: (u64, u64) = (50, 1000);

/// Makes a call again and again while another port has the turn: after a pause, then with the processor given up, then after a sleep.
pub(crate) fn until_served<T>(mut call: impl FnMut() -> Result<T, LinkRefusal>) -> Result<T, LinkRefusal> {
    let mut rounds = 0_u32;
    loop {
        match call() {
            Err(LinkRefusal::Busy) => wait(rounds),
            answer => return answer,
        }
        rounds = rounds.saturating_add(1);
    }
}

#[cold]
fn wait(rounds: u32) {
    if rounds < PAUSES {
        (0..1 << rounds).for_each(|_| spin_loop());
    } else if rounds < PAUSES + YIELDS {
        yield_now();
    } else {
        let (first, longest) = SLEEPS;
        sleep(Duration::from_micros((first << (rounds - PAUSES - YIELDS).min(8)).min(longest)));
    }
}

#[cfg(test)]
mod tests {
    use super::*;

    /// A call that is busy in many rounds is made until it is served, in the rounds that pause, yield and sleep. Any other
    /// refusal is returned at once.
    #[test]
    fn until_served_waits() {
        let (mut calls, busy) = (0, PAUSES + YIELDS + 3);
        let served = until_served(|| {
            calls += 1;
            if calls <= busy { Err(LinkRefusal::Busy) } else { Ok(calls) }
        });
        assert_eq!(served, Ok(busy + 1));
        let mut calls = 0;
        let refused: Result<(), _> = until_served(|| {
            calls += 1;
            Err(LinkRefusal::Full)
        });
        assert_eq!((refused, calls), (Err(LinkRefusal::Full), 1));
    }
}
