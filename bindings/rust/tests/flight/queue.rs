//! A small queue with random events: bursts, marks, refusals, moments that fall, new parameters, resets.

use std::collections::VecDeque;
use std::ops::Deref;
use std::sync::atomic::AtomicU64;

use juniperbowls::{Choices, Ecn, Event, Flight, MAX_MOMENT, Mode, ONE, Opening, Packet, Params, ParamsEvent, Profile, State, Verdict};

const MOST_WAITING: u64 = 512;

/// Random numbers (splitmix64).
pub struct Random(pub u64);

impl Random {
    pub fn word(&mut self) -> u64 {
        self.0 = self.0.wrapping_add(0x9e37_79b9_7f4a_7c15);
        let it = (self.0 ^ self.0 >> 30).wrapping_mul(0xbf58_476d_1ce4_e5b9);
        let it = (it ^ it >> 27).wrapping_mul(0x94d0_49bb_1331_11eb);
        it ^ it >> 31
    }

    pub fn below(&mut self, most: u64) -> u64 {
        self.word() % most
    }

    pub fn is_one_of(&mut self, many: u64) -> bool {
        self.below(many) == 0
    }
}

/// The result of a call.
pub enum Made {
    Event(Event),
    Params(ParamsEvent, u16, u64),
}

impl Made {
    pub fn keep<M: Deref<Target = [AtomicU64]>>(&self, flight: &mut Flight<M>, state: &State) {
        match self {
            Made::Event(event) => flight.keep(state, event),
            Made::Params(event, ..) => flight.keep_params(state, event),
        }
    }

    pub fn is_refused(&self) -> bool {
        let text = match self {
            Made::Event(event) => event.to_string(),
            Made::Params(event, ..) => event.to_string(),
        };
        text.starts_with("refused")
    }
}

pub struct Queue {
    pub opening: Opening,
    pub pie: State,
    pub packets: VecDeque<(Packet, u64)>,
    pub bytes: u64,
    random: Random,
    moment: u64,
    tag: u64,
}

impl Queue {
    pub fn open(seed: u64) -> Queue {
        let mut random = Random(seed);
        let params = Params {
            target: 1_000_000 + random.below(1_000_000),
            t_update: 200_000,
            max_burst: random.below(2) * 1_000_000,
            alpha: 2000,
            beta: 20_000,
            limit_bytes: 100_000 + random.below(200_000),
            dq_threshold: 1024 << random.below(4),
            ..Params::default()
        };
        let choices = Choices {
            delay_stamp: random.is_one_of(2),
            pick_random: random.is_one_of(2),
            step_uncapped: random.is_one_of(2),
            size_scaled: random.is_one_of(2),
            decay_half: random.is_one_of(2),
        };
        let opening = Opening {
            params,
            moment: random.below(1000),
            profile: if random.is_one_of(2) { Profile::One } else { Profile::Two },
            choices,
            mode: if random.is_one_of(2) { Mode::Bounded } else { Mode::Rolling },
            packets: 1 + random.below(MOST_WAITING),
            tail: 1024,
            events: 1 << 40,
        };
        let pie = State::open(&opening).unwrap();
        Queue { opening, pie, packets: VecDeque::new(), bytes: 0, random, moment: opening.moment, tag: 0 }
    }

    /// A call.
    pub fn step(&mut self) -> Made {
        let is_burst = self.moment / 40_000_000 % 2 == 1;
        let kind = self.random.below(1000);
        self.moment += self.random.below(60_000);
        let mut moment = self.moment;
        if self.random.is_one_of(100) {
            moment -= self.random.below(moment + 1);
        }
        if self.random.is_one_of(200) {
            moment = MAX_MOMENT + 1;
        }
        let caller = self.random.word() as u16;
        if self.moment >= self.pie.due() || kind == 0 {
            Made::Event(self.pie.update_event(self.bytes, caller, moment).0)
        } else if kind == 1 {
            Made::Event(self.pie.reset_event(caller, moment).0)
        } else if kind < 5 {
            self.change(caller, moment)
        } else if kind < if is_burst { 700 } else { 350 } {
            self.arrive(caller, moment)
        } else if moment <= MAX_MOMENT {
            self.depart(caller, moment)
        } else {
            Made::Event(self.pie.empty_event(caller, moment).0)
        }
    }

    fn change(&mut self, caller: u16, moment: u64) -> Made {
        let random = &mut self.random;
        let params = Params {
            target: 1_000_000 + random.below(1_000_000),
            beta: random.below(1_000_001),
            dq_threshold: 1024 << random.below(7),
            mark_ecnth: random.below(2) * ONE,
            alpha: if random.is_one_of(20) { 1_000_001 } else { 2000 },
            ..self.pie.params
        };
        Made::Params(self.pie.set_params_event(&params, caller, moment).0, caller, moment)
    }

    fn arrive(&mut self, caller: u16, moment: u64) -> Made {
        let random = &mut self.random;
        let ecn = [Ecn::NotEct, Ecn::Ect1, Ecn::Ect0, Ecn::Ce][random.below(4) as usize];
        let size = if random.is_one_of(50) { 70_000 * random.below(2) as u32 } else { 40 + random.below(1461) as u32 };
        self.tag += 1;
        let packet = Packet { tag: self.tag, size, ecn };
        let room = self.opening.packets as u32 - self.packets.len() as u32;
        let (event, verdict) = self.pie.arrive_event(self.bytes, room, packet, random.word(), caller, moment);
        if verdict.is_ok_and(Verdict::is_queued) {
            let ecn = if verdict == Ok(Verdict::Mark) { Ecn::Ce } else { ecn };
            self.packets.push_back((Packet { ecn, ..packet }, self.pie.moment));
            self.bytes += u64::from(size);
        }
        Made::Event(event)
    }

    fn depart(&mut self, caller: u16, moment: u64) -> Made {
        let Some((packet, arrived)) = self.packets.pop_front() else {
            return Made::Event(self.pie.empty_event(caller, moment).0);
        };
        self.bytes -= u64::from(packet.size);
        Made::Event(self.pie.depart_event(self.bytes, arrived, packet, caller, moment).0)
    }
}
