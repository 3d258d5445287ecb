//! The worked rows of the parts of the controller, as in `bindings/c/rows.c`.

use std::error::Error;

use juniperbowls::{Choices, Ecn, MAX_BYTES, MAX_MOMENT, MAX_SIZE, Mode, Opening, Parameter, Params, Profile, Refusal, State, Verdict};

const TENTH: u64 = 100_000_000_000;
const ONE: u64 = 1_000_000_000_000;
const LATEST: u64 = (1 << 60) - 1;

fn open_with(params: &Params, moment: u64, profile: Profile, choices: Choices) -> Result<State, Refusal> {
    State::open(&Opening { params: *params, moment, profile, choices, ..Opening::for_rate(0) })
}

fn open(params: &Params, moment: u64) -> Result<State, Refusal> {
    open_with(params, moment, Profile::One, Choices::NONE)
}

fn opened() -> State {
    open(&Params::default(), 0).unwrap()
}

fn at(prob: u64, old_delay: u64) -> State {
    State { prob, old_delay, burst: 0, ..opened() }
}

fn next(prob: u64, old_delay: u64, delay: u64) -> u64 {
    let mut state = State { average: delay, ..at(prob, old_delay) };
    state.update(16_384, 15_000_000).unwrap().prob
}

#[test]
fn parameters() {
    let defaults = Params::default();
    assert_eq!(defaults.first_bad(), None);
    assert_eq!((defaults.target, defaults.alpha, defaults.dq_threshold), (15_000_000, 125, 16_384));
    let odd = Params { dq_threshold: 3000, ..defaults };
    assert_eq!(odd.first_bad(), Some(Parameter::DqThreshold));
    let both = Params { target: 1, ..odd };
    assert_eq!(both.first_bad(), Some(Parameter::Target));
    assert_eq!(open(&both, LATEST + 1), Err(Refusal::Params(Parameter::Target)));
    assert_eq!(open_with(&odd, LATEST + 1, Profile::Two, Choices::NONE), Err(Refusal::Params(Parameter::DqThreshold)));
    assert_eq!(open(&defaults, LATEST + 1), Err(Refusal::Moment));
    assert_eq!(open(&defaults, LATEST).map(|state| state.burst), Ok(150_000_000));
}

#[test]
fn departure_rate() {
    let mut state = opened();
    state.depart(1500, 20_000, 1000).unwrap();
    state.depart(16_384, 16_384, 12_001_000).unwrap();
    assert_eq!((state.average, state.measuring), (12_000_000, 1));
    state.depart(16_384, 0, 32_001_000).unwrap();
    assert_eq!((state.average, state.measuring), (14_000_000, 0));
    let mut state = opened();
    state.depart(1500, 20_000, 5).unwrap();
    state.depart(16_384, 0, 5).unwrap();
    assert_eq!(state.average, 1);
    let mut state = opened();
    state.depart(1500, 40_000, 0).unwrap();
    for k in 1..=10 {
        state.depart(1500, 20_000, 1_000_000 * k).unwrap();
    }
    assert_eq!((state.average, state.cycle_count), (0, 15_000));
    state.depart(1500, 16_384, 11_000_000).unwrap();
    assert_eq!((state.average, state.cycle_start), (11_000_000, 11_000_000));
}

#[test]
fn delays_and_probabilities() {
    let mut state = State { average: 14_000_000, ..opened() };
    assert_eq!(state.update(49_152, 15_000_000).unwrap().delay, 42_000_000);
    let params = Params { dq_threshold: 1024, ..Params::default() };
    let mut state = State { average: 1 << 59, ..open(&params, 0).unwrap() };
    assert_eq!(state.update(1 << 30, 15_000_000).unwrap().delay, 1 << 40);
    assert_eq!(next(0, 0, 30_000_000), 19_226_074);
    assert_eq!(next(19_226_074, 30_000_000, 30_000_000), 33_874_511);
    assert_eq!(next(TENTH, 15_000_000, 60_000_000), 120_000_000_000);
    assert_eq!(next(99_999_999_999, 15_000_000, 60_000_000), 130_937_499_999);
    assert_eq!(next(ONE, 0, 0), 978_162_500_000);
    assert_eq!(next(50, 0, 0), 0);
}

#[test]
fn early_drop() {
    let mut state = at(TENTH, 15_000_000);
    for k in 1..=84 {
        let verdict = state.arrive(3000, 1500, 1, Ecn::NotEct, u64::MAX, 0);
        assert_eq!((verdict, state.accu), (Ok(Verdict::Enqueue), k * TENTH));
    }
    let verdict = state.arrive(3000, 1500, 1, Ecn::NotEct, u64::MAX, 0);
    assert_eq!((verdict, state.accu), (Ok(Verdict::Early), 0));
    for (ecn, prob, picked) in [
        (Ecn::NotEct, TENTH, Verdict::Early),
        (Ecn::Ect0, TENTH, Verdict::Early),
        (Ecn::NotEct, TENTH - 1, Verdict::Early),
        (Ecn::Ect0, TENTH - 1, Verdict::Mark),
        (Ecn::Ect1, TENTH - 1, Verdict::Mark),
        (Ecn::Ce, TENTH - 1, Verdict::Mark),
    ] {
        let mut state = State { accu: 800_000_000_000, ..at(prob, 15_000_000) };
        assert_eq!(state.arrive(3000, 1500, 1, ecn, 0, 0), Ok(picked));
    }
    for (prob, old_delay, queued, accu) in [
        (TENTH, 15_000_000, 2048, 0),
        (TENTH, 15_000_000, 2049, TENTH),
        (TENTH, 7_499_999, 3000, 0),
        (TENTH, 7_500_000, 3000, TENTH),
        (199_999_999_999, 0, 3000, 0),
        (200_000_000_000, 0, 3000, 200_000_000_000),
    ] {
        let mut state = at(prob, old_delay);
        state.arrive(queued, 1500, 1, Ecn::NotEct, u64::MAX, 0).unwrap();
        assert_eq!(state.accu, accu);
    }
}

#[test]
fn tail_drop_by_bytes_then_by_packets() {
    let mut state = State { accu: TENTH, ..at(TENTH, 15_000_000) };
    assert_eq!(state.arrive(262_140, 5, 0, Ecn::Ect0, 0, 0), Ok(Verdict::Bytes));
    assert_eq!(state.accu, 0);
    assert_eq!(state.arrive(262_140, 4, 0, Ecn::Ect0, 0, 0), Ok(Verdict::Packets));
    assert_eq!(state.arrive(262_140, 4, 1, Ecn::Ect0, 0, 0), Ok(Verdict::Enqueue));
}

#[test]
fn burst_allowance() {
    let mut state = State { average: 30_000_000, ..opened() };
    for k in 1..=10 {
        let updated = state.update(16_384, 15_000_000 * k).unwrap();
        assert_eq!(updated.burst, 150_000_000 - 15_000_000 * k);
    }
    assert_eq!(state.update(16_384, 165_000_000).unwrap().burst, 0);
}

#[test]
fn moments_and_refusals() {
    let mut state = opened();
    state.empty(9).unwrap();
    state.empty(5).unwrap();
    assert_eq!(state.moment, 9);
    let before = state;
    assert_eq!(state.update(0, 14_999_999), Err(Refusal::TooSoon { due: 15_000_000 }));
    assert_eq!(state.empty(LATEST + 1), Err(Refusal::Moment));
    assert_eq!(state.arrive(0, 0, 1, Ecn::NotEct, 0, 0), Err(Refusal::Size));
    assert_eq!(state.depart(65_536, 0, 0), Err(Refusal::Size));
    assert_eq!(state.depart(1, (1 << 30) + 1, 0), Err(Refusal::Queue));
    assert_eq!(state, before);
    let updated = state.update(0, 15_000_000).unwrap();
    assert_eq!((updated.due, updated.delay, updated.prob, updated.burst), (30_000_000, 0, 0, 150_000_000));
    let mut bad = State { measuring: 2, ..state };
    assert_eq!((state.check(), bad.check()), (Ok(()), Err(Refusal::State)));
    assert_eq!(bad.reset(0), Err(Refusal::State));
    assert_eq!((bad.depart(1500, 0, 0), bad.empty(0), bad.measuring), (Ok(()), Ok(()), 0));
}

#[test]
fn marks_drops_and_a_lone_enqueue() {
    let mut params = Params {
        target: 2,
        t_update: 1,
        max_burst: 0,
        alpha: 850_000,
        beta: 0,
        mean_pkt: 1,
        limit_bytes: 100_000,
        mark_ecnth: ONE,
        dq_threshold: 1024,
    };
    let mut state = open(&params, 0).unwrap();
    for k in 0..4 {
        assert_eq!(state.arrive(1024 * k, 1024, 8, Ecn::NotEct, 0, 0), Ok(Verdict::Enqueue));
    }
    state.depart(1024, 3072, 1000).unwrap();
    state.depart(1024, 2048, 1_001_000).unwrap();
    for (k, prob) in [(0, 830_077_294), (1, 53_955_024_169), (2, 903_954_174_169)] {
        let updated = state.update(2048, 1_001_000 + k).unwrap();
        assert_eq!((updated.delay, updated.prob, updated.burst), (2_000_000, prob, 0));
    }
    assert_eq!(state.arrive(2048, 500, 6, Ecn::Ect0, 0, 1_001_003), Ok(Verdict::Mark));
    assert_eq!(state.arrive(2548, 500, 5, Ecn::NotEct, 0, 1_001_003), Ok(Verdict::Early));
    assert_eq!(state.arrive(2548, 500, 5, Ecn::NotEct, u64::MAX, 1_001_003), Ok(Verdict::Enqueue));
    assert_eq!((state.accu, state.average, state.measuring), (903_954_174_169, 1_000_000, 1));
    params.max_burst = 50;
    state.set_params(&params, 1_001_004).unwrap();
    assert_eq!((state.accu, state.average, state.measuring, state.burst), (903_954_174_169, 0, 0, 0));
    state.reset(1_001_005).unwrap();
    assert_eq!((state.prob, state.old_delay, state.accu, state.burst), (0, 0, 0, 50));
    assert_eq!((state.moment, state.last), (1_001_005, 1_001_002));
    params.target = 1;
    assert_eq!(state.set_params(&params, 1_001_006), Err(Refusal::Params(Parameter::Target)));
}

/// Parameters under which 3072 bytes reach a third of the limit.
const SMALL: Params = Params {
    target: 2,
    t_update: 1,
    max_burst: 5,
    alpha: 850_000,
    beta: 0,
    mean_pkt: 1,
    limit_bytes: 9000,
    mark_ecnth: ONE,
    dq_threshold: 1024,
};

fn two_more(state: &mut State, queued: u64, moment: u64) {
    assert_eq!(state.arrive(queued, 1024, 7, Ecn::NotEct, 0, moment), Ok(Verdict::Enqueue));
    assert_eq!(state.arrive(queued + 1024, 1024, 6, Ecn::NotEct, 0, moment), Ok(Verdict::Enqueue));
}

#[test]
fn profile_two_turns_on_and_off() {
    for (profile, first, update) in [(Profile::Two, 0, (1000, 414_208, 4)), (Profile::One, 1, (16, 5810, 4))] {
        let mut state = open_with(&SMALL, 0, profile, Choices::NONE).unwrap();
        assert_eq!((state.profile, state.active), (profile as u64, first));
        two_more(&mut state, 0, 0);
        state.depart(1024, 1024, 1).unwrap();
        assert_eq!((state.active, state.measuring), (first, first));
        two_more(&mut state, 1024, 1);
        assert_eq!(state.active, 1);
        state.depart(1024, 2048, 2).unwrap();
        state.depart(1024, 1024, 1002).unwrap();
        let made = state.update(1024, 1002).unwrap();
        assert_eq!((made.delay, made.prob, made.burst), update);
        state.reset(1003).unwrap();
        for moment in [1004, 1005] {
            let made = state.update(1024, moment).unwrap();
            assert_eq!((made.delay, made.prob, made.burst), (0, 0, 5));
            assert_eq!(state.active, first);
        }
        assert_eq!(state.update(1024, 1005), Err(Refusal::TooSoon { due: 1006 }));
    }
}

#[test]
fn a_tail_drop_turns_on() {
    let mut state = open_with(&SMALL, 0, Profile::Two, Choices::NONE).unwrap();
    two_more(&mut state, 0, 0);
    assert_eq!((state.arrive(2048, 1024, 6, Ecn::NotEct, 0, 0), state.active), (Ok(Verdict::Enqueue), 1));
    let made = state.update(3072, 1).unwrap();
    assert_eq!((made.delay, made.prob, made.burst, state.active), (0, 0, 5, 0));
    assert_eq!((state.arrive(3072, 65_535, 5, Ecn::NotEct, 0, 1), state.active), (Ok(Verdict::Bytes), 1));
    let mut bad = State { active: 2, ..state };
    assert_eq!(bad.reset(1), Err(Refusal::State));
}

/// Each parameter that is out of its range, by name; and words for each refusal.
#[test]
fn refusals_tell_why() {
    let d = Params::default();
    let cases = [
        (Params { target: 1, ..d }, Parameter::Target, "target"),
        (Params { t_update: 0, ..d }, Parameter::TUpdate, "t_update"),
        (Params { max_burst: ONE + 1, ..d }, Parameter::MaxBurst, "max_burst"),
        (Params { alpha: 1_000_001, ..d }, Parameter::Alpha, "alpha"),
        (Params { beta: 1_000_001, ..d }, Parameter::Beta, "beta"),
        (Params { mean_pkt: 65_536, ..d }, Parameter::MeanPkt, "mean_pkt"),
        (Params { limit_bytes: MAX_BYTES + 1, ..d }, Parameter::LimitBytes, "limit_bytes"),
        (Params { mark_ecnth: ONE + 1, ..d }, Parameter::MarkEcnth, "mark_ecnth"),
        (Params { dq_threshold: 32_767, ..d }, Parameter::DqThreshold, "dq_threshold"),
    ];
    for (params, parameter, name) in cases {
        assert_eq!(opened().set_params(&params, 0), Err(Refusal::Params(parameter)));
        let error: Box<dyn Error> = open(&params, 0).unwrap_err().into();
        assert_eq!(error.to_string(), format!("the parameter {name} is out of its range"));
    }
    let queued = [Verdict::Enqueue, Verdict::Mark, Verdict::Early, Verdict::Bytes, Verdict::Packets].map(Verdict::is_queued);
    assert_eq!(queued, [true, true, false, false, false]);
    let late: Box<dyn Error> = opened().update(0, 1).unwrap_err().into();
    assert_eq!(late.to_string(), "an update before it is due, at 15000000 ns");
    assert_eq!(Refusal::Unknown(1000).to_string(), "refused by the code 1000");
}

/// Each number as it is named, and whole: none is cut to 8, 16 or 32 bits on its way.
#[test]
fn widths() {
    assert_eq!([Ecn::NotEct as u32, Ecn::Ect1 as u32, Ecn::Ect0 as u32, Ecn::Ce as u32], [0, 1, 2, 3]);
    let mut state = at(ONE / 2, 15_000_000);
    let before = state;
    for size in [0, MAX_SIZE + 1, MAX_SIZE + 1 + 1500, u32::MAX] {
        assert_eq!(state.arrive(3000, size, 1, Ecn::NotEct, 0, 0), Err(Refusal::Size));
        assert_eq!(state.depart(size, 0, 0), Err(Refusal::Size));
    }
    for queued in [MAX_BYTES + 1, 1 << 32, u64::MAX] {
        assert_eq!(state.arrive(queued, 1500, 1, Ecn::NotEct, 0, 0), Err(Refusal::Queue));
        assert_eq!(state.depart(1500, queued, 0), Err(Refusal::Queue));
        assert_eq!(state.update(queued, 15_000_000), Err(Refusal::Queue));
    }
    for moment in [MAX_MOMENT + 1, u64::MAX] {
        assert_eq!(state.arrive(0, 1500, 1, Ecn::NotEct, 0, moment), Err(Refusal::Moment));
        assert_eq!(state.reset(moment), Err(Refusal::Moment));
    }
    assert_eq!(state, before);
    for room in [255, 256, 65_535, 65_536, 1 << 31, u32::MAX] {
        assert_eq!(state.arrive(3000, 1500, room, Ecn::Ce, 0, 0), Ok(Verdict::Enqueue));
        assert_eq!(state.arrive(3000, 1500, 0, Ecn::Ce, 0, 0), Ok(Verdict::Packets));
    }
    state.params.limit_bytes = MAX_BYTES - 1;
    assert_eq!(state.arrive(MAX_BYTES, 1, 1, Ecn::NotEct, u64::MAX, 0), Ok(Verdict::Bytes));
    assert_eq!(state.arrive(MAX_BYTES - 65_536, 65_535, 1, Ecn::NotEct, u64::MAX, 0), Ok(Verdict::Enqueue));
    for (word, verdict) in [(1 << 63, Verdict::Enqueue), ((1 << 63) - 1, Verdict::Early)] {
        state.accu = 800_000_000_000;
        assert_eq!(state.arrive(3000, 1500, 1, Ecn::NotEct, word, 0), Ok(verdict));
    }
}

/// Moments, delays and burst allowances near the ends of their ranges.
#[test]
fn large_numbers() {
    let params = Params { max_burst: ONE, t_update: 10_000_000_000, ..Params::default() };
    let start = (1 << 59) + 1;
    let mut state = open(&params, start).unwrap();
    assert_eq!((state.moment, state.last, state.burst, state.due()), (start, start, ONE, start + 10_000_000_000));
    state.depart(65_535, 16_384, start + 5).unwrap();
    assert_eq!((state.cycle_start, state.moment), (start + 5, start + 5));
    state.depart(65_535, 16_383, start + 4_000_000_005).unwrap();
    assert_eq!(state.average, 4_000_000_000);
    assert_eq!(state.update(100_000, start + 9_999_999_999), Err(Refusal::TooSoon { due: start + 10_000_000_000 }));
    let made = state.update(100_000, start + 10_000_000_000).unwrap();
    assert_eq!((made.due, made.delay), (start + 20_000_000_000, 24_414_062_500));
    assert_eq!((made.prob, made.burst), (16_390_361_785, ONE - 10_000_000_000));
    assert_eq!((state.prob, state.old_delay, state.burst), (made.prob, made.delay, made.burst));
    assert_eq!(state.arrive(0, 1500, 1, Ecn::Ect1, 0, LATEST - 1), Ok(Verdict::Enqueue));
    assert_eq!(state.moment, LATEST - 1);
    state.reset(LATEST).unwrap();
    assert_eq!((state.moment, state.burst, state.last), (LATEST, ONE, start + 10_000_000_000));
    assert_eq!(state.update(0, LATEST).map(|made| made.due), Ok(LATEST + 10_000_000_000));
}

/// A departure that finds the queue empty changes only the moment; a reset and new parameters change only their own fields.
#[test]
fn what_stays() {
    let mut state = at(TENTH, 15_000_000);
    state.depart(1500, 40_000, 1).unwrap();
    state.depart(1500, 40_000, 2).unwrap();
    state.arrive(3000, 1500, 1, Ecn::NotEct, u64::MAX, 3).unwrap();
    state.average = 30_000_000;
    state.update(16_384, 15_000_000).unwrap();
    assert!(state.prob != 0 && state.accu != 0 && state.cycle_count == 1500);
    let mut expected = State { moment: 15_000_001, ..state };
    state.empty(15_000_001).unwrap();
    assert_eq!(state, expected);
    // nine parameters, each another one than before
    let params = Params {
        target: 14_999_999,
        t_update: 15_000_001,
        max_burst: 150_000_002,
        alpha: 126,
        beta: 1253,
        mean_pkt: 1025,
        limit_bytes: 262_151,
        mark_ecnth: 100_000_000_008,
        dq_threshold: 32_768,
    };
    state.set_params(&params, 15_000_002).unwrap();
    let no_rate = State { average: 0, measuring: 0, cycle_start: 0, cycle_count: 0, ..expected };
    expected = State { params, moment: 15_000_002, ..no_rate };
    assert_eq!(state, expected);
    state.reset(15_000_003).unwrap();
    assert_eq!(state, State { moment: 15_000_003, prob: 0, old_delay: 0, accu: 0, burst: 150_000_002, ..expected });
    for (profile, number, active) in [(Profile::One, 1, 1), (Profile::Two, 2, 0)] {
        let cleared = State { moment: 7, last: 7, prob: 0, old_delay: 0, accu: 0, burst: 150_000_002, ..expected };
        let opening = State { profile: number, active, ..cleared };
        assert_eq!(open_with(&params, 7, profile, Choices::NONE), Ok(opening));
    }
}

/// A limit of 200 ms at a rate, within the range of `limit_bytes`.
#[test]
fn limits_by_rate() {
    for (rate, limit) in [
        (0, 262_144),
        (1, 25_000),
        (500_000, 25_000),
        (1_000_000, 25_000),
        (1_000_001, 25_001),
        (10_000_000, 250_000),
        (10_485_761, 262_145),
        (100_000_000, 2_500_000),
        (40_000_000_000, 1_000_000_000),
        (100_000_000_000, MAX_BYTES),
        (u64::MAX, MAX_BYTES),
    ] {
        assert_eq!(Params::for_rate(rate), Params { limit_bytes: limit, ..Params::default() });
        assert_eq!(Params::for_rate(rate).first_bad(), None);
        let opening = Opening::for_rate(rate);
        assert_eq!((opening.params, opening.moment, opening.mode), (Params::for_rate(rate), 0, Mode::Rolling));
        assert_eq!(opening.choices, Choices { delay_stamp: true, ..Choices::NONE });
        assert_eq!((opening.packets, opening.tail, opening.events), (1 << 20, 1024, 1 << 47));
        assert!(State::open(&opening).is_ok());
        for bad in [Opening { packets: 0, ..opening }, Opening { tail: (1 << 20) + 1, ..opening }, Opening { events: u64::MAX, ..opening }] {
            assert_eq!(State::open(&bad), Err(Refusal::Limits));
            assert_eq!(State::open(&Opening { moment: MAX_MOMENT + 1, ..bad }), Err(Refusal::Moment));
        }
    }
}

/// If delays come from time stamps, a departure has the moment of its packet's arrival, and an update uses its waiting time.
#[test]
fn delays_by_time_stamps() {
    let choices = Choices { delay_stamp: true, ..Choices::NONE };
    let mut state = open_with(&Params::default(), 0, Profile::One, choices).unwrap();
    assert_eq!(state.choices, 1);
    let before = state;
    assert_eq!(state.depart(1500, 3000, 9), Err(Refusal::NotWaited));
    assert_eq!(state.depart_waited(1500, 3000, 1, 9), Err(Refusal::Arrived));
    assert_eq!(state, before);
    state.arrive(0, 1500, 9, Ecn::NotEct, 0, 5).unwrap();
    state.depart_waited(1500, 3000, 5, 20_000_005).unwrap();
    assert_eq!((state.waited, state.measuring), (20_000_000, 0));
    assert_eq!(state.update(0, 20_000_005).unwrap().delay, 20_000_000);
    state.depart_waited(1500, 0, 5, 30_000_000).unwrap();
    assert_eq!(state.waited, 0);
    let mut rate = open(&Params::default(), 0).unwrap();
    rate.depart_waited(1500, 40_000, MAX_MOMENT, 1).unwrap();
    assert_eq!((rate.measuring, rate.waited), (1, 0));
    let choices = Choices { pick_random: true, step_uncapped: true, size_scaled: true, ..Choices::NONE };
    assert_eq!(open_with(&Params::default(), 0, Profile::Two, choices).unwrap().choices, 14);
}
