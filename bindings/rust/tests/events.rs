//! The text of events, and the output of a recorder.

use std::io::{self, ErrorKind, Write};

use juniperbowls::{Choices, Ecn, MAX_MOMENT, Mode, Opening, Packet, Params, Profile, Recorder, Refusal, State, Updated, Verdict};

const PACKET: Packet = Packet { tag: u64::MAX, size: 65_535, ecn: Ecn::Ect1 };

fn opening() -> Opening {
    Opening { mode: Mode::Bounded, choices: Choices::NONE, packets: 64, events: 100, ..Opening::for_rate(0) }
}

fn opened() -> (State, Params) {
    (State::open(&opening()).unwrap(), opening().params)
}

#[test]
fn the_text_of_each_event() {
    let (mut pie, params) = opened();
    let (event, verdict) = pie.arrive_event(0, 1, PACKET, u64::MAX, u16::MAX, 7);
    assert_eq!(verdict, Ok(Verdict::Enqueue));
    assert_eq!(event.to_string(), "arrive,65535,7,18446744073709551615,65535,ect1,18446744073709551615,enqueue");
    let (event, verdict) = pie.arrive_event(0, 0, PACKET, 0, 1, 8);
    assert_eq!((verdict, event.to_string()), (Ok(Verdict::Packets), "arrive,1,8,18446744073709551615,65535,ect1,0,packets".into()));
    let (event, left) = pie.depart_event(0, 7, Packet { tag: 3, size: 1, ecn: Ecn::Ce }, 2, MAX_MOMENT);
    assert_eq!((left, event.to_string()), (Ok(()), format!("depart,2,{MAX_MOMENT},left,3,1,ce")));
    let (event, none) = pie.empty_event(2, 9);
    assert_eq!((none, event.to_string()), (Ok(()), "depart,2,9,empty".into()));
    let (event, updated) = pie.update_event(0, 3, 15_000_000);
    let due = MAX_MOMENT + 15_000_000;
    assert_eq!(updated, Ok(Updated { due, delay: 0, prob: 0, burst: 150_000_000 }));
    assert_eq!(event.to_string(), "update,3,15000000,0,0,150000000");
    let (event, late) = pie.update_event(0, 3, 15_000_000);
    assert_eq!((late, event.to_string()), (Err(Refusal::TooSoon { due }), "refused: an update before it is due".into()));
    assert_eq!(pie.reset_event(3, 5).0.to_string(), "reset,3,5,done");
    let (event, done) = pie.set_params_event(&Params { target: 5, ..params }, 3, 6);
    let nine = "5,15000000,150000000,125,1250,1024,262144,100000000000,16384";
    assert_eq!((done, event.to_string()), (Ok(()), format!("params,3,6,{nine},done")));
    let (event, refused) = pie.set_params_event(&Params { alpha: u64::MAX, ..params }, 3, 6);
    assert!(refused.is_err());
    assert_eq!(event.to_string(), "refused: the parameter alpha is out of its range");
    let (event, _) = pie.arrive_event(u64::MAX, 1, PACKET, 0, 1, 0);
    assert_eq!(event.to_string(), "refused: more than 2^30 bytes in the queue");
}

/// Each call with an event decides as the plain call does.
#[test]
fn the_same_decisions() {
    let (mut plain, mut recorded) = (opened().0, opened().0);
    for moment in 0..3000_u64 {
        let (queued, word) = (moment * 97 % 60_000, moment.wrapping_mul(0x9e37_79b9_7f4a_7c15));
        let packet = Packet { tag: moment, size: 1500, ecn: Ecn::Ect0 };
        let at = moment * 1_000_000;
        assert_eq!(plain.arrive(queued, 1500, 9, Ecn::Ect0, word, at), recorded.arrive_event(queued, 9, packet, word, 1, at).1);
        assert_eq!(plain.depart_waited(1500, queued, 0, at), recorded.depart_event(queued, 0, packet, 2, at).1);
        assert_eq!(plain.update(queued, at), recorded.update_event(queued, 3, at).1);
        if moment % 1000 == 999 {
            assert_eq!(plain.reset(at), recorded.reset_event(3, at).1);
            assert_eq!(plain.set_params(&Params::for_rate(moment), at), recorded.set_params_event(&Params::for_rate(moment), 3, at).1);
        }
        assert_eq!(plain, recorded);
    }
}

#[test]
fn refusals_and_gaps() {
    let (mut pie, params) = opened();
    let mut history = Recorder::open(Vec::new(), &opening()).unwrap();
    history.record(&pie.update_event(0, 3, 1).0).unwrap();
    history.record(&pie.update_event(u64::MAX, 3, 1).0).unwrap();
    history.record(&pie.empty_event(1, MAX_MOMENT + 1).0).unwrap();
    history.record_params(&pie.set_params_event(&Params { target: 0, ..params }, 3, 6).0).unwrap();
    history.record(&pie.arrive_event(0, 1, Packet { size: 0, ..PACKET }, 0, 1, 0).0).unwrap();
    history.lost(17).unwrap();
    assert_eq!((history.records(), history.untold()), (6, 1));
    let text = String::from_utf8(history.into_inner()).unwrap();
    assert_eq!(text.split_once('\n').unwrap().1, "refused,2,3\nrefused,3,1\nrefused,4,7\nrefused,5,2\nlost,17\n");
}

#[test]
fn the_time_of_day() {
    let mut pie = opened().0;
    let mut history = Recorder::open(Vec::new(), &Opening { events: (1 << 40) + 1, ..opening() }).unwrap();
    for (moment, unix_time) in [(0, 0), (0, u64::MAX), (MAX_MOMENT, 0), (MAX_MOMENT, u64::MAX), (1, 1_795_550_400_000_000_000)] {
        history.clock(moment, unix_time).unwrap();
    }
    for moment in [MAX_MOMENT + 1, u64::MAX] {
        assert_eq!(history.clock(moment, 7).unwrap_err().kind(), ErrorKind::InvalidInput);
    }
    history.record(&pie.update_event(0, 3, 1).0).unwrap();
    assert_eq!((history.records(), history.untold()), (7, 0));
    let text = String::from_utf8(history.into_inner()).unwrap();
    let (first, rest) = text.split_once('\n').unwrap();
    assert_eq!(first, "open3,1,rate,derandomized,capped,unscaled,bounded,0,64,1024,1099511627777");
    let most = format!("clock,{MAX_MOMENT},0\nclock,{MAX_MOMENT},{}\n", u64::MAX);
    assert_eq!(rest, format!("clock,0,0\nclock,0,{}\n{most}clock,1,1795550400000000000\nrefused,7,3\n", u64::MAX));
    // histories of earlier versions have none
    for profile in [Profile::One, Profile::Two] {
        let mut history = Recorder::open(Vec::new(), &Opening { profile, events: 1 << 40, ..opening() }).unwrap();
        assert_eq!(history.clock(1, 7).unwrap_err().kind(), ErrorKind::InvalidInput);
        assert_eq!((history.records(), history.into_inner().split(|it| *it == b'\n').count()), (1, 2));
    }
}

/// A writer that takes nothing.
#[derive(Debug)]
struct Full;

impl Write for Full {
    fn write(&mut self, _: &[u8]) -> io::Result<usize> {
        Err(ErrorKind::BrokenPipe.into())
    }

    fn flush(&mut self) -> io::Result<()> {
        Ok(())
    }
}

#[test]
fn openings() {
    let open = |it: Opening| Recorder::open(Vec::new(), &it).map(|it| String::from_utf8(it.into_inner()).unwrap());
    let params = Params { target: 5_000_000, ..Params::default() };
    let nine = "5000000,15000000,150000000,125,1250,1024,262144,100000000000,16384";
    let one = Opening { params, moment: 9, ..opening() };
    assert_eq!(open(one).unwrap(), format!("open,9,64,1024,100,{nine}\n"));
    assert_eq!(open(Opening { mode: Mode::Rolling, ..one }).unwrap(), format!("rolling,9,64,1024,100,{nine}\n"));
    let two = Opening { profile: Profile::Two, ..one };
    assert_eq!(open(two).unwrap(), format!("open2,2,bounded,9,64,1024,100,{nine}\n"));
    assert_eq!(open(Opening { mode: Mode::Rolling, ..two }).unwrap(), format!("open2,2,rolling,9,64,1024,100,{nine}\n"));
    let choices = Choices { delay_stamp: true, size_scaled: true, decay_half: true, ..Choices::default() };
    let wanted = format!("open3,1,stamp,derandomized,capped,scaled,half,bounded,9,64,1024,100,{nine}\n");
    assert_eq!(open(Opening { choices, ..one }).unwrap(), wanted);
    let late = Opening { moment: MAX_MOMENT + 1, ..one };
    let bad = Opening { params: Params { alpha: u64::MAX, ..params }, ..one };
    for it in [Opening { packets: 0, ..one }, Opening { tail: (1 << 20) + 1, ..one }, Opening { events: (1 << 47) + 1, ..one }, late, bad] {
        assert_eq!(open(it).unwrap_err().kind(), ErrorKind::InvalidInput);
    }
    assert_eq!(Recorder::open(Full, &one).unwrap_err().kind(), ErrorKind::BrokenPipe);
}
