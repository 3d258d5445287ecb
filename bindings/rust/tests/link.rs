//! Calls at the ports of a link: the answer of each, by one thread; and several threads at once.

use std::sync::atomic::{AtomicU64, Ordering::SeqCst};
use std::sync::{Barrier, mpsc};
use std::thread;

use juniperbowls::{
    Ecn, Event, Excerpt, Folded, Link, LinkRefusal, LinkUpdated, MAX_MOMENT, Mode, Opening, Packet, Parameter, Params, Port, Refusal, Verdict,
};

const PACKET: Packet = Packet { tag: 7, size: 1000, ecn: Ecn::Ect0 };

fn opening(tail: u64) -> Opening {
    Opening { mode: Mode::Bounded, tail, ..Opening::for_rate(100_000_000) }
}

/// The records of all events that the log has.
fn folded(port: &mut Port) -> Vec<String> {
    let mut records = Vec::new();
    loop {
        match port.fold() {
            Ok(events) => records.extend(events.map(|event| event.to_string())),
            Err(why) => {
                assert_eq!(why, LinkRefusal::NoEvent);
                return records;
            }
        }
    }
}

#[test]
fn an_opening_is_refused_in_its_order() {
    let bad = Opening { params: Params { target: 1, ..Params::default() }, moment: MAX_MOMENT + 1, ..opening(8) };
    assert_eq!(Link::open(&bad, 0).unwrap_err(), LinkRefusal::Refused(Refusal::Params(Parameter::Target)));
    let bad = Opening { moment: MAX_MOMENT + 1, ..opening(0) };
    assert_eq!(Link::open(&bad, 0).unwrap_err(), LinkRefusal::Refused(Refusal::Moment));
    assert_eq!(Link::open(&opening(0), 0).unwrap_err(), LinkRefusal::Refused(Refusal::Limits));
    assert_eq!(Link::open(&opening(8), 0).unwrap_err(), LinkRefusal::NoCallers);
}

#[test]
fn numbers_are_shared_and_gathered() {
    let mut port = Link::open(&opening(8), 3).unwrap();
    let mut highest = port.share().unwrap();
    let middle = port.share().unwrap();
    assert_eq!(port.share().unwrap_err(), LinkRefusal::OneNumber);
    assert_eq!(highest.share().unwrap_err(), LinkRefusal::OneNumber);
    let mut apart = port.gather(highest).unwrap_err();
    assert_eq!(apart.reset(1), Ok(()));
    let mut strange = Link::open(&opening(8), 2).unwrap();
    let other = strange.share().unwrap();
    let other = port.gather(other).unwrap_err();
    strange.gather(other).unwrap();
    port.gather(middle).unwrap();
    port.gather(apart).unwrap();
    assert_eq!(port.reset(2), Ok(()));
    assert_eq!(folded(&mut port), ["reset,2,1,done", "reset,0,2,done"]);
}

#[test]
fn each_call_answers() {
    let [mut first, mut second] = Link::ports(&opening(8)).unwrap();
    assert_eq!(first.arrive(PACKET, 9, 10), Ok(Verdict::Enqueue));
    assert_eq!(first.arrive(PACKET, 9, MAX_MOMENT + 1), Err(LinkRefusal::Refused(Refusal::Moment)));
    assert_eq!(first.arrive(Packet { size: 0, ..PACKET }, 9, 20), Err(LinkRefusal::Refused(Refusal::Size)));
    assert_eq!(second.depart(30), Ok(Some(PACKET)));
    assert_eq!(second.try_depart(31), Ok(None));
    assert_eq!(second.update(32), Err(LinkRefusal::TooSoon));
    assert_eq!(second.update(15_000_000), Ok(LinkUpdated { delay: 0, prob: 0, burst: 150_000_000 }));
    assert_eq!(second.reset(15_000_001), Ok(()));
    let bad = Params { alpha: u64::MAX, ..Params::default() };
    assert_eq!(second.set_params(&bad, 15_000_002), Err(LinkRefusal::Refused(Refusal::Params(Parameter::Alpha))));
    assert_eq!(second.set_params(&Params { target: 5, ..Params::default() }, 15_000_002), Ok(()));
    let marked = Packet { ecn: Ecn::Ce, tag: u64::MAX, size: 65_535 };
    assert_eq!(first.arrive(marked, 1, 15_000_003), Ok(Verdict::Enqueue));
    assert_eq!(first.depart(15_000_004), Ok(Some(marked)));
    assert_eq!(first.arrive(PACKET, 9, 15_000_005), Err(LinkRefusal::Full));
    let registers = second.registers().unwrap();
    assert_eq!((registers.count, registers.packets, registers.due, registers.params.target), (8, 0, 30_000_000, 5));
    let totals = second.stats().unwrap();
    assert_eq!((totals.count, totals.stats.arrivals, totals.stats.empty, totals.stats.changes), (8, 2, 1, 1));
    let folds = first.fold().unwrap();
    assert_eq!((folds.first_number(), folds.last_number()), (1, 6)); // (a fold ends with new parameters)
    let folds = folds.collect::<Vec<_>>();
    assert!(matches!(folds[0], Folded::Event(event) if event.to_string() == "arrive,0,10,7,1000,ect0,9,enqueue"));
    let records = folds[1..].iter().map(Folded::to_string).chain(folded(&mut second)).collect::<Vec<_>>();
    let events = [
        "depart,1,30,left,7,1000,ect0",
        "depart,1,31,empty",
        "update,1,15000000,0,0,150000000",
        "reset,1,15000001,done",
        "params,1,15000002,5,15000000,150000000,125,1250,1024,262144,100000000000,16384,done",
        "arrive,0,15000003,18446744073709551615,65535,ce,1,enqueue",
        "depart,0,15000004,left,18446744073709551615,65535,ce",
    ];
    assert_eq!(records, events);
    drop(first);
    assert_eq!(second.arrive(PACKET, 9, 15_000_006), Ok(Verdict::Enqueue));
}

/// A link that drops its oldest event: the numbers of a fold show the events that no fold returned.
#[test]
fn gaps() {
    let opening = Opening { tail: 2, packets: 8, ..Opening::for_rate(100_000_000) };
    let mut port = Link::open(&opening, 1).unwrap();
    let mut written = 0;
    for (events, missing, last) in [(2, 0, 2), (5, 3, 7), (1, 0, 8)] {
        (0..events).for_each(|_| port.reset(1).unwrap());
        let folds = port.fold().unwrap();
        assert_eq!((folds.first_number() - 1 - written, folds.last_number()), (missing, last));
        written = folds.last_number();
    }
    assert_eq!(port.fold().unwrap_err(), LinkRefusal::NoEvent);
}

/// Bursts: each event has the result of a call of its own, an update is part of one, and departures end at a budget of bytes or at an empty queue.
#[test]
fn bursts() {
    let mut port = Link::open(&opening(64), 1).unwrap();
    let mut none = [];
    port.arrive_all(&mut none);
    let mut events = [10, 20, 30].map(|moment| Event::arrival(Packet { tag: moment, ..PACKET }, 9, moment));
    events[1] = Event::arrival(Packet { size: 0, ..PACKET }, 9, 20);
    port.arrive_all(&mut events);
    let verdicts = events.map(|it| it.verdict());
    assert_eq!(verdicts, [Ok(Verdict::Enqueue), Err(LinkRefusal::Refused(Refusal::Size)), Ok(Verdict::Enqueue)]);
    let mut events = [Event::update(40), Event::departure(41), Event::departure(42), Event::departure(43)];
    assert_eq!(port.depart_all(1999, &mut events), 2);
    assert_eq!(events[1].departed(), Ok(Some(Packet { tag: 10, ..PACKET })));
    assert_eq!(port.depart_all(u64::MAX, &mut events[2..]), 2);
    assert_eq!((events[2].departed(), events[3].departed()), (Ok(Some(Packet { tag: 30, ..PACKET })), Ok(None)));
    assert_eq!(folded(&mut port).len(), 5);
}

/// The text of an excerpt, once: its records in their order.
fn text(excerpt: &mut Excerpt) -> Vec<String> {
    let mut bytes = Vec::new();
    excerpt.write(&mut bytes).unwrap();
    String::from_utf8(bytes).unwrap().lines().map(str::to_string).collect()
}

#[test]
fn excerpts() {
    let opening = Opening { packets: 4, ..opening(4) };
    let mut port = Link::open(&opening, 1).unwrap();
    let mut excerpt = Excerpt::with_room(&opening).unwrap();
    let none = text(&mut excerpt);
    assert!(none.len() == 1 && none[0].starts_with("resume,"));
    assert_eq!(text(&mut excerpt), [""; 0]);
    port.arrive(PACKET, 9, 10).unwrap();
    port.depart(20).unwrap();
    port.excerpt(&mut excerpt).unwrap();
    let records = [none[0].as_str(), "arrive,0,10,7,1000,ect0,9,enqueue", "depart,0,20,left,7,1000,ect0"];
    assert_eq!(text(&mut excerpt), records);
    let mut small = Excerpt::with_room(&Opening { packets: 3, tail: 3, ..opening }).unwrap();
    assert_eq!(port.try_excerpt(&mut small), Err(LinkRefusal::TooSmall));
    assert_eq!(text(&mut small).len(), 1);
    let bad = Opening { tail: 0, ..opening };
    assert_eq!(Excerpt::with_room(&bad).unwrap_err(), LinkRefusal::Refused(Refusal::Limits));
    let elsewhere = thread::spawn(move || text(&mut excerpt)).join().unwrap();
    assert_eq!(elsewhere, [""; 0]);
}

#[test]
fn as_many_events_as_the_opening_allows() {
    let mut port = Link::open(&Opening { events: 1, ..opening(8) }, 1).unwrap();
    assert_eq!(port.reset(1), Ok(()));
    assert_eq!(port.try_reset(2), Err(LinkRefusal::Exhausted));
}

/// Threads start each burst at the same time. The calls of each are in the history once and in order, for any thread
/// that folds.
#[test]
fn threads_meet() {
    const THREADS: usize = 6;
    const BURSTS: u64 = 300;
    const BURST: u64 = 16;
    let [first, ports @ ..] = Link::ports::<{ THREADS + 1 }>(&opening(1 << 10)).unwrap();
    let (barrier, busy, done) = (Barrier::new(THREADS), AtomicU64::new(0), AtomicU64::new(0));
    let (send, folds) = mpsc::channel();
    thread::scope(|scope| {
        for mut port in ports {
            let (barrier, busy, done) = (&barrier, &busy, &done);
            scope.spawn(move || {
                for tag in 0..BURSTS * BURST {
                    if tag % BURST == 0 {
                        barrier.wait();
                    }
                    loop {
                        match port.try_arrive(Packet { tag, ..PACKET }, 0, tag) {
                            Err(LinkRefusal::Busy) => busy.fetch_add(1, SeqCst),
                            Err(LinkRefusal::Full) => {
                                thread::yield_now();
                                continue;
                            }
                            answer => {
                                answer.unwrap();
                                break;
                            }
                        };
                        thread::yield_now();
                    }
                }
                done.fetch_add(1, SeqCst);
            });
        }
        let (mut port, done) = (first, &done);
        scope.spawn(move || {
            loop {
                let is_last = done.load(SeqCst) == THREADS as u64;
                match port.fold() {
                    Ok(events) => events.for_each(|event| send.send(event.to_string()).unwrap()),
                    Err(LinkRefusal::NoEvent) if is_last => return,
                    Err(LinkRefusal::NoEvent) => thread::yield_now(),
                    Err(why) => panic!("{why}"),
                }
            }
        });
        let (mut next, mut before, mut changes) = ([0; THREADS], 0, 0_u64);
        for record in folds {
            let mut fields = record.split(',').skip(1);
            let caller = fields.next().unwrap().parse::<usize>().unwrap();
            assert_eq!(fields.nth(1).unwrap().parse(), Ok(next[caller - 1]), "caller {caller}: {record}");
            next[caller - 1] += 1;
            changes += u64::from(caller != before);
            before = caller;
        }
        assert_eq!(next, [BURSTS * BURST; THREADS]);
        // (each burst of each thread begins with a change of caller, except the first of a round that continues
        // with the last one's thread)
        assert!(changes >= BURSTS * (THREADS as u64 - 1), "the turn changed hands {changes} times");
    });
}
