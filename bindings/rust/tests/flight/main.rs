//! The flight recorder: random events with dumps at random places, beside a writer and of killed processes. The tests that are ignored take
//! `pie` and a C compiler: `bindings/rust/check.sh` runs them too.

#[path = "../../examples/mapped/mod.rs"]
mod mapped;
mod peers;
mod queue;

use std::env;
use std::fs;
use std::io::{self, ErrorKind, Write};
use std::path::{Path, PathBuf};
use std::process::{Command, Stdio};
use std::sync::Arc;
use std::sync::atomic::{AtomicBool, AtomicU64, Ordering};
use std::thread;
use std::time::Duration;

use juniperbowls::{DumpFault, Ecn, Flight, FlightRefusal, MAX_MOMENT, Opening, Packet, Params, Profile, Stats, flight};

use crate::peers::{Told, audited, text_of_c};
use crate::queue::{Queue, Random};

fn zeros(words: usize) -> Arc<[AtomicU64]> {
    (0..words).map(|_| AtomicU64::new(0)).collect()
}

fn bytes_of(memory: &[AtomicU64]) -> Vec<u8> {
    memory.iter().flat_map(|it| it.load(Ordering::Acquire).to_ne_bytes()).collect()
}

/// Returns the text of memory that does not change.
fn left(bytes: &[u8]) -> (Result<(), DumpFault>, Vec<u8>) {
    let mut text = Vec::new();
    (flight::dump_left(bytes, &mut text), text)
}

/// Returns the number of events before a text, and the number of its last event.
fn numbers(text: &[u8]) -> (u64, u64) {
    let text = std::str::from_utf8(text).unwrap();
    assert!(text.ends_with('\n'));
    let (first, rest) = text.split_once('\n').unwrap();
    let fields: Vec<&str> = first.split(',').collect();
    let decay = usize::from(fields[6] == "half"); // is told in front of the mode
    assert_eq!((fields[0], fields.len(), fields[30 + decay]), ("resume", 60 + decay, ""));
    let number = |at: usize| fields[at + decay].parse::<u64>().unwrap();
    let (packets, bytes) = rest.lines().take_while(|it| it.starts_with("queued,")).fold((0, 0), |(packets, bytes), it| {
        (packets + 1, bytes + it.split(',').nth(2).unwrap().parse::<u64>().unwrap())
    });
    assert_eq!((packets, bytes), (number(31), number(32)));
    let clocks = rest.lines().filter(|it| it.starts_with("clock,")).count() as u64;
    assert!(clocks == 0 || clocks == 1 && rest.lines().nth(packets as usize).unwrap().starts_with("clock,0,"));
    (number(29), number(29) + rest.lines().count() as u64 - packets - clocks)
}

/// Returns the number of events before a text whose memory may have changed while it was read, or 0.
fn events_before(text: &[u8]) -> u64 {
    let text = String::from_utf8_lossy(text);
    let fields: Vec<&str> = text.lines().next().unwrap_or("").split(',').collect();
    let decay = usize::from(fields.get(6) == Some(&"half"));
    fields.get(29 + decay).and_then(|it| it.parse().ok()).unwrap_or(0)
}

/// A text has at least the last `wanted` events, or all.
fn check_numbers(text: &[u8], wanted: u64, count: u64) {
    let (first, last) = numbers(text);
    assert_eq!(last, count);
    assert!(first == 0 || last - first >= wanted, "{first} {last} {wanted}");
    assert!(last - first <= wanted + 2 * (wanted / 8 + 1), "{first} {last} {wanted}");
}

#[test]
fn sizes() {
    assert_eq!(flight::words(100_000, 200), Some(626_386)); // as pie_flight_bytes says
    for (events, packets) in [(0, 1), (1, 0), ((1 << 32) + 1, 1), (1, (1 << 20) + 1)] {
        assert_eq!(flight::words(events, packets), None);
    }
    assert!(flight::words(1, 1).is_some() && flight::words(1 << 32, 1 << 20).is_some());
}

#[test]
fn refused_openings() {
    let Queue { opening, pie, .. } = Queue::open(1);
    let opening = Opening { packets: 50, ..opening };
    let memory = zeros(flight::words(100, 50).unwrap());
    memory.iter().for_each(|it| it.store(7, Ordering::Relaxed));
    let open = |memory, events, opening: &Opening| Flight::open(memory, events, opening, &pie).map(|_: Flight<&[AtomicU64]>| ()).unwrap_err();
    let none = Opening { packets: 0, ..opening };
    assert_eq!(open(&memory[1..], 100, &none), FlightRefusal::Sizes);
    assert_eq!(open(&memory, 0, &opening), FlightRefusal::Sizes);
    let late = Opening { moment: MAX_MOMENT + 1, ..opening };
    assert_eq!(open(&memory[1..], 100, &late), FlightRefusal::Memory);
    assert_eq!(open(&memory, 100, &late), FlightRefusal::Opening);
    assert_eq!(open(&memory, 100, &Opening { params: Params { target: 0, ..opening.params }, ..opening }), FlightRefusal::Opening);
    assert_eq!(open(&memory, 100, &Opening { events: 0, ..opening }), FlightRefusal::Opening);
    let other = if opening.profile == Profile::One { Profile::Two } else { Profile::One };
    assert_eq!(open(&memory, 100, &Opening { profile: other, ..opening }), FlightRefusal::Opening);
    assert!(memory.iter().all(|it| it.load(Ordering::Relaxed) == 7));
    let (mut scratch, mut text) = (Vec::new(), Vec::new());
    assert!(matches!(flight::dump(&memory, &mut scratch, &mut text), Err(DumpFault::NoRecorder)));
    assert!(text.is_empty());
}

#[test]
fn the_time_of_day() {
    let mut queue = Queue::open(12);
    let memory = zeros(flight::words(500, queue.opening.packets).unwrap());
    assert!(!flight::clock(&memory, 0, 1) && !flight::clock(&memory[..39], 0, 1));
    assert!(memory.iter().all(|it| it.load(Ordering::Relaxed) == 0));
    let mut recorder = Flight::open(&*memory, 500, &queue.opening, &queue.pie).unwrap();
    for _ in 0..3000 {
        queue.step().keep(&mut recorder, &queue.pie);
    }
    let text = || {
        let (dumped, text) = left(&bytes_of(&memory));
        dumped.unwrap();
        String::from_utf8(text).unwrap()
    };
    let before = text();
    assert!(!flight::clock(&memory, MAX_MOMENT + 1, u64::MAX) && !flight::clock(&memory, 5, 5) && !flight::clock(&memory, 5, 4));
    assert_eq!(text(), before);
    let packets = before.lines().filter(|it| it.starts_with("queued,")).count();
    for (moment, unix_time) in [(0, 1), (MAX_MOMENT, u64::MAX), (0, u64::MAX), (7, 1_795_550_400_000_000_000)] {
        assert!(flight::clock(&memory, moment, unix_time));
        let at_zero = unix_time - moment;
        let mut lines: Vec<String> = before.lines().map(str::to_owned).collect();
        lines.insert(1 + packets, format!("clock,0,{at_zero}"));
        assert_eq!(text().lines().collect::<Vec<_>>(), lines);
    }
    // another recorder in the same memory knows none
    Flight::open(&*memory, 500, &queue.opening, &Queue::open(12).pie).unwrap();
    assert_eq!(text().lines().count(), 1);
}

/// The sum of the waiting times takes more than 64 bits.
#[test]
fn long_waits() {
    let Queue { opening, mut pie, .. } = Queue::open(2);
    let opening = Opening { packets: 50, ..opening };
    let mut recorder = Flight::open(zeros(flight::words(100, 50).unwrap()), 100, &opening, &pie).unwrap();
    let packet = |tag| Packet { tag, size: 1, ecn: Ecn::NotEct };
    let arrived = pie.moment;
    for tag in 0..40 {
        let (event, _) = pie.arrive_event(tag, 50 - tag as u32, packet(tag), u64::MAX, 1, arrived);
        recorder.keep(&pie, &event);
    }
    assert_eq!((recorder.packets(), recorder.bytes()), (40, 40));
    for tag in 0..40 {
        let (event, _) = pie.depart_event(39 - tag, arrived, packet(tag), 2, MAX_MOMENT);
        recorder.keep(&pie, &event);
    }
    let Stats { left, waited, waited_high, .. } = *recorder.stats();
    assert_eq!((left, u128::from(waited_high) << 64 | u128::from(waited)), (40, 40 * u128::from(MAX_MOMENT - arrived)));
    assert!(waited_high > 0);
}

/// A writer with room for this many bytes.
struct Takes(usize);

impl Write for Takes {
    fn write(&mut self, bytes: &[u8]) -> io::Result<usize> {
        let count = bytes.len().min(self.0);
        self.0 -= count;
        if count == 0 { Err(ErrorKind::BrokenPipe.into()) } else { Ok(count) }
    }

    fn flush(&mut self) -> io::Result<()> {
        Ok(())
    }
}

#[test]
fn dumps_at_random_places() {
    let mut random = Random(1);
    for round in 0..20 {
        let mut queue = Queue::open(round);
        let wanted = 1 + if random.is_one_of(2) { random.below(40) } else { random.below(3000) };
        let memory = zeros(flight::words(wanted, queue.opening.packets).unwrap());
        let mut recorder = Flight::open(Arc::clone(&memory), wanted, &queue.opening, &queue.pie).unwrap();
        let (mut count, mut scratch) = (0, Vec::new());
        for _ in 0..4000 {
            let made = queue.step();
            made.keep(&mut recorder, &queue.pie);
            count += u64::from(!made.is_refused());
            assert_eq!((recorder.count(), recorder.packets(), recorder.bytes()), (count, queue.packets.len() as u64, queue.bytes));
            if random.is_one_of(200) {
                let mut text = Vec::new();
                flight::dump(&memory, &mut scratch, &mut text).unwrap();
                check_numbers(&text, wanted, count);
                let (dumped, same) = left(&bytes_of(&memory));
                dumped.unwrap();
                assert_eq!(text, same);
            }
        }
        let Stats { arrivals, enqueued, marked, early, over_bytes, over_packets, left, .. } = *recorder.stats();
        assert_eq!(arrivals, enqueued + marked + early + over_bytes + over_packets);
        assert_eq!(enqueued + marked - left, recorder.packets());
    }
}

#[test]
fn writers_that_stop_and_memory_that_is_cut_short() {
    let mut queue = Queue::open(9);
    let memory = zeros(flight::words(2000, queue.opening.packets).unwrap());
    let mut recorder = Flight::open(&*memory, 2000, &queue.opening, &queue.pie).unwrap();
    let (_, text) = left(&bytes_of(&memory));
    assert_eq!(text.iter().filter(|it| **it == b'\n').count(), 1);
    for _ in 0..5000 {
        queue.step().keep(&mut recorder, &queue.pie);
    }
    let bytes = bytes_of(recorder.memory());
    let (_, text) = left(&bytes);
    for takes in [0, 1, 1000, text.len() - 1] {
        let mut scratch = Vec::new();
        let fault = flight::dump(&memory, &mut scratch, Takes(takes)).unwrap_err();
        assert!(matches!(fault, DumpFault::Write(ref why) if why.kind() == ErrorKind::BrokenPipe));
    }
    flight::dump_left(&bytes, Takes(text.len())).unwrap();
    for count in [0, 7, 8, 300, 320, bytes.len() - 8, bytes.len() - 1] {
        let (dumped, text) = left(&bytes[..count]);
        assert!(matches!(dumped, Err(DumpFault::NoRecorder)) && text.is_empty());
    }
}

/// Memory with some words changed.
fn damaged(bytes: &[u8], random: &mut Random) -> Vec<u8> {
    let mut changed = bytes.to_vec();
    for _ in 0..=random.below(4) {
        let words = if random.is_one_of(2) { 40 } else { bytes.len() as u64 / 8 };
        let at = random.below(words) as usize * 8;
        let before = u64::from_ne_bytes(changed[at..at + 8].try_into().unwrap());
        let word = if random.is_one_of(2) { random.word() >> random.below(64) } else { before ^ 1 << random.below(64) };
        changed[at..at + 8].copy_from_slice(&word.to_ne_bytes());
    }
    changed
}

/// The wall-clock time at moment 0 of small recorders.
const UNIX_TIME: u64 = 1_795_550_400_000_000_000;

/// Returns a small recorder's memory, and the input of the C recorder with the same events.
fn small(seed: u64, wanted: u64, events: u64) -> (Vec<u8>, Told) {
    let mut queue = Queue::open(seed);
    let memory = zeros(flight::words(wanted, queue.opening.packets).unwrap());
    let mut recorder = Flight::open(&*memory, wanted, &queue.opening, &queue.pie).unwrap();
    assert!(flight::clock(&memory, seed, seed + UNIX_TIME));
    let mut told = Told::open(&queue.opening, &queue.pie);
    for _ in 0..events {
        let made = queue.step();
        made.keep(&mut recorder, &queue.pie);
        if !made.is_refused() {
            told.keep(&made, &queue.pie);
        }
    }
    (bytes_of(&memory), told)
}

/// A dump of arbitrary memory ends.
#[test]
fn damaged_memory() {
    let (bytes, _) = small(3, 60, 500);
    let (mut random, mut counts) = (Random(4), [0; 4]);
    for _ in 0..3000 {
        let (dumped, text) = left(&damaged(&bytes, &mut random));
        let kind = match dumped {
            Ok(()) => 0,
            Err(DumpFault::NoRecorder) => 1,
            Err(DumpFault::Broken) => 2,
            Err(_) => 3,
        };
        assert_eq!(text.is_empty(), kind == 1 || kind == 3);
        counts[kind] += 1;
    }
    assert!(counts[0] > 100 && counts[1] > 100 && counts[2] > 100, "{counts:?}");
}

/// A word of the head with another value: the memory is no recorder's, or the text has at most the kept events.
#[test]
fn damaged_heads() {
    let (bytes, _) = small(3, 60, 5); // (the first snapshot is that of the opening)
    let (_, whole) = left(&small(3, 60, 500).0);
    for at in 0..40 {
        let before = u64::from_ne_bytes(bytes[8 * at..8 * at + 8].try_into().unwrap());
        for (number, word) in [u64::MAX, u64::MAX - 1, 1 << 63, 1 << 61, 1 << 32, 0, before.wrapping_add(1), before / 2].into_iter().enumerate() {
            let mut changed = bytes.clone();
            changed[8 * at..8 * at + 8].copy_from_slice(&word.to_ne_bytes());
            let dumped = flight::dump_left(&changed, Takes(4 * whole.len()));
            assert!(!matches!(dumped, Err(DumpFault::Write(_))), "a text without end, of word {at}");
            // the magic number, the version and the sizes; packets of the opening; number of kept events
            let is_size = at <= 6 || at == 8 + 13;
            let is_far = number < 6 && word != before;
            let is_refused = matches!(dumped, Err(DumpFault::NoRecorder));
            assert!(!is_size || !is_far || is_refused, "a recorder with {word} as word {at}");
            assert!(at != 32 || word <= 1 << 60 || is_refused, "{word} kept events");
        }
    }
}

#[test]
#[ignore = "takes crates/pie/out/pie and a C compiler"]
fn the_memory_and_the_text_are_those_of_c() {
    let mut random = Random(5);
    for round in 0..30 {
        let (wanted, events) = (1 + random.below(600), random.below(6000));
        let (memory, told) = small(1000 + round, wanted, events);
        assert!(told.memory_of_c(wanted, UNIX_TIME) == memory, "C keeps otherwise, of seed {}", 1000 + round);
        let (dumped, text) = left(&memory);
        dumped.unwrap();
        assert_eq!(text_of_c(&memory), (0, text.clone()));
        assert_eq!(audited(&text), format!("clean,{}", numbers(&text).1));
        for _ in 0..10 {
            let memory = damaged(&memory, &mut random);
            let (dumped, text) = left(&memory);
            let code = match dumped {
                Ok(()) => 0,
                Err(DumpFault::NoRecorder) => 1,
                Err(DumpFault::Gone) => 2,
                Err(DumpFault::Broken) => 3,
                Err(DumpFault::Write(why)) => panic!("{why}"),
            };
            assert_eq!(text_of_c(&memory), (code, text));
        }
    }
}

/// Memory of version 2 has the text that the recorder of that version wrote. The file has the number of its words, the words, and
/// the text.
#[test]
#[ignore = "takes tests/rows and a C compiler"]
fn memory_of_version_2() {
    let file = fs::read_to_string(Path::new(env!("CARGO_MANIFEST_DIR")).join("../../tests/rows/flight_2.txt")).unwrap();
    let (count, rest) = file.split_once('\n').unwrap();
    let (words, text) = rest.split_at(rest.find("resume,").unwrap());
    let words: Vec<u64> = words.split_whitespace().map(|it| u64::from_str_radix(it, 16).unwrap()).collect();
    assert_eq!((words.len().to_string().as_str(), words[1]), (count, 2));
    let memory: Arc<[AtomicU64]> = words.iter().copied().map(AtomicU64::new).collect();
    let (dumped, found) = left(&bytes_of(&memory));
    dumped.unwrap();
    assert_eq!(String::from_utf8(found).unwrap(), text);
    let mut copied = Vec::new();
    flight::dump(&memory, &mut Vec::new(), &mut copied).unwrap();
    assert_eq!(String::from_utf8(copied).unwrap(), text);
    assert_eq!(text_of_c(&bytes_of(&memory)), (0, text.as_bytes().to_vec()));
}

/// A changed answer is found.
#[test]
#[ignore = "takes crates/pie/out/pie"]
fn an_audit_finds_a_changed_answer() {
    let text = String::from_utf8(left(&small(8, 500, 3000).0).1).unwrap();
    let (first, _) = numbers(text.as_bytes());
    let lines: Vec<&str> = text.lines().collect();
    let begin = lines.iter().position(|it| !["resume", "queued", "clock"].contains(&it.split(',').next().unwrap())).unwrap();
    let at = (begin + 200..).find(|at| lines[*at].ends_with(",enqueue")).unwrap();
    let changed = text.replace(lines[at], &lines[at].replace(",enqueue", ",packets"));
    assert_eq!(audited(changed.as_bytes()), format!("differs,{}", first + (at - begin) as u64 + 1));
}

/// Sets its flag when it is dropped, also if a test fails: the writer that waits for the flag then ends.
struct Enough<'a>(&'a AtomicBool);

impl Drop for Enough<'_> {
    fn drop(&mut self) {
        self.0.store(true, Ordering::Release);
    }
}

#[test]
#[ignore = "takes crates/pie/out/pie"]
fn dumps_while_it_works_are_clean() {
    const WANTED: u64 = 20_000;
    const DUMPS: u32 = 100;
    let mut queue = Queue::open(6);
    let memory = zeros(flight::words(WANTED, queue.opening.packets).unwrap());
    let is_enough = AtomicBool::new(false);
    let (count, dumps, gone) = thread::scope(|scope| {
        let writer = scope.spawn(|| {
            let mut recorder = Flight::open(&*memory, WANTED, &queue.opening, &queue.pie).unwrap();
            while !is_enough.load(Ordering::Acquire) {
                queue.step().keep(&mut recorder, &queue.pie);
            }
            recorder.count()
        });
        let enough = Enough(&is_enough);
        let (mut scratch, mut before, mut dumps, mut gone) = (Vec::new(), 0, 0, 0);
        while dumps < DUMPS {
            let mut text = Vec::new();
            match flight::dump(&memory, &mut scratch, &mut text) {
                Err(DumpFault::NoRecorder) if dumps == 0 => continue,
                Err(DumpFault::Gone) => gone += 1,
                dumped => {
                    dumped.unwrap();
                    let (_, last) = numbers(&text);
                    assert!(last >= before);
                    before = last;
                    assert_eq!(audited(&text), format!("clean,{last}"));
                    dumps += 1;
                }
            }
        }
        drop(enough);
        (writer.join().unwrap(), dumps, gone)
    });
    let (dumped, text) = left(&bytes_of(&memory));
    dumped.unwrap();
    check_numbers(&text, WANTED, count);
    assert!(count > 2 * WANTED, "too few events: {count}");
    println!("{dumps} clean dumps beside a writer of {count} events, and {gone} that came too late");
}

/// The environment variable with the file of a child process; it is unset in the parent.
const FILE: &str = "FLIGHT_FILE";

#[test]
#[ignore = "it is what `what_a_killed_process_left` starts"]
fn works_until_it_is_killed() {
    let Some(file) = env::var_os(FILE) else {
        return;
    };
    let mut queue = Queue::open(u64::from(std::process::id()));
    let wanted = 1 + u64::from(std::process::id()) % 2000;
    let memory = mapped::new_file(Path::new(&file), flight::words(wanted, queue.opening.packets).unwrap()).unwrap();
    let mut recorder = Flight::open(memory, wanted, &queue.opening, &queue.pie).unwrap();
    loop {
        queue.step().keep(&mut recorder, &queue.pie);
    }
}

#[test]
#[ignore = "takes crates/pie/out/pie"]
fn what_a_killed_process_left() {
    let (mut random, mut sum) = (Random(7), 0);
    for round in 0..20 {
        let file = PathBuf::from(env!("CARGO_TARGET_TMPDIR")).join(format!("flight.{}.{round}", std::process::id()));
        let mut child = Command::new(env::current_exe().unwrap())
            .args(["--exact", "works_until_it_is_killed", "--include-ignored"])
            .env(FILE, &file)
            .stdout(Stdio::null())
            .spawn()
            .unwrap();
        let wanted = 1 + u64::from(child.id()) % 2000;
        // (until it has kept some events, however late it has a processor)
        while !fs::read(&file).is_ok_and(|it| matches!(left(&it), (Ok(()), text) if events_before(&text) > 100)) {
            assert!(child.try_wait().unwrap().is_none(), "the child ended");
            thread::sleep(Duration::from_millis(1));
        }
        thread::sleep(Duration::from_micros(random.below(20_000)));
        child.kill().unwrap();
        child.wait().unwrap();
        let memory = fs::read(&file).unwrap();
        fs::remove_file(&file).unwrap();
        let (dumped, text) = left(&memory);
        dumped.unwrap();
        let (_, last) = numbers(&text);
        check_numbers(&text, wanted, last);
        assert_eq!(audited(&text), format!("clean,{last}"));
        sum += last;
    }
    assert!(sum > 1000, "the killed processes kept {sum} events");
}
