//! The programs beside which the recorder is tried: `pie audit`, and the recorder in C.

use std::env;
use std::io::Write;
use std::path::{Path, PathBuf};
use std::process::{Command, Stdio};
use std::sync::OnceLock;

use juniperbowls::{Event, Opening, Params, State};

use crate::queue::Made;

const TOP: &str = concat!(env!("CARGO_MANIFEST_DIR"), "/../..");

/// Returns the status and the output of a program with these arguments and this input.
fn run(program: &Path, words: &[&str], input: &[u8]) -> (i32, Vec<u8>) {
    let mut child = Command::new(program)
        .args(words)
        .stdin(Stdio::piped())
        .stdout(Stdio::piped())
        .spawn()
        .unwrap_or_else(|why| panic!("{}: {why}", program.display()));
    let mut stdin = child.stdin.take().unwrap();
    let output = std::thread::scope(|scope| {
        // (a program that answers before it has read all closes the pipe)
        scope.spawn(move || drop(stdin.write_all(input)));
        child.wait_with_output().unwrap()
    });
    (output.status.code().unwrap(), output.stdout)
}

/// Returns the finding of `pie audit`.
pub fn audited(text: &[u8]) -> String {
    let (_, found) = run(&Path::new(TOP).join("crates/pie/out/pie"), &["audit"], text);
    String::from_utf8(found).unwrap().trim_end().to_owned()
}

/// The recorder in C, built once.
fn peer() -> &'static Path {
    static PEER: OnceLock<PathBuf> = OnceLock::new();
    PEER.get_or_init(|| {
        let program = Path::new(env!("CARGO_TARGET_TMPDIR")).join("peer");
        let built = Command::new(env::var("CC").unwrap_or("cc".into()))
            .args(["-std=c11", "-Wall", "-Wextra", "-Werror", "-O1", "-Iinclude", "-o"])
            .arg(&program)
            .args(["bindings/rust/tests/flight/peer.c", "crates/pie_c/out/libpie_c.a"])
            .current_dir(TOP)
            .status();
        assert!(built.is_ok_and(|it| it.success()), "the recorder in C was not built");
        program
    })
}

/// The bytes of the words of a struct in memory.
fn bytes_of(words: &[u64]) -> Vec<u8> {
    words.iter().flat_map(|it| it.to_ne_bytes()).collect()
}

fn params_words(params: &Params) -> [u64; 9] {
    let Params { target, t_update, max_burst, alpha, beta, mean_pkt, limit_bytes, mark_ecnth, dq_threshold } = *params;
    [target, t_update, max_burst, alpha, beta, mean_pkt, limit_bytes, mark_ecnth, dq_threshold]
}

/// Returns the bytes of a state in the layout of C.
fn state_bytes(state: &State) -> Vec<u8> {
    let State { params, moment, prob, old_delay, burst, last, accu, average, measuring, cycle_start, cycle_count, profile, active, .. } = *state;
    let rest = [moment, prob, old_delay, burst, last, accu, average, measuring, cycle_start, cycle_count, profile, active];
    bytes_of(&[&params_words(&params)[..], &rest, &[state.choices, state.waited]].concat())
}

fn opening_bytes(opening: &Opening, state: &State) -> Vec<u8> {
    let Opening { params, moment, profile, mode, packets, tail, events, .. } = *opening;
    bytes_of(&[&params_words(&params)[..], &[moment, profile as u64, state.choices, mode as u64, packets, tail, events]].concat())
}

fn event_bytes(made: &Made) -> Vec<u8> {
    match made {
        // SAFETY: it is a struct of C, of 64 bytes without padding.
        Made::Event(event) => unsafe { *std::ptr::from_ref::<Event>(event).cast::<[u8; 64]>() }.to_vec(),
        Made::Params(_, caller, moment) => bytes_of(&[*moment, 0, 0, 0, 0, 0, 0, u64::from(*caller) | 5 << 16]),
    }
}

/// Returns the input of the C recorder.
pub struct Told(Vec<u8>);

impl Told {
    pub fn open(opening: &Opening, state: &State) -> Told {
        Told([opening_bytes(opening, state), state_bytes(state)].concat())
    }

    /// An event that was not refused, and the state that it left.
    pub fn keep(&mut self, made: &Made, state: &State) {
        self.0.extend(state_bytes(state));
        self.0.extend(event_bytes(made));
    }

    /// Returns the memory of a C recorder for at least this many events, with this wall-clock time at moment 0.
    pub fn memory_of_c(&self, events: u64, unix_time: u64) -> Vec<u8> {
        let (status, memory) = run(peer(), &["keep", &events.to_string(), &unix_time.to_string()], &self.0);
        assert_eq!(status, 0);
        memory
    }
}

/// Returns the status and the text of the C recorder for a memory.
pub fn text_of_c(memory: &[u8]) -> (i32, Vec<u8>) {
    run(peer(), &["text"], memory)
}
