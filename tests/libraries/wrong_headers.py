#!/usr/bin/env python3
"""Tries wrong headers and wrong bindings: makes each edit below in a copy of include/ and
bindings/. tests/libraries/header.py, the rows in C or the rows in Rust must reject it. Needs both
libraries (bindings/c/library.py), a C compiler and cargo, and takes some minutes; the gate does not
run it. The exit status is 1 if an edit passes all three.

usage: tests/libraries/wrong_headers.py [NAME..]    NAME: a word of the edits to try
needs: library, a request
"""
import os
import re
import shutil
import subprocess
import sys
import tempfile
from pathlib import Path

ROOT = Path(__file__).resolve().parents[2]
HEADER, PAGE, TABLE, CRATE, LINK = "include/pie.h", "docs/LIBRARY.md", "docs/PARAMETERS.md", "bindings/rust/src/", "bindings/rust/src/link.rs"
ARRIVE = "uint64_t queued, uint32_t size, uint32_t room, uint32_t ecn, uint64_t word"

# each edit: a name, the file, and pairs of a text that occurs once in the file, and its replacement
EDITS = [
    ("room and ecn exchanged", HEADER, "uint32_t room, uint32_t ecn,", "uint32_t ecn, uint32_t room,"),
    ("text and length exchanged", HEADER, "pie_read_time(const char *text, size_t length", "pie_read_time(size_t length, const char *text"),
    ("a text's number in 32 bits", HEADER, "uint64_t *nanoseconds", "uint32_t *nanoseconds"),
    ("another code of a text", HEADER, "PIE_TOO_GREAT = 116,", "PIE_TOO_GREAT = 117,"),
    ("a comment: more decimals", HEADER, "or has more than 18 decimals */", "or has more than 19 decimals */"),
    ("left and moment exchanged", HEADER, "uint64_t left, uint64_t moment", "uint64_t moment, uint64_t left"),
    ("the time of day and its moment exchanged", HEADER, "pie_write_clock(uint64_t moment, uint64_t unix_time,",
     "pie_write_clock(uint64_t unix_time, uint64_t moment,"),
    ("queued and word exchanged", HEADER, ARRIVE, ARRIVE.replace("queued", "it").replace("word", "queued").replace("it,", "word,")),
    ("ECT values exchanged", HEADER, "PIE_ECT1 = 1, PIE_ECT0 = 2", "PIE_ECT1 = 2, PIE_ECT0 = 1"),
    ("an ecn of 8 bits", HEADER, "uint32_t ecn, uint64_t word", "uint8_t ecn, uint64_t word"),
    ("a size of 16 bits, arriving", HEADER, "uint32_t size, uint32_t room", "uint16_t size, uint32_t room"),
    ("a size of 16 bits, departing", HEADER, "pie_depart(struct pie_state *state, uint32_t size", "pie_depart(struct pie_state *state, uint16_t size"),
    ("a room of 16 bits", HEADER, "uint32_t size, uint32_t room,", "uint32_t size, uint16_t room,"),
    ("a queue of 32 bits", HEADER, "uint64_t queued, uint32_t size", "uint32_t queued, uint32_t size"),
    ("a word of 32 bits", HEADER, "uint64_t word,", "uint32_t word,"),
    ("a profile of 8 bits", HEADER, "uint64_t profile;         /* PIE", "uint8_t profile;         /* PIE"),
    ("packets and tail exchanged", HEADER, "uint64_t packets;         /*", "uint64_t tail;            /*", "uint64_t tail;            /*",
     "uint64_t packets;         /*"),
    ("a comment: another default of an opening", HEADER, "1 to 2^20 (1024) */", "1 to 2^20 (2048) */"),
    ("a verdict of 8 bits", HEADER, "uint32_t pie_arrive(", "uint8_t pie_arrive("),
    ("parameters that may change", HEADER, "pie_set_params(struct pie_state *state, const ", "pie_set_params(struct pie_state *state, "),
    ("alpha and beta exchanged", HEADER, "uint64_t alpha; ", "uint64_t beta; ", "uint64_t beta; ", "uint64_t alpha; "),
    ("last and accu exchanged", HEADER, "uint64_t last;            /*", "uint64_t accu;            /*", "uint64_t accu;            /*",
     "uint64_t last;            /*"),
    ("due and delay exchanged", HEADER, "uint64_t due;   /*", "uint64_t delay; /*", "uint64_t delay; /*", "uint64_t due;   /*"),
    ("two codes exchanged", HEADER, "PIE_BAD_ECN = 111", "PIE_BAD_ECN = 112", "PIE_BAD_QUEUE = 112", "PIE_BAD_QUEUE = 111"),
    ("two verdicts exchanged", HEADER, "PIE_MARK = 1", "PIE_MARK = 2", "PIE_EARLY = 2", "PIE_EARLY = 1"),
    ("a comment: sizes from 0", HEADER, "a size outside 1 to 65535 */", "a size outside 0 to 65535 */"),
    ("a comment: an accumulated probability of 8", HEADER, "below 8.5 * 10^12", "below 8 * 10^12"),
    ("a comment: a target of 1", HEADER, "reference delay, 2 to", "reference delay, 1 to"),
    ("a comment: another default", HEADER, "2 to 10^10 ns (15 ms;", "2 to 10^10 ns (20 ms;"),
    ("a comment: later moments", HEADER, "a moment above 2^60 - 1 */", "a moment above 2^62 - 1 */"),
    ("a comment: a larger queue", HEADER, "this packet, at most 2^30", "this packet, at most 2^32"),
    ("a text: an ECN field of 4", HEADER, "an ECN field above 3\"", "an ECN field above 4\""),
    ("a page: another limit at 100 Mbit/s", TABLE, "187500 | 2500000", "187500 | 250000"),
    ("a page: other packets at 1 Gbit/s", TABLE, "200 ms | 390625", "200 ms | 39062"),
    ("a page: another least limit", TABLE, "at least 25000 bytes", "at least 50000 bytes"),
    ("a comment: another least limit", HEADER, "at least 25000 and", "at least 50000 and"),
    ("a page: the default is 15 ms at another rate", PAGE, "15 ms at 140 Mbit/s", "15 ms at 1400 Mbit/s"),
    ("a comment: sizes looked at before moments", HEADER, "PIE_BAD_MOMENT, PIE_BAD_SIZE, PIE_BAD_ECN", "PIE_BAD_SIZE, PIE_BAD_MOMENT, PIE_BAD_ECN"),
    ("a comment: parameters numbered otherwise", HEADER, "1 target, 2 t_update", "1 t_update, 2 target"),
    ("another latest moment", HEADER, "1152921504606846975", "1152921504606846976"),
    ("another version", HEADER, 'PIE_VERSION "0.1.0"', 'PIE_VERSION "0.2.0"'),
    ("Rust: an empty that resets", CRATE + "state.rs", "{ pie_empty(self", "{ pie_reset(self"),
    ("Rust: a reset that does nothing", CRATE + "state.rs", "{ pie_reset(self", "{ pie_empty(self"),
    ("Rust: a set_params that keeps alpha", CRATE + "state.rs", "done_with(unsafe { pie_set_params(self",
     "let params = &Params { alpha: self.params.alpha, ..*params };\n        done_with(unsafe { pie_set_params(self"),
    ("Rust: a due of 32 bits", CRATE + "state.rs", "Ok(Updated { due, delay,", "Ok(Updated { due: u64::from(due as u32), delay,"),
    ("Rust: a due of 32 bits where it is too soon", CRATE + "state.rs", "Err(refusal(code, due))", "Err(refusal(code, u64::from(due as u32)))"),
    ("Rust: a due of 32 bits in the declaration", CRATE + "library.rs", "pub(crate) due: u64", "pub(crate) due: u32"),
    ("Rust: due at the last update", CRATE + "state.rs", "unsafe { pie_due(self) }", "self.last"),
    ("Rust: ECT values exchanged", CRATE + "state.rs", "Ect1 = 1", "Ect1 = 2", "Ect0 = 2", "Ect0 = 1"),
    ("Rust: a room of 8 bits", CRATE + "library.rs", "        room: u32", "        room: u8"),
    ("Rust: room and ecn exchanged", CRATE + "state.rs", "size, room, ecn as u32, word", "size, ecn as u32, room, word"),
    ("Rust: left and moment exchanged", CRATE + "state.rs", "pie_depart(self, size, left, moment)", "pie_depart(self, size, moment, left)"),
    ("Rust: two verdicts exchanged", CRATE + "state.rs", "Ok(Verdict::Mark)", "Ok(Verdict::Early)", "Ok(Verdict::Early)", "Ok(Verdict::Mark)"),
    ("Rust: two refusals exchanged", CRATE + "refusal.rs", "101 =>", "102 =>", "102 =>", "101 =>"),
    ("Rust: old delay and burst exchanged", CRATE + "state.rs", "pub old_delay: u64", "pub burst: u64",
     "pub burst: u64,\n    /// The moment", "pub old_delay: u64,\n    /// The moment"),
    ("Rust: two parameters exchanged", CRATE + "params.rs", "4 => Some", "5 => Some", "5 => Some", "4 => Some"),
    ("Rust: profile one always", CRATE + "opening.rs", "profile: profile as u64", "profile: 1 + 0 * profile as u64"),
    ("Rust: rolling always", CRATE + "opening.rs", "mode: mode as u64", "mode: 1 + 0 * mode as u64"),
    ("Rust: a limit of 20 ms", CRATE + "params.rs", "pie_params_for(rate,", "pie_params_for(rate / 10,"),
    ("Rust: a mark is a drop", CRATE + "state.rs", "Verdict::Enqueue | Verdict::Mark)", "Verdict::Enqueue)"),
    ("Rust: sizes looked at before moments", CRATE + "state.rs", "/// In this order: `Moment`, `Size`, `Queue`.\n    pub fn arrive",
     "/// In this order: `Size`, `Moment`, `Queue`.\n    pub fn arrive"),
    ("Rust: a departure at a link that updates", LINK, "unsafe { pie_link_try_depart(", "unsafe { pie_link_try_update("),
    ("Rust: an arrival at a link without its random word", LINK, "let mut event = RawEvent { moment, tag, word, size,",
     "let mut event = RawEvent { moment, tag, size,"),
    ("Rust: ports of two links are gathered", LINK, "self.link == other.link && ", ""),
    ("Rust: the ports of a link from the highest number on", LINK, "ports.reverse();", ""),
    ("Rust: a waiting call that answers busy", CRATE + "link_wait.rs", "Err(LinkRefusal::Busy) => wait(rounds)",
     "Err(LinkRefusal::Busy) if rounds < 1 => wait(rounds)"),
    ("Rust: two refusals of a link exchanged", CRATE + "link_refusal.rs", "105 => LinkRefusal::Full", "106 => LinkRefusal::Full",
     "106 => LinkRefusal::NoEvent", "105 => LinkRefusal::NoEvent"),
    ("Rust: callers of 32 bits", CRATE + "link_library.rs", "callers: u16", "callers: u32"),
    ("C++: calls that wait and don't", "include/pie_link.h", "{ return pie_link_##name handed; }", "{ return pie_link_try_##name handed; }"),
    ("Rust: documentation with another range", CRATE + "params.rs", "1 to 65535 bytes (1024;", "1 to 65536 bytes (1024;"),
]


def copied(folder):
    crates = ("pie_params", "pie_abi", "pie_c", "pie_link_c", "pie_explain")
    for name in ("include", "bindings", *(f"crates/{it}/src" for it in crates), "docs"):
        shutil.copytree(ROOT / name, folder / name, ignore=shutil.ignore_patterns("target"))


def refused_by(folder, prefix):
    """Returns the first check that rejects the copy in this folder, or None."""
    library = prefix / "lib/libpie_c.a"
    compile_c = [os.environ.get("CC", "cc"), "-Wall", "-Wextra", "-Werror", "-std=c11", "-O1", f"-I{folder}/include"]
    (folder / "probes.c").write_text(run([sys.executable, ROOT / "tests/libraries/header.py", "--probes", folder]).stdout)
    steps = [("tests/libraries/header.py", [sys.executable, ROOT / "tests/libraries/header.py", folder])]
    for name, source in (("the numbers of the comments", "probes.c"), ("rows.c", "bindings/c/rows.c"), ("traps.c", "bindings/c/traps.c")):
        program = folder / name.replace(" ", "_")
        steps += [(name, [*compile_c, "-o", program, folder / source, library]), (name, [program])]
    environment = {**os.environ, "PIE_C_PREFIX": str(prefix), "CARGO_TARGET_DIR": str(prefix / "target")}
    steps.append(("the tests in Rust", ["cargo", "test", "--offline", "--tests", "--features", "link", "--manifest-path",
                                        folder / "bindings/rust/Cargo.toml"]))
    return next((name for name, step in steps if run(step, environment).returncode != 0), None)


def run(command, environment=None):
    """Runs a command. A command that hangs, for example because one of its threads failed, is ended
    after twenty minutes and counts as failed."""
    return subprocess.run(["timeout", "1200", *(str(it) for it in command)], env=environment, capture_output=True, text=True)


def tried(prefix, file, *pairs):
    with tempfile.TemporaryDirectory() as folder:
        folder = Path(folder)
        copied(folder)
        text = (folder / file).read_text()
        edits = dict(zip(pairs[::2], pairs[1::2]))
        for old in edits:
            if text.count(old) != 1:
                sys.exit(f"tests/libraries/wrong_headers.py: {file} has {text.count(old)} times: {old}")
        if edits:
            text = re.sub("|".join(map(re.escape, edits)), lambda found: edits[found[0]], text)
        (folder / file).write_text(text)
        return refused_by(folder, prefix)


def main():
    for tool in ("cargo", os.environ.get("CC", "cc")):
        if not shutil.which(tool):
            sys.exit(f"tests/libraries/wrong_headers.py: NOT RUN: no {tool} here")
    passed = 0
    with tempfile.TemporaryDirectory() as prefix:
        prefix = Path(prefix)
        (prefix / "lib").mkdir()
        shutil.copy(ROOT / "crates/pie_c/out/libpie_c.a", prefix / "lib")
        shutil.copy(ROOT / "crates/pie_link_c/out/libpie_link_c.a", prefix / "lib/libpie_link.a")
        if refusal := tried(prefix, HEADER):
            sys.exit(f"tests/libraries/wrong_headers.py: what the repository has is refused by {refusal}")
        chosen = [edit for edit in EDITS if not sys.argv[1:] or any(word in edit[0] for word in sys.argv[1:])]
        for name, file, *pairs in chosen:
            refusal = tried(prefix, file, *pairs)
            passed += refusal is None
            print(f"{name}: {f'refused by {refusal}' if refusal else 'PASSED EVERYTHING'}", flush=True)
    print(f"tests/libraries/wrong_headers.py: {len(chosen) - passed} of {len(chosen)} wrong headers and bindings are refused")
    sys.exit(passed != 0)


main()
