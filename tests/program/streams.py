#!/usr/bin/env python3
"""Runs the built program with standard streams that are closed, full, broken or without a
reader, at a terminal, with interrupts, and with arguments that are not UTF-8.

usage: tests/program/streams.py [PROGRAM]      PROGRAM: crates/pie/out/pie by default
needs: program"""
import errno
import os
import pty
import re
import signal
import subprocess
import sys
import tempfile
import time

sys.path.insert(0, f"{os.path.dirname(os.path.abspath(__file__))}/../shared")
from checks import check, finish  # noqa: E402
from running import PATIENCE, PROGRAM, READERS, TRACE, hold_readers, read_fault, run, shell, write_fault  # noqa: E402


def streams():
    """Tests standard streams that are closed, full or broken. A run without a message does not need
    the error stream."""
    for words in [["run"], *READERS.values()]:
        name = " ".join(words)
        good = "printf 'open,0,4,16,100\\n%s' | " % ("" if name == "run" else "depart,1,1,empty\\n")
        check(shell(f'"$1" {name} <&-') == (1, b"", read_fault(errno.EBADF)), name, "without standard input")
        check(shell(f'{good} "$1" {name} >&-') == (1, b"", write_fault(errno.EBADF)), name, "without standard output")
        check(shell(f'{good} "$1" {name} >/dev/full') == (1, b"", write_fault(errno.ENOSPC)), name, "on a full device")
        check(shell(f'printf "dep" | "$1" {name} 2>&-') == (1, b"", b""), name, "with a fault, without standard error")
        check(shell(f'printf "dep" | "$1" {name} 2>/dev/full') == (1, b"", b""), name, "with a fault, standard error full")
        check(shell(f'{good} "$1" {name} 2>&-')[0] == 0, name, "without a fault, without standard error")
        check(shell(f'"$1" {name} <&- >&- 2>&-') == (1, b"", b""), name, "without any stream")
        check(shell(f'"$1" {name} </') == (1, b"", read_fault(errno.EISDIR)), name, "with a folder as input")
    check(shell('"$1" storm --packets 1 <&- 2>&-')[0] == 0, "a storm without standard input and error")
    for line, number in [('"$1" storm --packets 1 >&-', errno.EBADF), ('"$1" storm --packets 1 >/dev/full', errno.ENOSPC)]:
        check(shell(line) == (1, b"", write_fault(number)), line)
    check(shell('"$1" run --help >/dev/full') == (1, b"", write_fault(errno.ENOSPC)), "help on a full device")
    check(shell('"$1" --help >&-') == (1, b"", write_fault(errno.EBADF)), "help without standard output")
    check(shell('"$1" <&- >&- 2>&-')[0] == 1, "no subcommand and no stream")


def closed():
    """Tries a closed pipe: the program must print nothing, with the status of a program ended by SIGPIPE, for each
    subcommand and for help, and also if the reader ends in the middle. A file of -o is no such pipe, and an earlier
    fault in the text must be reported."""
    history = run(["run"], TRACE)[1]
    texts = {"run": (["run"], TRACE), "params": (["params"], b""), "storm": (["storm", "--packets", "1"], b""), "help": (["--help"], b""),
             "help of cut": (["cut", "--help"], b""), **{name: (words, history) for name, words in READERS.items()}}
    for name, (words, given) in texts.items():
        check(unread(words, given) == (141, b""), name, "to a pipe that nobody reads", unread(words, given))
    check(unread(["audit", "-", "-"], history) == (141, b""), "audits of files to a pipe that nobody reads")
    check(unread(["run", "-o", "/dev/full"], TRACE) == (1, write_fault(errno.ENOSPC, "/dev/full")), "a full device, where nobody reads standard output")
    check(unread(["audit"], b"dep\n")[0] == 1, "a fault, where nobody reads standard output")
    early = '| head -n 1 >/dev/null; exit ${PIPESTATUS[%d]}'
    check(shell('"$1" storm --packets 2000 ' + early % 0) == (141, b"", b""), "a storm whose reader ends early")
    long = '(printf "open,0,4,1048576,4194304\\n"; yes depart,1,1 | head -n 300000)'
    check(shell(f'{long} | "$1" run ' + early % 1) == (141, b"", b""), "a run whose reader ends early")


def unread(words, given):
    """Returns the status and the error stream of the program with a pipe without a reader as its
    standard output."""
    reader, writer = os.pipe()
    os.close(reader)
    done = subprocess.run([PROGRAM, *words], input=given, stdout=writer, stderr=subprocess.PIPE, timeout=PATIENCE, check=False)
    os.close(writer)
    return done.returncode, done.stderr


def at_terminal(words, path, is_output_terminal):
    """Returns the text on standard error, which is a terminal; standard output is also a terminal, or discarded."""
    errors, error_end = pty.openpty()
    output, output_end = pty.openpty()
    with open(path, "rb") as text:
        process = subprocess.Popen([PROGRAM, *words], stdin=text, stdout=output_end if is_output_terminal else subprocess.DEVNULL, stderr=error_end)
    os.close(error_end)
    os.close(output_end)
    written = b""
    try:
        while piece := os.read(errors, 65536):
            written += piece
    except OSError:
        pass
    process.wait(timeout=PATIENCE)
    os.close(errors)
    os.close(output)
    return written


def terminals():
    """Checks progress: shown and cleared if standard error is a terminal, but not if standard output is one too and is written meanwhile."""
    shown = re.compile(rb"(\r\x1b\[K\d+\.\d million records, \d+ MB(, \d+ MB/s)?)+\r\x1b\[K")
    with tempfile.TemporaryDirectory() as work:
        path = f"{work}/history"
        with open(path, "wb") as text:
            text.write(b"rolling,0,4,16,1099511627776\n" + b"".join(b"depart,1,%d,empty\n" % moment for moment in range(1, 800_001)))
        rows = [(["audit"], False, True), (["audit"], True, True), (["explain", "--summary"], False, True), (["explain", "--summary"], True, False),
                (["migrate"], False, True), (["migrate", "-o", f"{work}/made"], True, True), (["explain", "--summary", "--progress"], True, True)]
        for words, is_output_terminal, is_shown in rows:
            got = at_terminal(words, path, is_output_terminal)
            check(bool(shown.fullmatch(got)) if is_shown else got == b"", "progress at a terminal", words, is_output_terminal, got[-200:])


def interrupted():
    """Checks that an interrupt (Ctrl-C) leaves the file of -o unchanged, and the partial output beside it."""
    opening, moments = b"rolling,0,4,16,1099511627776\n", range(1, 100_001)
    with tempfile.TemporaryDirectory() as work:
        made = f"{work}/made"
        with open(made, "wb") as file:
            file.write(b"older\n")
        process = subprocess.Popen([PROGRAM, "run", "-o", made, "--force"], stdin=subprocess.PIPE, stderr=subprocess.PIPE,
                                   preexec_fn=lambda: signal.signal(signal.SIGINT, signal.SIG_DFL))
        process.stdin.write(opening + b"".join(b"depart,1,%d\n" % moment for moment in moments))
        process.stdin.flush()
        end = time.monotonic() + PATIENCE
        while not (os.path.exists(f"{made}.partial") and os.path.getsize(f"{made}.partial")) and time.monotonic() < end:
            time.sleep(0.01)
        process.send_signal(signal.SIGINT)
        process.wait(timeout=PATIENCE)
        left = {it.name: open(it, "rb").read() for it in os.scandir(work)}
    check(process.returncode == -signal.SIGINT and left.pop("made") == b"older\n", "an interrupt", process.returncode, list(left))
    whole = opening + b"".join(b"depart,1,%d,empty\n" % moment for moment in moments)
    check(list(left) == ["made.partial"] and left["made.partial"] and whole.startswith(left["made.partial"]), "an interrupt leaves", list(left))


def words():
    line = '"$1" run $(printf "\\377") </dev/null'
    check(shell(line) == (1, b"", b"pie: \xef\xbf\xbd: the name is not valid UTF-8\n"), line)
    for line in ['"$1"', '"$1" $(printf "r\\377n")', '"$1" runs', '"$1" run more', '"$1" run one more', '"$1" run --wrong', '"$1" ""']:
        status, output, errors = shell(line + " </dev/null")
        check(status == 1 and not output and errors, line)


def main():
    hold_readers()
    streams()
    closed()
    terminals()
    interrupted()
    words()
    finish()


main()
