"""Shared by scripts that run the program on a text, or by a line of bash."""
import os
import re
import select
import signal
import subprocess

from checks import check, program

PROGRAM = program()
PATIENCE = 600  # seconds after which a program hangs, on however slow a machine
# The commands that read a history, each with options by which it reads all of it. A command that reads one
# according to its help but is not listed here is a failure.
READERS = {"audit": ["audit"], "explain": ["explain", "--all"], "summary": ["explain", "--every", "100us"], "cut": ["cut", "--from", "0"],
           "migrate": ["migrate"], "what-if": ["what-if", "--from", "0"]}
MEMORY = b"pie: out of memory\n"

# Every kind of record and nearly every answer.
TRACE = b"""open,0,8,32,100,2,1,0,850000,0,1,100000,1000000000000,1024
arrive,1,0,1,1024,not,0
arrive,1,0,2,1024,not,0
arrive,1,0,3,1024,not,0
arrive,1,0,4,1024,not,0
depart,3,1000
depart,3,1001000
update,4,1001000
update,4,1001001
update,4,1001002
arrive,1,1001003,5,500,ect0,0
arrive,2,1001003,6,500,not,0
arrive,2,1001003,7,500,not,18446744073709551615
arrive,2,1001003,8,65535,ect1,7
show
tally
params,5,1001004,2,1,50,850000,0,1,100000,1000000000000,1024
show
reset,5,1001005
update,5,1001005
depart,3,999
fold,40
fold,4
params,5,1001004,1,1,50,850000,0,1,100000,1000000000000,1024
"""


def reason(number, name=""):
    """Returns the line with the system's reason for a failed read, or a failed write to the file of this name."""
    return f"pie: {f'{name}: ' if name else ''}{os.strerror(number)} (os error {number})\n".encode()


def read_fault(number):
    """Returns the lines after a read that failed for this reason."""
    return reason(number) + b"pie: cannot read the input\n"


def write_fault(number, name=""):
    """Returns the lines after a write to standard output, or to the file of this name, that failed for this reason."""
    return reason(number, name) + b"pie: cannot write the output\n"


def hold_readers():
    """Compares READERS with the program's help, which describes each command in one line. A command whose
    line names a history, other than the one that it writes, reads it. Each command must have its own help."""
    told = run(["--help"], b"")[1].decode().partition("Commands:")[2].partition("Options:")[0]
    commands = dict(re.findall(r"^  ([\w-]+) +(.+)$", told, re.M))
    readers = {name for name, does in commands.items() if "histor" in does.replace("writes its history", "")}
    check(readers == {words[0] for words in READERS.values()}, "by the program's help these read a history:", *sorted(readers))
    for name in ["run", "storm", *readers]:
        check(run([name, "--help"], b"")[0] == 0, "there is no", name)


def run(words, text, program=PROGRAM, **environment):
    """Returns the status, the output and the error stream of the program, for these arguments and this text as its input. Its streams are files in
    memory: a pipe for each costs twice the time, and some scripts make ten thousand calls."""
    files = [os.memfd_create(name) for name in ("input", "output", "errors")]
    try:
        os.pwrite(files[0], text, 0)
        places = [(os.POSIX_SPAWN_DUP2, file, number) for number, file in enumerate(files)]
        child = os.posix_spawn(program, [program, *words], {**os.environ, **environment}, file_actions=places)
        ended = os.pidfd_open(child)
        if not select.select([ended], [], [], PATIENCE)[0]:
            os.kill(child, signal.SIGKILL)
        os.close(ended)
        status = os.waitstatus_to_exitcode(os.waitpid(child, 0)[1])
        return status, *(os.pread(file, os.fstat(file).st_size, 0) for file in files[1:])
    finally:
        for file in files:
            os.close(file)


def shell(line):
    done = subprocess.run(["bash", "-c", line, "bash", PROGRAM], capture_output=True, timeout=PATIENCE)
    return done.returncode, done.stdout, done.stderr


def without_lacks(errors):
    """Returns the lines of an error stream without those that count steps of pie-watch's text whose rows lack an input."""
    return "".join(line for line in errors.decode().splitlines(keepends=True) if ": steps without " not in line)


# ---- requests that fail one after another (refuse.c)

# One request alone fails, or all from there on.
ONCE_AND_ON = [{}, {"REFUSE_ON": "1"}]
# The most bytes of a read or a write, if each is to transfer few.
STEP = 7


def in_turn(library, met, words, given, variable, on, **more):
    """Makes the first such request of the program fail, then its second, and so on. Yields the request's number, the
    result, and True if the program made the request; the last time it did not."""
    for place in range(1, 10_000):
        if os.path.exists(met):
            os.remove(met)
        got = run(words, given, LD_PRELOAD=library, REFUSE_MET=met, **{variable: str(place)}, **on, **more)
        yield place, got, os.path.exists(met)
        if not os.path.exists(met):
            return
