#!/usr/bin/env python3
"""Makes each request for memory of a call of the libraries fail in turn, alone and with all later requests. The
call must report out of memory in its own form and keep its promises. The first run without a failure must answer as
with ample memory. Other calls must answer as usual. Then it holds each thread of a storm until all others have ended:
the storm must report that it lost its pace.

usage: tests/libraries/refused_memory.py [PROGRAM]      PROGRAM: crates/pie_library_tests/out/pie_library_tests by default
needs: pie_library_tests"""
import os
import re
import subprocess
import sys
import tempfile

sys.path.insert(0, f"{os.path.dirname(os.path.abspath(__file__))}/../shared")
from checks import NAME, ROOT, check, finish, refusing  # noqa: E402

# The answer of each call, and the visible effect, if a request failed, as regular expressions. The number of a fold
# is the number of events that remain.
REFUSED = {
    "Book::fold": r"memory, 1000, 0",
    "write_excerpt": r"memory, 0, 0",
    "Link::open_with": r"memory, 0, 0",
    "Link::try_fold": r"memory, 3, 0",
    "Link::fold": r"memory, 3, 0",
}
# The lines after these calls if the program makes every part.
BEHIND = "run_trace_flushes"
# The most bytes that each of these calls requests at once, and a size that is not enough: an event of a fold takes
# 64 bytes, whatever the size of the log.
ROOM = {"Book::fold": (64, 63)}
# No call makes this many requests.
MOST = 1000
PROGRAM = os.path.abspath(sys.argv[1]) if sys.argv[1:] else f"{ROOT}/crates/pie_library_tests/out/pie_library_tests"


def calls_of(text):
    """Returns the output of each call."""
    parts = re.split(r"^begin (.*)\n", text, flags=re.MULTILINE)
    return dict(zip(parts[1::2], parts[2::2]))


def is_want(name, told):
    """Returns true if this is the answer of a call whose request for memory failed."""
    return re.fullmatch(f"{name}: {REFUSED[name]}\n", told) is not None


def run(**environment):
    done = subprocess.run([PROGRAM, "calls"], capture_output=True, text=True, env={**os.environ, **environment}, timeout=600)
    return done.returncode, done.stdout, done.stderr


class Program:
    """Returns the answers of the calls with ample memory, and with failing requests."""

    def __init__(self):
        status, output, errors = run()
        self.ample = calls_of(output)
        wanted, behind, _ = open(ROOT / "crates/pie_library_tests/stdout").read().partition(f"\n{BEHIND}")
        check((status, errors) == (0, "") and behind and f"{wanted}\n" == output, "with ample memory:", status, errors, output)
        check(set(self.ample) == set(REFUSED), "other calls than here:", set(self.ample) ^ set(REFUSED))

    def refuse(self, library, met, name, is_on):
        """Refuses the first request of this call, its second, and so on. Returns the number of
        requests."""
        ample = self.ample
        on = {"REFUSE_ON": "1"} if is_on else {}
        for place in range(1, MOST):
            if os.path.exists(met):
                os.remove(met)
            after = {"REFUSE_AFTER": f"begin {name}", "REFUSE_MEMORY": str(place)}
            status, output, errors = run(LD_PRELOAD=library, REFUSE_MET=met, **after, **on)
            told = calls_of(output)
            where = (name, place, "and all after it" if is_on else "")
            check((status, errors) == (0, ""), *where, status, errors)
            others = {call for call in ample if told.get(call) != ample[call]} - {name}
            check(set(told) == set(ample) and not others, *where, "other calls answered otherwise:", others)
            if not os.path.exists(met):
                check(told.get(name) == ample.get(name), *where, "with nothing refused:", told.get(name))
                return place - 1
            # (a list that grows asks once more, for less, before it gives up)
            did_without = not is_on and told.get(name) == ample.get(name)
            check(is_want(name, told.get(name, "")) or did_without, *where, "answered", repr(told.get(name)))
        check(False, name, "makes requests without end")
        return MOST

    def refuse_each(self, library, met):
        """Refuses each request of each call."""
        for name in REFUSED:
            counts = [self.refuse(library, met, name, is_on) for is_on in (False, True)]
            check(0 not in counts, name, "makes too many requests:", counts)
            print(f"{NAME}: {name}: refused memory at {counts[0]} places, and at {counts[1]} with all after it")

    def has_room(self, library, met, name, enough, too_little):
        """Checks that the call succeeds with this much room for each request, and fails with too little."""
        for most in (enough, too_little):
            if os.path.exists(met):
                os.remove(met)
            status, output, errors = run(LD_PRELOAD=library, REFUSE_MET=met, REFUSE_AFTER=f"begin {name}", REFUSE_OVER=str(most))
            told = calls_of(output).get(name, "")
            is_whole = told == self.ample[name] and not os.path.exists(met)
            as_wanted = is_whole if most == enough else is_want(name, told)
            check((status, errors) == (0, "") and as_wanted, name, "with at most", most, "bytes a request answered", repr(told), errors)
        print(f"{NAME}: {name}: no request is for more than {enough} bytes")


def loses_pace(library, place):
    """Returns true if a storm reports a lost pace while this one of its six threads is held."""
    done = subprocess.run([PROGRAM, "pace"], capture_output=True, text=True, timeout=600, check=False,
                          env={**os.environ, "LD_PRELOAD": library, "REFUSE_HOLD": str(place), "REFUSE_THREADS": "6"})
    return done.stdout == "a_storm_reports_a_lost_pace: holds\n"


def lose_pace(library):
    """Holds each of the six threads of a storm in turn. No caller waits for the first two, which make no calls; on a
    loaded machine a wait for another caller can time out then too, but not in each of ten storms."""
    silent = [any(not loses_pace(library, place) for _ in range(10)) for place in (1, 2)]
    lost = [loses_pace(library, place) for place in (3, 4, 5, 6)]
    print(f"{NAME}: pace: a storm kept it with {sum(silent)} of 2 threads without calls held, and lost it with {sum(lost)} of 4 others")
    check(all(silent), "each of ten storms lost its pace with a thread held that makes no calls:", silent)
    check(all(lost), "a storm kept its pace although a thread that makes calls was held:", lost)


def main():
    with tempfile.TemporaryDirectory() as room:
        library, met = refusing(room, "memory of the libraries"), f"{room}/met"
        if library:
            program = Program()
            program.refuse_each(library, met)
            for name, sizes in ROOM.items():
                program.has_room(library, met, name, *sizes)
            lose_pace(library)
    finish()


main()
