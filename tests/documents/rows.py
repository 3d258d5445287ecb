#!/usr/bin/env python3
"""Compares the table of worked rows with the tests: each row describes an example that was computed by hand, and
lists where it runs. Every place must exist and be run by the gate. The exit status is 1 if a place is missing, or
if a row of tests/rows or a test of pie_library_tests is not listed.

A place is one of these:
  rows NAME           a trace with its history, or a history with its finding, in tests/rows/worked.txt, which tests/program/rows.sh runs
  library NAME        a test of pie_library_tests, whose output the gate compares
  c FILE FUNCTION     a function of bindings/c/FILE.c, which FILE's main calls and a script there builds and runs
  proof CRATE NAME    a theorem that computes, in a file of crates/CRATE/proofs that its Lib.antt lists
  script PATH TEXT    a text in a script that the gate runs without a request

usage: tests/documents/rows.py
needs: nothing
"""
import os
import re
import sys

sys.path.insert(0, f"{os.path.dirname(os.path.abspath(__file__))}/../shared")
from checks import NAME, ROOT, check, finish  # noqa: E402

TEXTS = "tests/program/texts.sh"
STORMS = "tests/program/storms.sh"
RUNS = "tests/program/runs.sh"
ROWS = {
    # units, parameters and the queue
    "probabilities above 1 are refused": ["c rows parameters", "proof pie_fixed one"],
    "the first bad parameter counts": ["c rows parameters", "proof pie_params first_bads"],
    "a word at a tenth, one above it, and at 0 and 1": ["proof pie_fixed picked", "proof pie_fixed not_picked", "proof pie_fixed never_at_zero"],
    "a queue of two packets": ["library a_queue_of_two_packets"],
    # the rules
    "cycles of 12 and 20 ms average 14 ms; a sample of no time is 1": ["c rows departure_rate", "library rules_by_worked_rows"],
    "a cycle does not count the departure that opens it": ["c rows departure_rate"],
    "delays of 42 ms, of 0, and of the greatest": ["c rows delays", "proof pie_control delays"],
    "the first two probabilities at 30 ms": ["c rows probabilities", "library rules_by_worked_rows"],
    "the capped step at a tenth, and none below it": ["c rows probabilities"],
    "the decay without delay": ["c rows probabilities"],
    "the 85th arrival at a tenth is picked; picked by the ninth word": ["c rows early_drop", "library rules_by_worked_rows"],
    "marks below the threshold, and drops at it": ["c rows early_drop"],
    "which arrivals are considered": ["c rows considered"],
    "ten updates use up the burst allowance": ["c rows burst_allowance"],
    # runs
    "an empty trace, and one without an opening": [f"script {TEXTS} opening \"$none\" ''", f"script {TEXTS} opening \"$none\" 'depart,1,5'"],
    "an opening alone, and the numbers at its end": ["library runs_end_with_registers_and_statistics"],
    "a packet comes and goes": ["library a_core_decides_worked_histories", "rows lines_that_end_in_carriage_returns"],
    "drops at both limits": ["rows drops_at_the_limits_of_four_packets", "rows drops_at_the_limits_of_five_packets", "c rows tail_drop"],
    "moments that fall, and updates too soon": ["rows moments_that_fall", "c rows moments"],
    "marks, drops and a lone enqueue": [
        "rows marks_drops_and_a_lone_enqueue", "c rows marks_and_drops", "proof pie_book answered", "proof pie_book held"],
    "a full tail, and folds": ["rows a_full_tail_and_folds", "rows a_full_tail_refuses", "rows a_fold_of_none"],
    "no event beyond the last": ["rows no_more_events"],
    "limits of 0": [f"script {TEXTS} 'open,0,0,4,2\\n'"],
    "parameters and a reset": ["rows parameters_and_a_reset"],
    "numbers at both ends of their ranges": ["rows numbers_at_both_ends"],
    "averages of a small threshold": ["rows cycles_of_the_departure_rate"],
    "a run of three records at the most": ["library runs_are_bounded_by_records"],
    "a run of a thousand records of a trace without an end": ["library runs_are_bounded_by_records"],
    "the commands of marks and drops through a core": ["library a_core_decides_worked_histories"],
    "a fold after each event leaves the checkpoint at the registers": [
        "rows a_fold_after_each_event", "library a_book_decides_worked_histories_and_folds"],
    # histories and audits
    "three lines of a history, and then its end": ["library a_core_decides_worked_histories"],
    "a fault of a history, and then the same fault": ["library a_fault_of_a_history_is_repeated"],
    "a history without an end": ["library a_history_without_an_end_is_read"],
    "marks and drops audited, with a changed verdict, and with a cut record": [
        f"script {TEXTS} changed clean,14 99 ''", f"script {TEXTS} changed differs,4 5 ", f"script {TEXTS} changed \"record 13: $fields\" 13 "],
    "a fault after a changed verdict": [f"script {TEXTS} # a fault is reported even if an earlier event differs"],
    "a history without events, an update too soon, and parameters that cannot be set": [
        f"script {TEXTS} after clean,0 ''", f"script {TEXTS} after differs,1 'update,1,14999999,0,0,150000000\\n'",
        f"script {TEXTS} after differs,1 \"$bad\\n\""],
    "a last record of another kind, length, word and number": [
        f"script {TEXTS} found \"record 4: $kind\"", f"script {TEXTS} found \"record 4: $fields\"", f"script {TEXTS} found \"record 4: $word\"",
        f"script {TEXTS} found \"record 4: $number\""],
    "a history that is cut in a record": [f"script {TEXTS} depart,2,25,left,7,15\\n", f"script {TEXTS} depart,2,25,left,7,1500,ec\\n"],
    "a word above 64 bits": [f"script {TEXTS} arrive,1,10,7,1500,ect0,18446744073709551616"],
    "carriage returns, quotes, and no last line feed": [
        "rows lines_that_end_in_carriage_returns", "rows a_quoted_field_and_no_last_line_feed"],
    "every cut and every changed byte ends an audit": ["script tests/program/damaged_texts.py is cut at every byte"],
    "the time of day is written as it was read": ["rows the_time_of_day_is_written_as_it_was_read"],
    "excerpts of the greatest numbers": ["rows packets_of_33_bits", "rows registers_at_both_ends"],
    # rolling books, profile two, version two
    "a rolling book lets its oldest event go": ["rows a_rolling_book", "rows marks_in_a_rolling_book"],
    "a rolling book is exhausted": ["rows a_rolling_book_is_exhausted"],
    "a controller that turns itself on, and off": [
        "rows a_controller_that_turns_itself_on", "rows a_controller_that_turns_itself_off", "library a_core_decides_worked_histories",
        "library a_book_decides_worked_histories_and_folds", "c rows on_and_off"],
    "a drop that turns the controller on": ["rows a_drop_that_turns_the_controller_on", "c rows on_by_a_tail_drop"],
    "a history of profile two is clean in it, and differs in profile one": [
        "rows a_history_of_profile_two", "rows a_history_of_profile_two_as_profile_one"],
    "a history is migrated": [f"script {RUNS} expect 'a migration' 0 \"$two\" '' \"$one\" migrate", f"script {TEXTS} # migrated HISTORY WANTED"],
    "first records of version two": [
        f"script {TEXTS} 'open2,3,loose,0,4,16,100\\n'", f"script {TEXTS} 'open2,1,loose,0,4,16,100\\n'",
        f"script {TEXTS} 'open2,1,bounded,0,4,16\\n'"],
    # the lock, the link and storms
    "passes are taken, shared and gathered": ["c ports calls", "library those_that_sleep_at_a_held_lock_all_wake", "proof pie_lock history_represented"],
    "each call of a link, by one thread": ["c ports calls", "library a_caller_of_65535_is_answered_and_closes"],
    "events of several threads, each once": ["c ports threads", "c ports bursts_of_several"],
    "a full log of a link, and its folds": ["c ports bursts"],
    "a reader of a link sees the events of others": ["c ports calls"],
    "senders are at work at once: two and eight see each other's flags": ["library senders_see_the_flags_of_all_others"],
    "a held sender comes last": ["library a_held_sender_comes_last"],
    "a storm of five events": ["library plans_of_storms_are_checked", f"script {STORMS} open,0,1024,5,5"],
    "plans that are not sound, and an update too soon": ["library plans_of_storms_are_checked"],
    "three storms of 242 events": [f"script {STORMS} clean,242"],
    "folds and a change take part": ["library folds_and_a_change_take_part"],
    "a fold that comes too early": ["library folds_that_come_too_early_are_passed_over"],
    # the program
    "the program runs and audits": [f"script {RUNS} expect 'an audit' 0 'clean,11\\n'", f"script {RUNS} expect 'an empty history' 1"],
}
# Tests of pie_library_tests that are no worked rows. tests/libraries/refused_memory.py runs those
# of memory and flushes.
OTHERS = {
    "refusals_in_words", "the_largest_ring", "calls_that_nothing_else_makes", "a_storm_keeps_its_pace", "quoted_records_are_copied",
    "a_failed_write_is_followed_by_a_flush", "an_explanation_without_memory_is_flushed"}
# the names of the files in tests/rows/worked.txt
WORKED = set(re.findall(r"^== (\S+)", (ROOT / "tests/rows/worked.txt").read_text(), re.M))
NEEDS = re.compile(r"^(?:# )?needs: ([\w, ]+?)(?:\"\"\")?$", re.M)


def read(path):
    return path.read_text() if path.exists() else ""


def is_run(path):
    """Returns true if the gate runs a script: it is executable, and its needs do not include a request."""
    needs = NEEDS.search(read(path)[:4000])
    return bool(needs) and "a request" not in needs[1] and os.access(path, os.X_OK)


def is_row(name):
    pairs = [(f"{name}.in", f"{name}.out"), (f"{name}.history", f"{name}.finding")]
    return any(WORKED.issuperset(pair) for pair in pairs) and is_run(ROOT / "tests/program/rows.sh")


def is_test(name):
    tests = ROOT / "crates/pie_library_tests"
    return f"\n{name}: holds\n" in read(tests / "stdout") and f'"{name}"' in read(tests / "src/main.rt")


def is_in_c(words):
    """Returns true if main calls the function or has it in its table, in a program that a script of bindings/c names."""
    name, function = words.split()
    text = read(ROOT / f"bindings/c/{name}.c")
    main = text.partition("int main(void)")[2]
    scripts = [path for path in (ROOT / "bindings/c").glob("*.sh") if re.search(rf"\b{name}\b", path.read_text()) and is_run(path)]
    return bool(re.search(rf"^static \w+ {function}\(", text, re.M) and re.search(rf"\b{function}\b", main) and scripts)


def is_proved(words):
    crate, name = words.split()
    proofs = ROOT / f"crates/{crate}/proofs"
    listed = re.findall(r"\bmod (\w+)", read(proofs / "Lib.antt"))
    return any(re.search(rf"^(?:pub )?{re.escape(name)} :", read(proofs / f"{it}.antt"), re.M) for it in listed)


def stands(words):
    path, _, text = words.partition(" ")
    return text in read(ROOT / path) and is_run(ROOT / path)


IS_RUN = {"rows": is_row, "library": is_test, "c": is_in_c, "proof": is_proved, "script": stands}
places = {place for row in ROWS.values() for place in row}
for row, mine in ROWS.items():
    for place in mine:
        kind, _, words = place.partition(" ")
        check(IS_RUN[kind](words), f"{row}: nothing runs {place!r}")
for name in sorted(WORKED):
    check(f"rows {name.rpartition('.')[0]}" in places, f"tests/rows/worked.txt: {name} is in no line of the table")
for name in re.findall(r"^(\w+): holds$", read(ROOT / "crates/pie_library_tests/stdout"), re.M):
    known = name in OTHERS or name.endswith("_flushes") or f"library {name}" in places
    check(known, f"the test {name} of pie_library_tests is in no line of the table")
finish()
