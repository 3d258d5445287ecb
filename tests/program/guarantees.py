#!/usr/bin/env python3
"""Checks each bound of docs/GUARANTEES.md on the histories that `pie run` writes. The bounds are computed here from the records of a history and from
the registers after each event. They share nothing with the proofs. The traces are the random ones of tests/shared/reference.py, and worked ones that
reach the bounds: each bound states how close some history has to be to it. The conditions of a law are stated in the same way: some history has to
be at the edge of each condition, and there the bound has to hold. With --wrong each bound is tighter by one more, so that each has to fail.

CLAUSES has the conditions and the bound of each clause of the contracts, and RECORDS the fields of the records that are conditions. A contract that
states less fails this script, also if it only has a stronger condition.

Exit status 1 if a bound does not hold, if no history comes as close as stated, or if a contract or a record differs.

usage: tests/program/guarantees.py [PROGRAM [FIRST_SEED [RUNS [STEPS]]]] [--wrong]      PROGRAM: crates/pie/out/pie by default
needs: program
"""
import os
import re
import subprocess
import sys
from collections import Counter

sys.path.insert(0, f"{os.path.dirname(os.path.abspath(__file__))}/../shared")
WRONG = "--wrong" in sys.argv
sys.argv = [word for word in sys.argv if word != "--wrong"]
from checks import NAME, ROOT, program  # noqa: E402
from laws import clauses as contracts  # noqa: E402
from laws import parts, records  # noqa: E402
from reference import ELEMENTS, FIELDS, PROFILES, elements_of, random_run, record_of  # noqa: E402

EARLY = ("mark", "early")
ONE, NEVER, ALWAYS = 10**12, 850_000_000_000, 8_500_000_000_000
LAST = 2**60 - 1
seen, broken, reached, edges = Counter(), Counter(), set(), {}

# the conditions of each clause, without variables, and its conclusion
CLAUSES = {
    "allowances_begin_whole": {
        "opening": ["IsWhole opening []"],
        "reset": ["event.command ≡ Reset moment", "IsWhole opening (before ++ event ∷ [])"],
        "turned_on": [
            "active_after opening before ≡ false", "active_after opening (before ++ event ∷ []) ≡ true", "IsWhole opening (before ++ event ∷ [])"],
        "calm": ["IsCalmUpdate opening before event", "IsWhole opening (before ++ event ∷ [])"]},
    "burst_allowance_lasts": {
        "updates": [
            "burst ≤ burst_left opening before", "AllAllow burst least most opening before between", "IsEarly event",
            "burst ≤ updates_in between * most"],
        "apart": [
            "burst ≤ burst_left opening before", "AllAllow burst least most opening before between",
            "effective_moment opening before + updates_in between * least ≤ effective_moment opening (before ++ between) + least"],
        "earliest": [
            "All (λ event. KeepsParams event.command) between", "IsEarly event",
            "effective_moment opening before + min (burst_left opening before) (params_after opening before).max_burst ≤ effective_moment opening "
            "(before ++ between) + (params_after opening before).t_update"],
        "since_last_update": [
            "All (λ event. KeepsParams event.command) between", "IsEarly event",
            "(parts_after opening before).last + min (burst_left opening before) (params_after opening before).max_burst ≤ effective_moment opening "
            "(before ++ between)"],
        "allowed": ["All (λ event. KeepsParams event.command) before", "IsAllowed opening before"]},
    "a_clock_ahead_delays_updates": {
        "at_most": [
            "refusal_by_rule opening before (Update moment) ≡ Some (TooSoon due)",
            "moment < effective_moment opening before + (params_after opening before).t_update"],
        "ahead": [
            "caller_moment event.command ≡ effective_moment opening before + ahead",
            "refusal_by_rule opening (before ++ event ∷ []) (Update moment) ≡ Some (TooSoon due)",
            "moment < effective_moment opening before + ahead + (params_after opening (before ++ event ∷ [])).t_update"],
        "exactly": [
            "is_update (effect_of event) ≡ true", "moment < 1_152_921_504_606_846_976",
            "moment < effective_moment opening (before ++ event ∷ []) + (params_after opening before).t_update",
            "refusal_by_rule opening (before ++ event ∷ []) (Update moment) ≡ Some (TooSoon (effective_moment opening (before ++ event ∷ []) + "
            "(params_after opening before).t_update))"]},
    "every_packet_is_accounted_for": {
        "once": [
            "packets_arrived history ≡ count_of is_queued history + count_of is_marked history + count_of is_dropped_early history + count_of "
            "is_dropped_bytes history + count_of is_dropped_packets history"],
        "order": ["packets_departed history ++ packets_waiting opening history ≡ packets_queued history"]},
    "queues_stay_within_their_limits": {
        "packets": ["length (waiting_after opening history) ≤ opening.limits.packets"],
        "bytes_queued": [
            "packet_queued (effect_of event) ≡ Some packet",
            "bytes_after opening (before ++ event ∷ []) ≤ (params_after opening before).limit_bytes"],
        "bytes": ["opening.params.limit_bytes ≤ most", "All (λ event. SetsLimit most event.command) history", "bytes_after opening history ≤ most"]},
    "waits_are_bounded": {
        "first_in_first_out": [
            "length (packets_departed between) ≡ length (waiting_after opening before)", "packets_departed between ≡ packets_waiting opening before"],
        "waits": [
            "packet_queued (effect_of event) ≡ Some packet",
            "length (packets_departed between) ≡ length (waiting_after opening (before ++ event ∷ []))",
            "Carries rate opening (before ++ event ∷ []) between",
            "rate * time_of opening (before ++ event ∷ []) between ≤ 8 * 10 ^ 9 * (params_after opening before).limit_bytes"]},
    "no_early_drop_within_burst_allowance": {
        "no_early_drop_within_burst_allowance": ["0 < (parts_after opening before).burst", "is_early event.answer ≡ false"]},
    "no_early_drop_in_short_queues": {
        "no_early_drop_in_short_queues": [
            "bytes_after opening before ≤ 2 * (params_after opening before).mean_pkt", "is_early event.answer ≡ false"]},
    "no_early_drop_at_low_delay": {
        "no_early_drop_at_low_delay": [
            "2 * (parts_after opening before).old_delay < (params_after opening before).target",
            "(parts_after opening before).prob < 200_000_000_000", "is_early event.answer ≡ false"]},
    "no_early_drop_while_inactive": {
        "no_early_drop_while_inactive": ["active_after opening before ≡ false", "is_early event.answer ≡ false"]},
    "capable_packets_are_not_dropped_early": {
        "capable_packets_are_not_dropped_early": ["OnlyMarks opening before", "SparesCapable event"]},
    "only_capable_packets_are_marked": {
        "only_capable_packets_are_marked": ["MarksOnlyCapable event"]},
    "the_link_does_not_idle": {
        "early": ["IsEarly event", "2 * (params_after opening before).mean_pkt < bytes_after opening (before ++ event ∷ [])"],
        "empty": ["event.answer ≡ Empty", "waiting_after opening before ≡ []"]},
    "the_probability_follows_the_delay": {
        "bounded": ["probability_after opening history ≤ 10 ^ 12"],
        "rises": [
            "IsActiveUpdate opening before event", "(params_after opening before).target ≤ delay_after opening before",
            "old_delay_after opening before ≤ delay_after opening before",
            "probability_after opening before ≤ probability_after opening (before ++ event ∷ [])"],
        "falls": [
            "IsActiveUpdate opening before event", "delay_after opening before ≤ (params_after opening before).target",
            "delay_after opening before ≤ old_delay_after opening before",
            "probability_after opening (before ++ event ∷ []) ≤ probability_after opening before"],
        "capped": [
            "IsActiveUpdate opening before event", "is_capped opening.choices.elements.step ≡ true",
            "100_000_000_000 ≤ probability_after opening before",
            "probability_after opening (before ++ event ∷ []) ≤ probability_after opening before + 20_000_000_000"],
        "decays": [
            "IsActiveUpdate opening before event",
            "decays opening.choices.elements.decay (params_after opening before) (delay_after opening before) (old_delay_after opening before) ≡ "
            "true", "delay_after opening before ≤ old_delay_after opening before",
            "probability_after opening (before ++ event ∷ []) * 100 ≤ probability_after opening before * 98"],
        "nothing_else_raises": [
            "(is_update (effect_of event) ≡ false) ⊎ (active_after opening before ≡ false)",
            "probability_after opening (before ++ event ∷ []) ≤ probability_after opening before"]},
    "causes_of_a_higher_probability": {
        "delay": ["delay ≤ more", "next elements params prob delay old ≤ next elements params prob more old"],
        "below": ["next usual default_profile 99_999_999_999 1_000_000_000 0 ≡ 786_562_499_999"],
        "from_a_tenth": ["next usual default_profile 100_000_000_000 1_000_000_000 0 ≡ 120_000_000_000"]},
    "speed_of_the_probability": {
        "steady": [
            "AllAlong (IsSteady delay opening) before between",
            "probability_after opening (before ++ between) ≡ after_updates (updates_in between) opening.choices.elements (params_after opening "
            "before) delay (probability_after opening before)"],
        "tenth_at_last": ["after_updates 162 usual default_profile 30_000_000 0 ≡ 100_178_833_003"],
        "not_before": ["after_updates 161 usual default_profile 30_000_000 0 ≡ 99_241_333_003"],
        "from_rest": ["after_updates 157 usual default_profile 30_000_000 (next usual default_profile 0 30_000_000 0) ≡ 100_185_241_696"],
        "not_from_rest_before": ["after_updates 156 usual default_profile 30_000_000 (next usual default_profile 0 30_000_000 0) ≡ 99_247_741_696"],
        "fades": [
            "AllAlong (IsSteady delay opening) before between",
            "decays opening.choices.elements.decay (params_after opening before) delay delay ≡ true",
            "probability_after opening (before ++ between) * 100 ^ updates_in between ≤ probability_after opening before * 98 ^ updates_in between"],
        "faded": ["after_updates 87 usual default_profile 0 1_000_000_000_000 ≡ 96_421_179_148"],
        "not_yet_faded": ["after_updates 86 usual default_profile 0 1_000_000_000_000 ≡ 100_263_958_315"]},
    "steady_delays_move_the_probability": {
        "rises": [
            "0 < params.target", "params.target ≤ delay", "prob ≤ 10 ^ 12",
            "min (10 ^ 12) (prob + n * least_rise params delay prob) ≤ after_updates n elements params delay prob"],
        "rises_no_faster": [
            "0 < params.target", "params.target ≤ delay", "prob ≤ 10 ^ 12", "after_updates n elements params delay prob ≤ most",
            "after_updates n elements params delay prob ≤ prob + n * (untuned_rise params delay / tuning_divisor most)"],
        "falls": [
            "delay ≤ params.target", "0 < least", "least ≤ after_updates n elements params delay prob",
            "after_updates n elements params delay prob + n * (untuned_fall params delay / tuning_divisor least) ≤ prob"],
        "falls_no_faster": [
            "delay ≤ params.target", "prob ≤ 10 ^ 12", "decays elements.decay params delay delay ≡ false",
            "prob ≤ after_updates n elements params delay prob + n * (untuned_fall params delay / tuning_divisor prob)"],
        "to_a_tenth": [
            "0 < params.target", "params.target ≤ delay", "2048 ≤ untuned_rise params delay", "prob ≤ 10 ^ 12", "updates_to_a_tenth params delay ≤ n",
            "10 ^ 11 ≤ after_updates n elements params delay prob"],
        "at_twice_the_target": ["updates_to_a_tenth default_profile 30_000_000 ≡ 164"],
        "fades_to_a_tenth": ["decays elements.decay params delay delay ≡ true", "114 ≤ n", "after_updates n elements params delay prob * 10 ≤ prob"]},
    "the_rate_lies_between_its_samples": {
        "between": [
            "0 < length (samples_after opening history)", "All (IsBetween least most) (samples_after opening history)",
            "IsBetween least most (average_after opening history)"],
        "unmeasured": ["length (samples_after opening history) ≡ 0", "average_after opening history ≡ 0"]},
    "the_estimated_delay_lies_between": {
        "the_estimated_delay_lies_between": [
            "opening.choices.elements.delay ≡ Rate", "0 < length (samples_after opening history)",
            "All (IsBetween least most) (samples_after opening history)",
            "IsBetween (min (2 ^ 40) (bytes_after opening history * least / (params_after opening history).dq_threshold)) (bytes_after opening "
            "history * most / (params_after opening history).dq_threshold) (delay_after opening history)"]},
    "lasting_delays_raise_the_probability": {
        "probability": [
            "(params_after opening before).target ≤ least", "2048 ≤ untuned_rise (params_after opening before) least",
            "AllAlong (IsLasting least opening) before between", "updates_to_a_tenth (params_after opening before) least ≤ updates_in between",
            "10 ^ 11 ≤ probability_after opening (before ++ between)"],
        "burst": [
            "(params_after opening before).target ≤ least", "AllAlong (IsLasting least opening) before between",
            "burst_left opening before ≤ updates_in between * (params_after opening before).t_update", "burst_left opening (before ++ between) ≡ 0"],
        "considered": [
            "(params_after opening before).target ≤ least", "AllAlong (IsLasting least opening) before between", "0 < updates_in between",
            "burst_left opening before ≤ updates_in between * (params_after opening before).t_update",
            "active_after opening (before ++ between) ≡ true", "2 * (params_after opening before).mean_pkt < bytes_after opening (before ++ between)",
            "had_room (effect_of event) ≡ true", "was_considered opening (before ++ between) event ≡ true"],
        "at_twice_the_target": ["updates_to_a_tenth default_profile 30_000_000 ≡ 164"]},
    "controllers_recover": {
        "by_default": [
            "active_after opening before ≡ true", "1_875_000_000 ≤ untuned_fall (params_after opening before) 0",
            "AllAlong (FindsNoDelay opening) before between", "182 ≤ updates_in between", "HasRecovered opening (before ++ between)"],
        "in_any_case": [
            "active_after opening before ≡ true", "AllAlong (FindsNoDelay opening) before between", "1204 ≤ updates_in between",
            "HasRecovered opening (before ++ between)"],
        "defaults": ["untuned_fall default_profile 0 ≡ 1_875_000_000"],
        "not_sooner": ["after_updates 180 usual default_profile 0 (next usual default_profile 986_448_007_965 0 1) ≡ 1"],
        "from_one": ["after_updates 178 usual default_profile 0 1_000_000_000_000 ≡ 0"],
        "not_yet": ["after_updates 177 usual default_profile 0 1_000_000_000_000 ≡ 1_988_772"],
        "slowest": [
            "after_updates 1202 usual (record default_profile { alpha = 0; beta = 0 }) 0 (next usual (record default_profile { alpha = 0; beta = 0 "
            "}) 1_000_000_000_000 0 1) ≡ 1"]},
    "picks_reset_the_sum": {
        "picks_reset_the_sum": ["IsEarly event", "accu_after opening (before ++ event ∷ []) ≡ 0"]},
    "picks_are_far_apart": {
        "picks_are_far_apart": [
            "opening.choices.elements.picking ≡ Derandomized", "accu_after opening before ≡ 0",
            "AllAlong (EffectiveAtMost most opening) before between", "effective_prob_at opening (before ++ between) event ≤ most", "IsEarly event",
            "850_000_000_000 ≤ (considered_in opening before between + 1) * most"]},
    "picks_are_not_too_far_apart": {
        "picks_are_not_too_far_apart": [
            "opening.choices.elements.picking ≡ Derandomized", "0 < least", "AllAlong (EffectiveAtLeast least opening) before between",
            "AllAlong (IsUnpicked opening) before between", "considered_in opening before between * least < 8_500_000_000_000"]},
    "picks_are_not_consecutive": {
        "picks_are_not_consecutive": [
            "opening.choices.elements.picking ≡ Derandomized", "IsEarly first", "considered_in opening (before ++ first ∷ []) between ≡ 0",
            "IsEarly second", "850_000_000_000 ≤ effective_prob_at opening (before ++ first ∷ [] ++ between) second"]},
    "picks_share_the_probability": {
        "at_least": [
            "opening.choices.elements.picking ≡ Derandomized", "accu_after opening before ≡ 0",
            "850_000_000_000 * picks_in between ≤ effective_sum_in opening before between"],
        "at_most": [
            "opening.choices.elements.picking ≡ Derandomized",
            "effective_sum_in opening before between < 9_500_000_000_000 * picks_in between + 8_500_000_000_000 * (restarts_in opening before "
            "between + 1)"],
        "few": [
            "opening.choices.elements.picking ≡ Derandomized", "accu_after opening before ≡ 0",
            "AllAlong (EffectiveAtMost most opening) before between",
            "850_000_000_000 * picks_in between ≤ considered_in opening before between * most"],
        "many": [
            "opening.choices.elements.picking ≡ Derandomized", "AllAlong (EffectiveAtLeast least opening) before between",
            "AllAlong (EffectiveAtMost most opening) before between",
            "considered_in opening before between * least < (8_500_000_000_000 + most) * picks_in between + 8_500_000_000_000 * (restarts_in "
            "opening before between + 1)"]},
}

# the fields of the records that are conditions
RECORDS = {    "Allows": {"allowance": "burst ≤ params.max_burst", "apart": "least ≤ params.t_update", "together": "params.t_update ≤ most"},
    "AllAllow": {
        "force": "Allows burst least most (params_after opening before)", "set": "All (λ event. SetsAllow burst least most event.command) between"},
    "IsLawful": {
        "opens": "opening_refusal opening.limits opening.moment ≡ None", "params": "first_bad opening.params ≡ None",
        "set": "All (λ event. SetsInRange event.command) history", "legal": "IsLegal opening history"},
    "IsActiveUpdate": {"update": "is_update (effect_of event) ≡ true", "active": "active_after opening before ≡ true"},
    "IsSteady": {
        "keeps": "KeepsParams event.command", "unreset": "is_reset (effect_of event) ≡ false", "active": "active_after opening before ≡ true",
        "delay_now": "is_update (effect_of event) ≡ true → delay_after opening before ≡ delay",
        "delay_old": "is_update (effect_of event) ≡ true → old_delay_after opening before ≡ delay"},
    "FindsNoDelay": {
        "keeps": "KeepsParams event.command",
        "delay": "is_update (effect_of event) ≡ true → active_after opening before ≡ true → delay_after opening before ≡ 0"},
    "HasRecovered": {"prob": "probability_after opening history ≡ 0", "burst": "IsWhole opening history"},
    "IsCalmUpdate": {
        "update": "IsActiveUpdate opening before event", "delay": "2 * delay_after opening before < (params_after opening before).target",
        "old_delay": "2 * old_delay_after opening before < (params_after opening before).target",
        "prob": "probability_after opening (before ++ event ∷ []) ≡ 0"},
    "IsLasting": {
        "keeps": "KeepsParams event.command", "unreset": "is_reset (effect_of event) ≡ false", "active": "active_after opening before ≡ true",
        "delay": "is_update (effect_of event) ≡ true → least ≤ delay_after opening before",
        "grows": "is_update (effect_of event) ≡ true → old_delay_after opening before ≤ delay_after opening before"},
    "IsUnpicked": {
        "unpicked": "is_early event.answer ≡ false", "no_bytes": "is_dropped_bytes (effect_of event) ≡ false",
        "no_packets": "is_dropped_packets (effect_of event) ≡ false", "unreset": "is_reset (effect_of event) ≡ false",
        "no_start": "active_after opening before ≡ false → active_after opening (before ++ event ∷ []) ≡ false"},
}


def differences():
    """Yields each clause and each record that differs from CLAUSES and RECORDS."""
    found = contracts()
    for law, named in CLAUSES.items():
        stated = {name: [*conditions, bound] for name, (conditions, bound) in ((name, parts(text)) for name, text in found.get(law, {}).items())}
        for name in named.keys() | stated.keys():
            if stated.get(name) != named.get(name):
                yield f"{law}, clause {name}: {stated.get(name)}"
    stated = records()
    for name, fields in RECORDS.items():
        if stated.get(name) != fields:
            yield f"{name}: {stated.get(name)}"


def hold(law, slack, within, *what, **conditions):
    """Checks that `slack` is at least 0, if no condition is below 0. Some history must come at least as near as `within`, and
    for each condition some history must have exactly 0 there."""
    for name in conditions:
        edges.setdefault((law, name), False)
    if min(conditions.values(), default=0) < 0:
        return
    for name, value in conditions.items():
        edges[law, name] |= value == 0
    seen[law] += 1
    if slack <= within:
        reached.add(law)
    if slack < 0 or (WRONG and slack <= within):
        broken[law] += 1
        if not WRONG and broken[law] < 4:
            print(f"{NAME}: {law}: {slack}:", *what)


def must(law, holds, *what, **conditions):
    """Checks a law that has no number."""
    hold(law, 0 if holds else -1, 0, *what, **conditions)


def if_true(holds):
    """Returns a condition that has no number."""
    return 0 if holds else -1


def run(lines):
    text = "".join(",".join(str(field) for field in line) + "\n" for line in lines)
    done = subprocess.run([program(), "run"], input=text.encode(), capture_output=True, check=True)
    return [line.split(",") for line in done.stdout.decode().splitlines()]


def printed(rows):
    """Returns the moments that `pie explain --all` prints for a history, before which no packet is picked: by the numbers of the events."""
    text = "".join(",".join(row) + "\n" for row in rows)
    done = subprocess.run([program(), "explain", "--all"], input=text, capture_output=True, text=True, check=True)
    found = {}
    for words in re.split("^event ", done.stdout, flags=re.M)[1:]:
        if bound := re.search(r"nothing is marked or dropped early before ([0-9.]+) ms", words):
            found[int(words.partition(":")[0])] = int(bound[1].replace(".", ""))
    return found


def shown(row):
    names = ("count", "moment", "packets", "bytes", "prob", "old", "accu", "burst", "last", "average", "measuring", "active")
    return dict(zip(names, map(int, row[1:])))


def opening_of(row):
    """Returns profile, elements, moment, ring and parameters of a first record of version three."""
    profile, elements, rest = int(row[1]), tuple(row[2:7]), [int(field) for field in row[8:]]
    return profile, dict(zip(ELEMENTS, elements)), rest[0], rest[1], dict(zip(FIELDS, rest[4:]))


def updates_to_a_tenth(params, delay):
    """Returns the updates that each row of the table of auto-tuning takes at this delay, up to 10 per cent."""
    rise = params["alpha"] * (delay - params["target"])
    rows = ((0, 10**6, 2048), (10**6, 10**7, 512), (10**7, 10**8, 128), (10**8, 10**9, 32), (10**9, 10**10, 8), (10**10, 10**11, 2))
    return sum((high - low) // min(rise // divisor, 2 * 10**10) + 1 for low, high, divisor in rows)


class Samples:
    """The samples of the departure rate since the estimate was cleared, counted from departures."""

    def __init__(self):
        self.clear()

    def clear(self):
        self.times, self.start, self.count = [], None, 0

    def depart(self, size, left, now, threshold):
        if self.start is not None:
            self.count += size
            if self.count < threshold:
                return
            self.times.append(max(1, now - self.start))
        self.start, self.count = (now, 0) if left >= threshold else (None, 0)


class Allowance:
    """The burst allowance at a moment, and the parameters and updates since then."""

    def __init__(self, now, params):
        self.moment, self.last, self.left, self.updates, self.is_changed = now["moment"], now["last"], now["burst"], 0, False
        self.is_above = now["burst"] > params["max_burst"]
        self.burst, self.least, self.most = min(self.left, params["max_burst"]), params["t_update"], params["t_update"]

    def set(self, params):
        self.is_changed, self.burst = True, min(self.burst, params["max_burst"])
        self.least, self.most = min(self.least, params["t_update"]), max(self.most, params["t_update"])

    def pick(self, row, was, params):
        """Checks the bounds of the first pick after the moment."""
        hold("burst in updates", self.updates * self.most - self.burst, 0, row, self.burst, self.updates)
        if not self.is_changed:
            name = ", allowance above max_burst" * self.is_above
            hold(f"burst in time{name}", was["moment"] + params["t_update"] - self.moment - self.burst, 1, row, was)
            hold(f"burst since an update{name}", was["moment"] - self.last - self.burst, 0, row, was)


class Laws:
    """The numbers of the events so far that the laws need."""

    def __init__(self, row):
        self.profile, self.elements, self.start, self.ring, self.params = opening_of(row)
        self.limits, self.samples = [self.params["limit_bytes"]], Samples()
        self.queue, self.verdicts, self.arrivals = [], Counter(), 0
        self.high, self.low, self.considered = 0, ONE, 0
        # sums since the last restart: of effective probabilities less 0.85 for each pick, and less 9.5 for each pick
        # and 8.5 for each other restart; the greatest first sum while nothing was accumulated, and the least second
        # sum
        self.least_sum, self.most_sum, self.least_start, self.most_start, self.sum = 0, 0, 0, 0, 0
        self.since_pick, self.idle, self.lasting = None, None, None
        self.now = {"moment": self.start, "packets": 0, "bytes": 0, "prob": 0, "old": 0, "accu": 0, "burst": self.params["max_burst"],
                    "last": self.start, "average": 0, "measuring": 0, "active": int(self.profile == 1)}
        # by the number of an arrival that meets burst allowance: the moment before which no packet is picked
        self.count, self.bounds = 0, {}
        self.allowances, self.after_update = [Allowance(self.now, self.params)], False
        # periods that begin without accumulated probability: numbers of considered packets, picks and other restarts,
        # least and greatest effective probability
        self.periods = [[0, 0, 0, ONE, 0]]

    def event(self, row, was, now):
        self.now, self.count = now, self.count + 1
        if row[0] in ("arrive", "depart", "update"):
            getattr(self, row[0])(row, was, now)
        hold("probability", ONE - now["prob"], 0, row, now)
        hold("no other rise", was["prob"] - now["prob"], 0, row, now, other=if_true(row[0] != "update" or not was["active"]))
        if row[0] == "params":
            self.params = dict(zip(FIELDS, map(int, row[3:12])))
            self.limits.append(self.params["limit_bytes"])
            self.idle = self.lasting = None
            for allowance in self.allowances:
                allowance.set(self.params)
        for allowance in self.allowances:
            hold("updates apart", now["moment"] + allowance.least - allowance.moment - allowance.updates * allowance.least, 0, row)
        self.after_update = row[0] == "update"
        woken = now["active"] > was["active"]
        must("whole after a reset", now["burst"] == self.params["max_burst"], row, now, reset=if_true(row[0] == "reset"))
        must("whole at activation", now["burst"] == self.params["max_burst"], row, now, woken=if_true(woken))
        if row[0] == "reset" or woken or row[0] == "params":
            self.samples.clear()
        if row[0] == "reset" or woken:
            self.restart()
            self.lasting = None
        self.allowances = [*self.allowances[-200:], Allowance(now, self.params)]
        self.shares(row, now)

    def shares(self, row, now):
        if self.elements["picking"] != "derandomized":
            return
        hold("sum of picks at least", self.least_sum - self.least_start, 0, row)
        hold("sum of picks at most", ALWAYS - 1 - (self.most_sum - self.most_start), 20, row)
        for considered, picks, restarts, least, most in self.periods:
            hold("picks at most", considered * most - picks * NEVER, 0, row)
            hold("picks at least", (ALWAYS + most) * picks + ALWAYS * (restarts + 1) - 1 - considered * least, 20, row)
        if now["accu"] == 0:
            self.least_start = max(self.least_start, self.least_sum)
            self.periods = [*self.periods[-20:], [0, 0, 0, ONE, 0]]
        self.most_start = min(self.most_start, self.most_sum)

    def arrive(self, row, was, now):
        tag, size, ecn, verdict = row[3], int(row[4]), row[5], row[7]
        params, active = self.params, self.profile == 1 or was["active"]
        self.arrivals += 1
        self.verdicts[verdict] += 1
        is_early, end = verdict in EARLY, was["last"] + min(was["burst"], params["max_burst"])
        if verdict == "enqueue" and active and was["burst"] and end > now["moment"]:
            self.bounds[self.count] = end
        must("allowance left", not is_early, row, was, allowance=was["burst"] - 1)
        must("at most two packets", not is_early, row, was, bytes=2 * params["mean_pkt"] - was["bytes"])
        must("low delay and probability", not is_early, row, was, delay=(params["target"] - 1) // 2 - was["old"], prob=199_999_999_999 - was["prob"])
        must("inactive", not is_early, row, was, inactive=if_true(not active))
        must("capable marked", verdict != "early", row, was, capable=if_true(ecn != "not"), prob=params["mark_ecnth"] - 1 - was["prob"])
        if is_early:
            hold("bursts", -was["burst"], 0, row, was)
            hold("short queue", was["bytes"] - 2 * params["mean_pkt"] - 1, 0, row, was)
            hold("low delay", max(2 * was["old"] - params["target"], was["prob"] - 200_000_000_000), 0, row, was)
            must("starts anew", now["accu"] == 0, row, now)
            hold("no idling", now["bytes"] - 2 * params["mean_pkt"] - 1, 0, row, now)
            for allowance in self.allowances:
                allowance.pick(row, was, params)
        if verdict == "early" and ecn != "not":
            hold("capable spared", was["prob"] - params["mark_ecnth"], 0, row, was)
        if verdict == "mark":
            must("only capable marked", ecn != "not", row)
        self.consider(row, was, now)
        self.space(row, was, active, verdict, size)
        if verdict in ("enqueue", "mark"):
            self.queue.append((tag, size, "ce" if verdict == "mark" else ecn, now["moment"], now["bytes"], params["limit_bytes"]))
            hold("queued within limit", params["limit_bytes"] - now["bytes"], 0, row, now)
        hold("bytes", max(self.limits) - now["bytes"], 0, row, now)
        hold("ring", self.ring - now["packets"], 0, row, now)

    def space(self, row, was, active, verdict, size):
        """Checks the distances between picks, if probabilities accumulate."""
        params = self.params
        if self.elements["picking"] != "derandomized":
            return
        if verdict in ("bytes", "packets"):
            self.restart()
            return
        if not active or was["burst"] or was["bytes"] <= 2 * params["mean_pkt"]:
            return
        if 2 * was["old"] < params["target"] and was["prob"] < 200_000_000_000:
            return
        prob = was["prob"]
        if self.elements["size"] == "scaled" and size < params["mean_pkt"]:
            prob = prob * size // params["mean_pkt"]
        self.high, self.low, self.considered = max(self.high, prob), min(self.low, prob), self.considered + 1
        self.least_sum, self.most_sum, self.sum = self.least_sum + prob, self.most_sum + prob, self.sum + prob
        for period in self.periods:
            period[:] = period[0] + 1, period[1] + (verdict in EARLY), period[2] + (prob == 0), min(period[3], prob), max(period[4], prob)
        if prob == 0:
            self.most_sum, self.sum = self.most_sum - ALWAYS, 0
        if verdict in EARLY:
            hold("sum at a pick", ALWAYS + ONE - 1 - self.sum, 20, row, self.sum)
            hold("picks far apart", self.considered * self.high - NEVER, 0, row, self.considered, self.high)
            if self.since_pick == 0:
                hold("picks at once", prob - NEVER, 0, row)
            self.least_sum, self.most_sum = self.least_sum - NEVER, self.most_sum - ALWAYS - ONE
            self.high, self.low, self.considered, self.sum, self.since_pick = 0, ONE, 0, 0, 0
            return
        if self.since_pick is not None:
            self.since_pick += 1
        hold("picks not too far apart", ALWAYS - 1 - self.considered * self.low, 20, row, self.considered, self.low, least=self.low - 1)

    def consider(self, row, was, now):
        """Checks that an arrival is considered after a lasting delay. A considered arrival with a probability is picked or accumulates it."""
        if self.lasting is None or self.elements["picking"] != "derandomized" or self.elements["size"] == "scaled" or not was["prob"]:
            return
        least, burst, updates = self.lasting
        must("considered after a lasting delay", now["accu"] != was["accu"] or row[7] in EARLY, row, was, above=least - self.params["target"],
             updates=updates - 1, used=updates * self.params["t_update"] - burst, bytes=was["bytes"] - 2 * self.params["mean_pkt"] - 1,
             room=if_true(row[7] not in ("bytes", "packets")))

    def restart(self):
        """Restarts the accumulated probability without a pick."""
        self.high, self.low, self.considered, self.sum = 0, ONE, 0, 0
        self.most_sum -= ALWAYS
        for period in self.periods:
            period[2] += 1

    def depart(self, row, was, now):
        if row[3] == "empty":
            must("order", not self.queue, row)
            return
        tag, size, ecn, since, behind, limit = self.queue.pop(0)
        must("order", row[4:] == [tag, str(size), ecn], row, tag)
        # between its arrival and its departure exactly the bytes depart that are queued after its
        # arrival
        hold("wait", limit - behind, 0, row, behind, limit)
        if was["active"]:
            self.samples.depart(size, now["bytes"], now["moment"], self.params["dq_threshold"])

    def update(self, row, was, now):
        delay, prob, params = int(row[3]), int(row[4]), self.params
        if was["active"]:
            above, grown, below_half = delay - params["target"], delay - was["old"], (params["target"] - 1) // 2
            hold("rises", prob - was["prob"], 0, row, was, above=above, grown=grown)
            hold("falls", was["prob"] - prob, 0, row, was, below=-above, fallen=-grown)
            hold("capped", was["prob"] + 2 * 10**10 - prob, 0, row, was, prob=was["prob"] - 10**11, capped=if_true(self.elements["step"] == "capped"))
            decays = was["prob"] * 98 - prob * 100
            hold("decays", decays, 0, row, was, none=-max(delay, was["old"]))
            hold("decays by half", decays, 0, row, was, half=if_true(self.elements["decay"] == "half"), old=below_half - was["old"], fallen=-grown)
            is_whole = now["burst"] == params["max_burst"]
            calm = {"delay": below_half - delay, "old": below_half - was["old"], "prob": -prob}
            must("calm", is_whole, row, now, **calm)
            must("calm, not whole before", is_whole, row, now, left=if_true(was["burst"] != params["max_burst"]), **calm)
            self.estimate(row, was, delay)
        self.recover(row, was, now, delay)
        self.last(row, was, now, delay)
        for allowance in self.allowances:
            allowance.updates += 1

    def estimate(self, row, was, delay):
        must("no sample", was["average"] == 0, row, was, none=-len(self.samples.times))
        if self.elements["delay"] != "rate" or not self.samples.times:
            return
        least, most = (was["bytes"] * time // self.params["dq_threshold"] for time in (min(self.samples.times), max(self.samples.times)))
        hold("estimate at least", delay - min(2**40, least), 0, row, was)
        hold("estimate at most", most - delay, 0, row, was)
        hold("rate at least", was["average"] - min(self.samples.times), 0, row, was)
        hold("rate at most", max(self.samples.times) - was["average"], 0, row, was)

    def recover(self, row, was, now, delay):
        """Counts the updates without delay, from an active controller on."""
        if was["active"] and delay:
            self.idle = None
            return
        if self.idle is None:
            if not was["active"]:
                return
            self.idle = 0
        self.idle += 1
        if now["prob"] or now["burst"] != self.params["max_burst"]:
            hold("recovers in any case", 1203 - self.idle, 0, row, self.idle)
            hold("recovers", 181 - self.idle, 0, row, self.idle, fall=self.params["alpha"] * self.params["target"] - 1_875_000_000)

    def last(self, row, was, now, delay):
        """Counts the updates of a delay at or above the target that does not fall, from the first such delay on."""
        if not was["active"] or delay < self.params["target"] or delay < was["old"]:
            self.lasting = None
            return
        least, burst, count = self.lasting or (delay, was["burst"], 0)
        self.lasting = (least, burst, count + 1)
        must("burst is used up", now["burst"] == 0, row, now, above=least - self.params["target"], used=(count + 1) * self.params["t_update"] - burst)
        # (no history is at the edge of the condition 2048: it takes 146 million updates)
        if self.params["alpha"] * (least - self.params["target"]) >= 2048 and now["prob"] < 10**11:
            hold("lasting delay", updates_to_a_tenth(self.params, least) - 2 - count, 2, row, count + 1)

    def refuse(self, line, row):
        """Checks the refusal of updates that are too soon."""
        if line[0] != "update":
            return
        soon, is_too_soon = self.now["moment"] + self.params["t_update"] - 1 - line[2], row[0] == "refused" and row[2] == "3"
        hold("refused no longer", soon, 0, line, self.now, refused=if_true(is_too_soon))
        must("refused after an update", is_too_soon, line, self.now, update=if_true(self.after_update), moment=LAST - line[2], soon=soon)
        must("refused after an update, also earlier", is_too_soon, line, self.now, update=if_true(self.after_update), earlier=-line[2])

    def end(self):
        must("count", self.arrivals == sum(self.verdicts.values()))


def hold_all(lines):
    """Runs a trace with a `show` record after each record, and checks all laws at each event."""
    rows = run(lines)
    laws = Laws(rows[0])
    for line, row, after in zip(lines[1::2], rows[1::2], rows[2::2]):
        laws.refuse(line, row)
        if row[0] in ("arrive", "depart", "update", "reset", "params"):
            laws.event(row, laws.now, shown(after))
    laws.end()
    found = printed(rows)
    must("printed by explain", found == laws.bounds, sorted(found.items() ^ laws.bounds.items())[:4])
    return rows


class Worked:
    """A trace that is written record by record. Its probability is set to the number that a bound needs."""

    def __init__(self, limit=2**20, mark_ecnth=0, ring=200, step="uncapped", decay="zero", max_burst=0, t_update=1):
        self.params = {"target": 10**9, "t_update": t_update, "max_burst": max_burst, "alpha": 0, "beta": 0, "mean_pkt": 1000, "limit_bytes": limit,
                       "mark_ecnth": mark_ecnth, "dq_threshold": 1024}
        self.now, self.lines, self.waiting, self.prob = 0, [], 0, 0
        self.lines.append(["open3", 1, "stamp", "derandomized", step, "unscaled", decay, "bounded", 0, ring, 2**20, 2**40, *self.params.values()])

    def add(self, *fields):
        self.lines += [list(fields), ["show"]]

    def arrive(self, word=0, size=1000, ecn="not", picked=False, later=1):
        self.now += later
        self.add("arrive", 1, self.now, 7, size, ecn, word)
        self.waiting += not picked

    def depart(self):
        self.add("depart", 1, self.now)
        self.waiting -= self.waiting > 0

    def update(self, moment=None):
        self.now = self.now + self.params["t_update"] if moment is None else max(self.now, moment)
        self.add("update", 1, self.now if moment is None else moment)

    def reset(self):
        self.add("reset", 1, self.now)
        self.prob = 0

    def set(self, **changes):
        self.params |= changes
        self.add("params", 1, self.now, *self.params.values())

    def find(self, delay):
        """Makes an update find this delay. After a delay above 0 one packet waits."""
        while self.waiting:
            self.depart()
        if delay:
            self.arrive()
            self.arrive()
            self.now += delay - 1
            self.depart()
        self.update()

    def reach(self, prob):
        """Makes the probability this one, by one update: from 0, or a higher one from 0.1 on."""
        self.set(alpha=1 if self.prob else 2048)
        self.find(10**9 + prob - self.prob)
        self.set(alpha=0)
        self.prob = prob

    def fill(self):
        """Lets 2001 bytes wait, one packet that waits before them, and none considered."""
        self.arrive(size=1001)


def worked():
    """Yields traces that reach the bounds."""
    high = 2**64 - 1
    far = Worked(mark_ecnth=425_000_000_000)
    far.reach(425_000_000_000)
    far.fill()
    for ecn in ("not", "ect0", "ect1"):
        far.arrive(ecn=ecn)
        far.arrive(ecn=ecn, picked=True)
    at_once = Worked()
    at_once.reach(NEVER)
    at_once.fill()
    for _ in range(3):
        at_once.arrive(picked=True)
    # nine packets bring the sum to almost 8.5, and the tenth, which is picked, adds almost 1
    late = Worked()
    late.reach(944_444_444_444)
    late.fill()
    for _ in range(9):
        late.arrive(word=high)
    late.reach(ONE - 1)
    late.fill()
    late.arrive(word=high, picked=True)
    # the old delay is 1, and the probability 20 per cent
    quiet = Worked()
    quiet.reach(200_000_000_000)
    quiet.find(1)
    quiet.fill()
    for _ in range(4):
        quiet.arrive(word=high)
    quiet.arrive(picked=True)
    full = Worked(limit=3001, ring=3)
    for size in (1000, 1001, 1000):
        full.arrive(size=size)
    for _ in range(4):
        full.depart()
    steep = Worked(step="capped")
    steep.reach(ONE // 2)
    steep.set(alpha=1)
    steep.find(10**9 + 3 * 10**10)
    # as slowly as can be: from the worst state with the defaults, and from 1 with an alpha of 0
    tuned = Worked()
    tuned.reach(986_448_007_965)
    tuned.find(1)
    tuned.set(alpha=125, beta=1250, target=15_000_000)
    slow = Worked()
    slow.reach(ONE)
    slow.find(1)
    lasting = Worked()
    lasting.find(30_000_000)
    lasting.set(alpha=125, beta=1250, target=15_000_000)
    for trace, count, delay in ((tuned, 182, 0), (slow, 1204, 0), (lasting, 164, 30_000_000)):
        for _ in range(count):
            trace.find(delay)
    return far, at_once, late, quiet, full, steep, tuned, slow, lasting


def at_edges():
    """Yields traces at the edges of conditions."""
    high, half = 2**64 - 1, 499_999_999
    # one nanosecond of burst allowance is left, and the arrival is considered without it; later none is left
    burst = Worked(max_burst=2)
    burst.reach(NEVER)
    burst.fill()
    burst.arrive()
    burst.update()
    burst.arrive(picked=True)
    # two mean packets are queued; then the delay is just below half the target and the probability just below 20 per cent
    short = Worked(mark_ecnth=NEVER + 1)
    short.reach(NEVER)
    short.arrive()
    short.arrive()
    short.arrive(ecn="ect0", picked=True)
    low = Worked()
    low.reach(199_999_999_999)
    low.find(half)
    low.fill()
    for _ in range(6):
        low.arrive()
    # at a constant probability nine packets pass, the tenth is picked, and nine pass again
    steady = Worked()
    steady.reach(944_444_444_444)
    steady.fill()
    for place in range(19):
        steady.arrive(word=high, picked=place == 9)
    least = Worked()
    least.reach(1)
    least.fill()
    least.arrive(word=high)
    # equal delays, and delays equal to the target
    equal = Worked(decay="half")
    equal.set(alpha=1, beta=1)
    for delay in (10**9 - 5, 10**9, 10**9, 10**9 + 5, 10**9 + 5, 10**9, half, half, half, 0, 0):
        equal.find(delay)
    tenth = Worked(step="capped")
    tenth.reach(10**11)
    tenth.set(alpha=1)
    tenth.find(10**9 + 3 * 10**10)
    calm = Worked(max_burst=5)
    for delay in (10**9, half, half):
        calm.find(delay)
    calm.reset()
    # the first delay at the target, and the first update of a lasting delay
    lasting = []
    for delays in ((10**9, 11 * 10**8), (11 * 10**8,)):
        one = Worked(max_burst=len(delays))
        one.set(alpha=2048)
        for delay in delays:
            one.find(delay)
        one.fill()
        one.arrive(word=high)
        lasting.append(one)
    clock = Worked(t_update=100)
    for moment in (100, 0, 99, 199, 200, LAST, 0, LAST, LAST + 1):
        clock.update(moment)
    return burst, short, low, steady, least, equal, tenth, calm, *lasting, clock, *lowered_bursts()


def lowered_bursts():
    """Yields traces in which the allowance is above `max_burst`, or parameters change later."""
    calm = Worked(max_burst=1000)
    calm.set(max_burst=0)
    calm.find(0)
    calm.reach(NEVER)
    calm.fill()
    calm.arrive(picked=True)
    # a reset leaves 3 of 1000, and the third update after it finds a long delay
    reset = Worked(max_burst=1000)
    for size in (1000, 1000, 1001):
        reset.arrive(size=size)
    reset.update(2 * 10**12)
    reset.set(max_burst=3, alpha=2048)
    reset.reset()
    reset.depart()
    for _ in range(3):
        reset.update()
    reset.arrive(later=0, picked=True)
    changed = Worked(max_burst=6, t_update=1)
    changed.set(t_update=3, alpha=2048)
    changed.find(10**9 + NEVER)
    changed.fill()
    changed.arrive()
    changed.set(t_update=2)
    changed.update()
    changed.update()
    changed.arrive(picked=True)
    return calm, reset, changed


def sudden_burst():
    """Makes a burst of 100 packets a nanosecond before an update, with the defaults, at an idle
    link of 10 Mbit/s whose rate is known."""
    lines = [["open3", 1, "rate", "random", "capped", "unscaled", "zero", "bounded", 0, 65536, 65536, 2**40,
              15_000_000, 15_000_000, 150_000_000, 125, 1250, 1024, 262144, 10**11, 16384]]
    lines += [["arrive", 1, 0, tag, 1000, "not", 0] for tag in range(40)]
    departures = [["depart", 1, 800_000 * (place + 1)] for place in range(40)]
    updates = [["update", 1, 15_000_000 * (place + 1)] for place in range(40)]
    lines += sorted(departures + updates, key=lambda line: line[2])
    begins = 41 * 15_000_000 - 1
    lines += [["arrive", 1, begins, tag, 1000, "not", 0] for tag in range(100, 200)]
    for place in range(12):
        now = begins + 1 + 15_000_000 * place
        lines += [["update", 1, now], ["update", 1, now + 14_999_999], ["arrive", 1, now, 200 + place, 1000, "not", 0]]
    return begins, lines[:1] + [it for record in lines[1:] for it in (record, ["show"])]


def main():
    first, runs, steps = (int(sys.argv[place]) if len(sys.argv) > place else usual for place, usual in ((2, 1), (3, 24), (4, 160)))
    for seed in range(first, first + runs):
        elements = elements_of(seed * 21)
        profile = 1 + (seed // 3) % 2
        _, steps_run = random_run(seed, steps, 7, 14, steps, False, True, profile, elements)
        trace = [["open3", profile, *elements, "rolling", 5, 7, 14, steps, *PROFILES[0]]]
        for caller, step, *_ in steps_run:
            trace += [record_of(caller, step), ["show"]]
        hold_all(trace)
    for trace in [*worked(), *at_edges()]:
        hold_all(trace.lines)
    begins, trace = sudden_burst()
    drops = [int(row[2]) - begins for row in hold_all(trace) if row[0] == "arrive" and row[7] == "early"]
    must("135 ms", drops[:1] == [135_000_001], drops[:1])
    missing = [*(f"differs: {line}" for line in differences()),
               *(f"no history is at the edge of a condition: {law}, {name}" for (law, name), is_reached in edges.items() if not is_reached)]
    print("".join(f"{NAME}: {line}\n" for line in missing), end="")
    weak = [law for law in seen if WRONG and not broken[law]]
    if WRONG:
        print(f"{NAME}: of {len(seen)} bounds, each tighter by one, {len(seen) - len(weak)} failed, and not: {', '.join(weak) or 'none'}")
        sys.exit(bool(weak))
    loose = sorted(seen.keys() - reached)
    print("".join(f"{NAME}: no history comes near this bound: {law}\n" for law in loose), end="")
    print(f"{NAME}: {len(seen)} bounds held {sum(seen.values())} times in {runs} random histories, {sum(broken.values())} did not")
    sys.exit(bool(missing or broken or loose))


main()
