#!/usr/bin/env python3
"""Compares the contract of each law of crates/pie_guarantees with its paragraph of docs/GUARANTEES.md. CONDITIONS has
each condition of each contract, with the words for it. The paragraph is each paragraph or list item of the page that
contains the name of the law in parentheses; a paragraph that ends with a colon has the list after it.

The script fails if a contract has a condition that is not listed here, if a listed condition is in no contract, if
the words for a condition or those of NUMBERS are not in the paragraph, if the words of a term are not on the page, or
if a law has no paragraph. A condition that is a record of crates/pie_guarantees/specs counts as its fields. Every law
also has the condition IsLawful, which the head of the page states.

usage: tests/documents/conditions.py
needs: nothing
"""
import os
import re
import sys

sys.path.insert(0, f"{os.path.dirname(os.path.abspath(__file__))}/../shared")
from checks import ROOT, check, finish  # noqa: E402
from laws import clauses, parts, records  # noqa: E402

LONG = {"AllAlong (EffectiveAtMost most opening) before between": ["is at most p"],
        "AllAlong (EffectiveAtLeast least opening) before between": ["at least q"]}
SPACED = {"opening.choices.elements.picking ≡ Derandomized": ["With `derandomized`"]}
CONDITIONS = {
    "clean_histories_are_lawful": {
        "IsHistoryText text opening lines": ["a whole history"],
        "text_finding (records_of text) ≡ Ok (Clean events)": ["`pie audit` reports `clean`"]},
    "links_are_lawful": {
        "KeepsOneHistory rule link": ["threads that share its controller"], "link.origin ≡ Some opening": ["of a link"],
        "IsKeyOf link opening key": ["the lock of a link"], "rule key lock": ["the lock"], "IsFree lock": ["the lock of a link is free"]},
    "no_early_drop_within_burst_allowance": {"0 < (parts_after opening before).burst": ["While burst allowance is left"]},
    "allowances_begin_whole": {
        "event.command ≡ Reset moment": ["after a reset"],
        "active_after opening before ≡ false": ["an inactive controller"],
        "active_after opening (before ++ event ∷ []) ≡ true": ["an arrival that activates"],
        "IsActiveUpdate.update": ["after each calm update"], "IsActiveUpdate.active": ["the controller is active before it"],
        "IsCalmUpdate.delay": ["finds the delay below half the target"],
        "IsCalmUpdate.old_delay": ["the previous delay is below half the target too"],
        "IsCalmUpdate.prob": ["the probability after it is 0"]},
    "burst_allowance_lasts": {
        "burst ≤ burst_left opening before": ["any allowance that is at most the remaining allowance"],
        "Allows.allowance": ["at most each `max_burst` in force"], "Allows.apart": ["the shortest `t_update` in force"],
        "Allows.together": ["the longest `t_update` in force"],
        "AllAllow.set": ["If parameters change later"],
        "IsEarly event": ["updates come before the first mark or early drop", "two bounds follow for the first mark or early drop"],
        "All (λ event. KeepsParams event.command) between": ["let the parameters not change: no event sets them"],
        "All (λ event. KeepsParams event.command) before": ["If no parameters were set since the opening"]},
    "no_early_drop_in_short_queues": {
        "bytes_after opening before ≤ 2 * (params_after opening before).mean_pkt": ["while at most two mean packets are queued"]},
    "no_early_drop_at_low_delay": {
        "2 * (parts_after opening before).old_delay < (params_after opening before).target": ["while the previous delay is below half the target"],
        "(parts_after opening before).prob < 200_000_000_000": ["the probability is below 20 per cent"]},
    "no_early_drop_while_inactive": {"active_after opening before ≡ false": ["while the controller is inactive"]},
    "capable_packets_are_not_dropped_early": {"OnlyMarks opening before": ["the probability is below the `mark_ecnth` in force"]},
    "only_capable_packets_are_marked": {},
    "every_packet_is_accounted_for": {},
    "queues_stay_within_their_limits": {
        "packet_queued (effect_of event) ≡ Some packet": ["After a packet is queued or marked"],
        "opening.params.limit_bytes ≤ most": ["that of the opening"],
        "All (λ event. SetsLimit most event.command) history": ["one that was set later"]},
    "waits_are_bounded": {
        "packet_queued (effect_of event) ≡ Some packet": ["A packet that is queued or marked"],
        "length (packets_departed between) ≡ length (waiting_after opening before)": ["If as many packets depart after some moment as were queued then"],
        "length (packets_departed between) ≡ length (waiting_after opening (before ++ event ∷ []))": ["from its arrival to its departure"],
        "Carries rate opening (before ++ event ∷ []) between": ["the rate at which the link carried packets"]},
    "the_probability_follows_the_delay": {
        "IsActiveUpdate.update": ["If rises are capped, an update of an active controller"],
        "IsActiveUpdate.active": [f"update of an active controller {words}" for words in ("finds a delay at or above", "finds a delay at or below",
                                                                                       "raises a probability", "finds, and this")],
        "(params_after opening before).target ≤ delay_after opening before": ["finds a delay at or above the target"],
        "old_delay_after opening before ≤ delay_after opening before": ["no lower than the previous delay"],
        "delay_after opening before ≤ (params_after opening before).target": ["finds a delay at or below the target"],
        "delay_after opening before ≤ old_delay_after opening before": [
            "no higher than the previous delay, the update does not raise", "this delay is no higher than the previous delay"],
        "is_capped opening.choices.elements.step ≡ true": ["If rises are capped"],
        "100_000_000_000 ≤ probability_after opening before": ["a probability of 10 per cent or more"],
        "decays opening.choices.elements.decay (params_after opening before) (delay_after opening before) (old_delay_after opening before) ≡ true": [
            "If the probability decays at the delay", "if the delay and the previous delay are both 0",
            "with the decay `half`, if both are below half the target"],
        "(is_update (effect_of event) ≡ false) ⊎ (active_after opening before ≡ false)": [
            "If an event is no update, or if the controller is inactive before it"]},
    "causes_of_a_higher_probability": {"delay ≤ more": ["A higher delay"]},
    "speed_of_the_probability": {
        "IsSteady.keeps": ["let no parameters be set"], "IsSteady.unreset": ["no reset come"], "IsSteady.active": ["Let the controller be active"],
        "IsSteady.delay_now": ["each update find the same delay"], "IsSteady.delay_old": ["the same previous delay, which are equal"],
        "decays opening.choices.elements.decay (params_after opening before) delay delay ≡ true": ["If the probability decays at the delay"]},
    "steady_delays_move_the_probability": {
        "0 < params.target": ["a target above 0"],
        "params.target ≤ delay": [f"If the delay is at or above the target, {words}" for words in ("they raise the", "they raise it", "and `alpha`")],
        "delay ≤ params.target": [f"If the delay is at or below the target, and the {words}" for words in ("last probability is above 0", "probability does not decay")],
        "prob ≤ 10 ^ 12": ["a probability of at most 1"],
        "after_updates n elements params delay prob ≤ most": ["at the last probability, or at any higher one"],
        "0 < least": ["any lower one above 0"],
        "least ≤ after_updates n elements params delay prob": ["at the last probability, or at any lower one"],
        "decays elements.decay params delay delay ≡ false": ["the probability does not decay"],
        "2048 ≤ untuned_rise params delay": ["`alpha` times the distance is at least 2048"],
        "updates_to_a_tenth params delay ≤ n": ["the sum of the updates in each row of the auto-tuning table"],
        "decays elements.decay params delay delay ≡ true": ["If the probability decays"], "114 ≤ n": ["114 updates"]},
    "lasting_delays_raise_the_probability": {
        "(params_after opening before).target ≤ least": ["Let d be at or above the target"],
        "2048 ≤ untuned_rise (params_after opening before) least": ["If `alpha` times the excess of d over the target is at least 2048"],
        "IsLasting.keeps": ["let no parameters be set"], "IsLasting.unreset": ["no reset come"], "IsLasting.active": ["let the controller be active"],
        "IsLasting.delay": ["find a delay that is at least d"], "IsLasting.grows": ["no lower than the previous delay"],
        "updates_to_a_tenth (params_after opening before) least ≤ updates_in between": ["after a number of updates that depends on d"],
        "burst_left opening before ≤ updates_in between * (params_after opening before).t_update": ["After ⌈allowance / `t_update`⌉ updates"],
        "0 < updates_in between": ["after at least one update"], "active_after opening (before ++ between) ≡ true": ["let the controller be active"],
        "2 * (params_after opening before).mean_pkt < bytes_after opening (before ++ between)": ["finds more than two mean packets there"],
        "had_room (effect_of event) ≡ true": ["if it fits into the queue"]},
    "controllers_recover": {
        "active_after opening before ≡ true": ["let the controller be active at that moment"],
        "1_875_000_000 ≤ untuned_fall (params_after opening before) 0": ["`alpha` times `target` is at least the product of their defaults"],
        "FindsNoDelay.keeps": ["let no parameters be set"], "FindsNoDelay.delay": ["each update of an active controller find no delay"],
        "182 ≤ updates_in between": ["at most 182 updates"], "1204 ≤ updates_in between": ["at most 1204 updates"]},
    "picks_reset_the_sum": {"IsEarly event": ["Each pick"]},
    "picks_are_far_apart": SPACED | {
        "accu_after opening before ≡ 0": ["from a moment at which the sum is 0"],
        "AllAlong (EffectiveAtMost most opening) before between": ["their greatest effective probability"],
        "effective_prob_at opening (before ++ between) event ≤ most": ["with the picked packet, times"],
        "IsEarly event": ["up to the next pick"]},
    "picks_are_not_too_far_apart": SPACED | {
        "0 < least": ["if that probability is above 0"],
        "AllAlong (EffectiveAtLeast least opening) before between": ["their least effective probability"],
        "IsUnpicked.unpicked": ["no packet is picked"], "IsUnpicked.no_bytes": ["no tail drop by bytes"],
        "IsUnpicked.no_packets": ["no tail drop by bytes or by packets"], "IsUnpicked.unreset": ["no reset comes"],
        "IsUnpicked.no_start": ["no arrival activates the controller"]},
    "picks_share_the_probability": SPACED | LONG | {
        "accu_after opening before ≡ 0": ["If the accumulated probability is 0 at the beginning, the total", "If the accumulated probability is 0 at the beginning, and"]},
    "picks_are_not_consecutive": SPACED | {
        "IsEarly first": ["if two packets are picked"], "IsEarly second": ["if two packets are picked"],
        "considered_in opening (before ++ first ∷ []) between ≡ 0": ["no packet is considered between them"]},
    "the_link_does_not_idle": {"IsEarly event": ["After a mark or an early drop"], "event.answer ≡ Empty": ["A departure reports an empty queue"]},
    "a_clock_ahead_delays_updates": {
        "refusal_by_rule opening before (Update moment) ≡ Some (TooSoon due)": ["An update is refused as too soon"],
        "caller_moment event.command ≡ effective_moment opening before + ahead": ["If the last event's moment is m ahead of the greatest moment before it"],
        "refusal_by_rule opening (before ++ event ∷ []) (Update moment) ≡ Some (TooSoon due)": ["refused as too soon only if"],
        "is_update (effect_of event) ≡ true": ["After an update, and before any other event"], "moment < 1_152_921_504_606_846_976": ["with a moment below 2^60"],
        "moment < effective_moment opening (before ++ event ∷ []) + (params_after opening before).t_update": [
            "less than one `t_update` after the effective moment of the first"]},
    "the_rate_lies_between_its_samples": {
        "0 < length (samples_after opening history)": ["If there is a sample since the estimate was cleared"],
        "All (IsBetween least most) (samples_after opening history)": ["between the shortest and the longest"],
        "length (samples_after opening history) ≡ 0": ["Without a sample"]},
    "the_estimated_delay_lies_between": {
        "opening.choices.elements.delay ≡ Rate": ["With `rate`"],
        "0 < length (samples_after opening history)": ["at least one sample"],
        "All (IsBetween least most) (samples_after opening history)": ["the longest sample", "the shortest sample"]},
    "limits_may_be_lowered_below_the_queue": {},
    "burst_bound_is_tight": {},
    "a_clock_at_its_end_refuses_every_update": {"moment < 1_152_921_504_606_846_976": ["every later update is refused"]},
    "one_flow_may_receive_every_pick": {},
}

# by law: words of its paragraph that no premise requires, such as the starting numbers of an example or a rounding
NUMBERS = {
    "burst_bound_is_tight": ["The bound is 199 ns, and the first early drop comes at 200 ns"],
    "speed_of_the_probability": ["If the probability is 0, and the delay steps from 0", "with the 158th update, and with no earlier one",
                                 "with the 87th update, and with no earlier one"],
    "controllers_recover": ["and a previous delay of 1 ns", "from probability 1 and a previous delay of 0"],
    "the_rate_lies_between_its_samples": ["at least `dq_threshold` bytes departed"],
    "the_estimated_delay_lies_between": ["rounded down to a nanosecond"],
}
# words of the terms that conditions contain
TERMS = ["An arrival is *considered* if the controller is active, and neither a limit nor a burst nor low load decides it.",
         "Times are differences of such moments.", "Late updates make it longer.", "It is 0 if a reset or an activation came after that update"]


def paragraphs(text):
    """Returns each paragraph and each top-level list item of a page as one line."""
    blocks, is_open = [], False
    for line in text.splitlines():
        if not line.strip():
            is_open = bool(blocks) and is_open and blocks[-1].startswith("- ")
        elif is_open and not line.startswith(("- ", "#")) and (line.startswith(" ") or not blocks[-1].startswith("- ")):
            blocks[-1] += " " + line.strip()
        elif line.startswith("  ") and blocks and blocks[-1].startswith("- "):
            blocks[-1] += " " + line.strip()
            is_open = True
        else:
            blocks.append(line.strip())
            is_open = not line.startswith("#")
    return blocks


def paragraph_of(law, blocks):
    """Returns the paragraphs of a law."""
    found, lists = [], False
    for block in blocks:
        is_item = block.startswith("- ")
        lists = lists and is_item
        if f"(`{law}`)" in block or f"clauses of `{law}`" in block or lists:
            found.append(block)
            lists = lists or not is_item and block.endswith(":")
    return " ".join(found)


def conditions(contract, known):
    """Yields the conditions of a contract: each premise, and in place of a record its fields."""
    for text in contract.values():
        for premise in parts(text)[0]:
            yield from fields_of(premise, known)


def fields_of(premise, known):
    """Yields a condition, or the fields of the record that it is."""
    name = next((name for name in known if re.search(rf"(?<!\w){name}(?!\w)", premise)), None)
    if not name:
        yield premise
        return
    for field, text in known[name].items():
        below = list(fields_of(text, known))
        yield from below if below != [text] else [f"{name}.{field}"]


def main():
    laws = clauses()
    known = {name: fields for name, fields in records().items() if name != "IsLawful"}
    blocks = paragraphs((ROOT / "docs/GUARANTEES.md").read_text())
    for term in TERMS:
        check(any(term in block for block in blocks), f"docs/GUARANTEES.md does not contain the words: {term}")
    check(laws.keys() == CONDITIONS.keys(), "laws and CONDITIONS differ in", sorted(laws.keys() ^ CONDITIONS.keys()))
    for law, wanted in CONDITIONS.items():
        found = {*conditions(laws.get(law, {}), known)}
        for condition in sorted(found - wanted.keys()):
            check(False, f"{law} has a condition without words here: {condition}")
        for condition in sorted(wanted.keys() - found):
            check(False, f"{law} does not have this condition: {condition}")
        text = paragraph_of(law, blocks)
        check(text, f"docs/GUARANTEES.md has no paragraph of {law}")
        for condition, words in wanted.items():
            for word in words:
                check(not text or word in text, f"docs/GUARANTEES.md does not state for {law} `{condition}` in the words: {word}")
        for word in NUMBERS.get(law, []):
            check(word in text, f"docs/GUARANTEES.md does not state for {law} the words: {word}")
    finish()


main()
