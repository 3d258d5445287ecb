#!/usr/bin/env bash
# Compares each decision with Linux's sch_pie.c and DPDK's rte_pie.h (bench/steps). Each difference must be one that
# docs/PARAMETERS.md names, and each of Linux's must occur. The proved rules of Linux must decide each step of sch_pie.c
# alike. Then the script changes the rules of Linux's code one by one. The proved rules must find a step of each.
# Prints a line NOT RUN if Debian's packages are not installed.
# usage: tests/program/real_code.sh [PROGRAM]      PROGRAM: crates/pie/out/pie by default
# needs: program
. "$(dirname "$0")/../shared/script.sh"
steps=$top/bench/steps
# decide NAME SCRIPT WORDS..: writes the history of a trace
decide() {
    "$steps/$2" "${@:3}" > "$work/trace" && "$program" run "$work/trace" > "$work/$1" || exit 1
}
# (an opening of 20 fields, and some of 21 fields with the decay)
decide history1-rate trace.py 1 rate 0
decide history2-rate-short trace.py 3 rate 0 10 half
decide history3-stamp-short trace.py 1 stamp 100000000000 20 zero 1073741824
decide history4-stamp-short trace.py 3 stamp 100000000000 12 half 48448
decide history5-stamp-short tenth.py
"$steps/run.sh" "$program" "$work"/history* > "$work/found" 2>&1
status=$?
if [ $status = 3 ]; then
    echo "NOT RUN: $script: no decision was compared with Linux's and DPDK's code: $(cat "$work/found"); bench/steps/install.sh installs it"
    exit 0
fi
cat "$work/found"
[ $status = 0 ] || exit 1
sed '/^DPDK/,$d' "$work/found" | grep '^ *0  ' && fail "no step has this difference of Linux"
while IFS='|' read -r delay old new; do
    cp "$steps/out/linux_pie.h" "$work/"
    sed "s|$old|$new|" "$steps/out/linux_pie.c" > "$work/linux_pie.c"
    cmp -s "$steps/out/linux_pie.c" "$work/linux_pie.c" && fail "no $old in Linux's code"
    LINUX_CODE=$work "$steps/run.sh" "$program" "$work"/history?-"$delay"-short > "$work/wrong" 2>&1
    grep 'by the proved rules of Linux' "$work/wrong" | grep -E -q 'differs,|is recorded as' ||
        fail "with $new in the place of $old, the proved rules found: $(cat "$work/wrong")"
done <<'END'
stamp|>= sch->limit|> sch->limit
stamp|vars->burst_time > 0)$|vars->burst_time > 100000)
stamp|MAX_PROB / 5|MAX_PROB / 4
stamp|backlog < 2 \* mtu|backlog < 3 * mtu
stamp|(MAX_PROB / 100) \* 85|(MAX_PROB / 100) * 80
stamp|(MAX_PROB / 2) \* 17|(MAX_PROB / 2) * 16
stamp|rnd >> BITS_PER_BYTE|rnd >> 9
stamp|<= MAX_PROB / 10|< MAX_PROB / 10
stamp|q->vars.accu_prob = 0|;
stamp|backlog ? now|1 ? now
stamp|burst_time -= dtime|burst_time -= dtime / 2
stamp|backlog != 0)|backlog == 1)
stamp|MAX_PROB / PSCHED_TICKS_PER_SEC|MAX_PROB / 15625001
stamp|power <= 1000000|power <= 100000
stamp|delta = (MAX_PROB / 100) \* 2|delta = (MAX_PROB / 100) * 3
stamp|250 \* NSEC_PER_MSEC|200 * NSEC_PER_MSEC
stamp|delta += MAX_PROB / (100 / 2)|delta += MAX_PROB / 100
stamp|vars->prob < oldprob) {|vars->prob > MAX_PROB) {
stamp|qdelay_old == 0 &&|
stamp|vars->prob / 64|vars->prob / 50
stamp|pie_vars_init(vars)|
rate|(u64)packet_size \* div_u64(local_prob, mtu)|div_u64((u64)packet_size * local_prob, mtu)
rate|packet_size <= mtu|packet_size < 1500
rate|dq_count += skb->len|dq_count += 1500
rate|dq_count >= QUEUE_THRESHOLD|dq_count > QUEUE_THRESHOLD + 1000
rate|dq_count << PIE_SCALE|dq_count << 7
rate|(vars->avg_dq_rate >> 3))|(vars->avg_dq_rate >> 2))
rate|(count >> 3)|(count >> 2)
rate|if (backlog < QUEUE_THRESHOLD) {|if (backlog < 2 * QUEUE_THRESHOLD) {
rate|backlog << PIE_SCALE|backlog << 7
rate|avg_dq_rate > 0))|avg_dq_rate == 0))
END
exit $failed
