#!/usr/bin/env bash
# Tests `pie params` with parameters of tc. A run must accept the record, and copy it.
# usage: tests/program/params.sh [PROGRAM]      PROGRAM: crates/pie/out/pie by default
# needs: program
. "$(dirname "$0")/../shared/expect.sh"

# The usual elements, and the greatest number of events.
usual=open3,1,rate,derandomized,capped,unscaled,rolling
events=140737488355328
nine=15000000,15000000,150000000,125,1250,1024,262144,0,16384
# params NAME RECORD ERRORS WORDS..
params() {
    local name=$1 record=$2 errors=$3
    shift 3
    expect "$name" 0 "$record\n" "$errors" '' params --dq_rate_estimator "$@"
    expect "a run of $name" 0 "$record\n" '' "$record\n" run
}
params 'the defaults of tc' "$usual,0,1000,1000,$events,15000000,15000000,150000000,125,1250,1024,262144,0,16384" ''
params 'what tc shows' "$usual,0,2000,2000,$events,20000000,15000000,150000000,125,1250,1024,2500000,100000000000,16384" '' \
    --rate 100mbit --target 20ms --limit 2000p --alpha 2 --beta 20 --tupdate 15ms --ecn
stalls='pie: warning: dq_threshold (16384) is above half of rate x target: the departure rate may not be measured for a long time\n'
above='pie: warning: limit (900 packets) is above one second at the rate in packets of the MTU; limit_bytes (225000) limits the queue too\n'
params 'other units' "$usual,0,900,900,$events,500000,1000,150000000,0,2000,1024,225000,0,16384" "$above$stalls" \
    --rate 9000kbit --target 500us --limit 900 --alpha 0 --beta 32 --tupdate 1000ns
# (the limits are those of the table of docs/PARAMETERS.md: bytes, and packets of 64 bytes)
for row in 10mbit:250000:3906:stalls 100mbit:2500000:39062 1gbit:25000000:390625 10gbit:250000000:1048576 40gbit:1000000000:1048576 \
    100gbit:1073741824:1048576 41bit:25000:390:stalls 2.5GBIT:62500000:976562 0.1tbit:1073741824:1048576 12.5Mbps:2500000:39062 \
    100Mibit:2621440:40960 1gibps:214748365:1048576 1000kbit:25000:390:stalls 125000kbps:25000000:390625 960000bit:25000:390:stalls \
    1000041bit:25002:390:stalls; do
    IFS=: read -r rate limit packets warns <<< "$row"
    params "a limit at $rate" "$usual,0,$packets,$packets,$events,15000000,15000000,150000000,125,1250,1024,$limit,0,16384" "${warns:+$stalls}" --rate "$rate"
done
# A chosen limit in packets of 1514 bytes: at 100 Mbit/s, 1363 packets are 165.1 ms, and 8257 are 1.00005 s.
below() { echo "pie: warning: limit ($1 packets) is below rate x (target + burst allowance) in packets of the MTU: bursts that the allowance admits fill the queue\n"; }
above() { echo "pie: warning: limit ($1 packets) is above one second at the rate in packets of the MTU; limit_bytes ($2) limits the queue too\n"; }
chosen_limit() {
    params "a limit of $1 packets" "$usual,0,$1,$1,$events,15000000,15000000,150000000,125,1250,1024,$2,0,16384" "$3" --limit "$1" "${@:4}"
}
chosen_limit 1363 2500000 '' --rate 100mbit
chosen_limit 1362 2500000 "$(below 1362)" --rate 100mbit
chosen_limit 8256 2500000 '' --rate 100mbit
chosen_limit 8257 2500000 "$(above 8257 2500000)" --rate 100mbit
chosen_limit 1000 25000000 "$(below 1000)" --rate 1gbit
chosen_limit 1000 25000000 "$(below 1000)" --rate 1gbit --mtu 9000
chosen_limit 3000 25000000 '' --rate 1gbit --mtu 9000
chosen_limit 1 262144 ''
# Half of the bytes queued at the target is 16384 at 17.476266667 Mbit/s. With time stamps or without a rate there
# is no warning.
record="$usual,0,6826,6826,$events,15000000,15000000,150000000,125,1250,1024,436907,0,16384"
params 'a rate at which the estimator stalls' "$record" "$stalls" --rate 17476266bit
params 'a rate at which it does not' "$record" '' --rate 17476267bit
record="open3,1,stamp,derandomized,capped,unscaled,rolling,0,390,390,$events,${nine/262144/25000}"
expect 'a rate by time stamps' 0 "$record\n" '' '' params --rate 512kbit
short='is below rate x target: the queue is full before the delay reaches the target, and all losses are tail drops\n'
params 'a limit that is too small' "$usual,0,39062,39062,$events,1000000000,15000000,150000000,125,1250,1024,2500000,0,16384" \
    "pie: warning: limit_bytes (2500000) $short" --rate 100mbit --target 1s
rounded="pie: warning: alpha is rounded down to a whole number of thousandths per second\npie: warning: beta is rounded down to a whole number of thousandths per second\n"
params 'odd gains' "$usual,0,1000,1000,$events,15000000,15000000,150000000,187,1312,1024,262144,0,16384" \
    "$rounded" --alpha 3 --beta 21
params 'the defaults of RFC 8033' "$usual,0,1000,1000,$events" '' --ecn
params 'as many packets as there may be' "$usual,0,1048576,1048576,$events,15000000,15000000,150000000,125,1250,1024,262144,0,16384" '' \
    --limit 1048576
# Each choice alone, and all together.
chosen() {
    local words=$1 mean=$2
    shift 2
    local record="open3,1,$words,rolling,0,1000,1000,$events,${nine/1024/$mean}"
    expect "choices $*" 0 "$record\n" '' '' params "$@"
    expect "a run of choices $*" 0 "$record\n" '' "$record\n" run
}
chosen stamp,derandomized,capped,unscaled 1024
chosen rate,random,capped,unscaled 1024 --dq_rate_estimator --no_derandomization
chosen rate,derandomized,uncapped,unscaled 1024 --dq_rate_estimator --no_cap_drop_adjustment
chosen rate,derandomized,capped,scaled 1514 --dq_rate_estimator --bytemode
chosen stamp,derandomized,capped,unscaled,half 1024 --decay half
chosen stamp,derandomized,capped,unscaled 1024 --decay=zero
chosen stamp,random,uncapped,scaled,half 9000 --no_derandomization --no_cap_drop_adjustment --bytemode --mtu 9000 --decay half
chosen stamp,derandomized,capped,unscaled 1024 --mtu 9000
# Sizes on the link, computed by hand from the table of tc-stab(8): 1540 bytes are 33 cells and 1064 bytes 23; with a
# least size, 88 bytes are the greatest of a step of four; 10000 bytes are four entries of 43 cells and one of 38.
on_link() {
    chosen "stamp,derandomized,capped,$1" "${@:2}"
}
on_link unscaled 1219 --overhead 40 --linklayer atm
on_link unscaled 1219 --overhead 40 --linklayer=adsl
on_link unscaled 1064 --overhead 40 --linklayer ethernet
on_link unscaled 1010 --overhead=-14
on_link unscaled 1 --overhead=-65535 --mpu 0
on_link unscaled 1024 --mpu 84
on_link unscaled 65535 --mpu 65535
on_link scaled 1749 --bytemode --mtu 1500 --overhead 40 --linklayer atm
on_link scaled 53 --bytemode --mtu 48 --linklayer atm
on_link scaled 106 --bytemode --mtu 49 --linklayer atm
on_link scaled 84 --bytemode --mtu 40 --overhead 44 --mpu 84
on_link scaled 88 --bytemode --mtu 41 --overhead 44 --mpu 84
on_link scaled 11130 --bytemode --mtu 10000 --linklayer atm
expect 'a size above 65535' 1 '' 'pie: the parameter mean_pkt is out of its range\n' '' params --overhead 65535
for bytes in '' - -- 65536 -65536 +4 1.5 40b 0x10 4-; do
    expect "no overhead: $bytes" 1 '' 'pie: --overhead must be a whole number of bytes, -65535 to 65535\n' '' params "--overhead=$bytes"
done
expect 'a link layer of another word' 1 '' "pie: --linklayer must be ethernet, atm or adsl\npie: 'ATM' is no value of --linklayer\n" '' params --linklayer ATM
# The sizes of examples/link, which tests/program/layer.sh compares with those of the kernel.
if command -v cc > /dev/null; then
    cc -I "$top/examples/link" -o "$work/layer" -x c - "$top/examples/link/layer.c" <<'END' || exit 1
#include "layer.h"
#include <stdio.h>
#include <stdlib.h>
int main(int count, char **words) {
    struct layer layer = {atoi(words[1]), (uint32_t)atoi(words[2]), atoi(words[3])};
    for (int i = 4; i < count; i++)
        printf("%u\n", size_on_link(&layer, (uint32_t)atoi(words[i])));
}
END
    sizes=$(seq 1 113 1514)
    while read -r overhead mpu is_atm; do
        layer=$([ "$is_atm" = 1 ] && echo atm || echo ethernet)
        for size in $sizes; do
            "$program" params --bytemode --mtu "$size" --overhead="$overhead" --mpu "$mpu" --linklayer "$layer" | cut -d, -f17
        done > "$work/found"
        # shellcheck disable=SC2086
        if ! "$work/layer" "$overhead" "$mpu" "$is_atm" $sizes | cmp -s - "$work/found"; then
            echo "$script: with overhead $overhead, mpu $mpu and $layer, other sizes than those of examples/link"
            failed=1
        fi
    done <<'END'
-14 0 0
44 84 0
40 0 1
-10 53 1
END
fi
for time in 20ms 20MS 020ms 20.0ms 20msec 20Msecs 0.02s .02sec 20000us 20000usecs 20000000ns 20000000nsecs; do
    params "a target of $time" "$usual,0,1000,1000,$events,20000000,15000000,150000000,125,1250,1024,262144,0,16384" '' --target "$time"
done
params 'decimals' "$usual,0,1000,1000,$events,1500000,2500,150000000,125,1250,1024,262144,0,16384" '' --target 1.5ms --tupdate 2.5us --limit 1000P
for time in 20 20m ms 20min +20ms ' 20ms' '20 ms' 2e1ms 0x14ms 20.ms . 20msecss 20mbit ''; do
    expect "no time: $time" 1 '' 'pie: --target must be a number with ns, us, ms or s, such as 20ms\n' '' params --target "$time"
done
for rate in 100 100m 100mb 100mbyte mbit 100kmbit 100kiibit +1mbit ''; do
    expect "no rate: $rate" 1 '' 'pie: --rate must be a number with bit, kbit, mbit, gbit or tbit, or with bps, kbps and so on, such as 100mbit\n' '' \
        params --rate "$rate"
done
for rate in 0mbit 0bit 0.000tbps; do
    expect "a rate of $rate" 1 '' 'pie: --rate must be at least 1bit\n' '' params --rate "$rate"
done
expect 'a time below a nanosecond' 1 '' 'pie: --target must be a whole number of nanoseconds\n' '' params --target 15000000.5ns
expect 'a rate below a bit' 1 '' 'pie: --rate must be a whole number of bits per second\n' '' params --rate 0.0001kbit
expect 'a part of a packet' 1 '' 'pie: --limit must be a whole number of packets\n' '' params --limit 0.5p
most='must be at most 1152921504606846975 nanoseconds, bits per second or packets\n'
expect 'a rate that is too great' 1 '' "pie: --rate $most" '' params --rate 1152922tbit
expect 'a time that is too great' 1 '' "pie: --target $most" '' params --target 99999999999999999999ms
expect 'a decay of another word' 1 '' "pie: --decay must be zero or half\npie: 'quarter' is no value of --decay\n" '' params --decay quarter
expect 'no limit' 1 '' 'pie: --limit must be a number of packets, such as 1000p\n' '' params --limit 1000kb
expect 'a limit that is too great' 1 '' 'pie: --limit must be 1 to 1048576 packets\n' '' params --limit 1048577p
expect 'no packets' 1 '' 'pie: --limit must be 1 to 1048576 packets\n' '' params --limit 0
expect 'a target that is too great' 1 '' 'pie: the parameter target is out of its range\n' '' params --target 11s
expect 'a time above 2^64' 1 '' "pie: --tupdate $most" '''' params --tupdate 18446744073709551615s
exit "$failed"
