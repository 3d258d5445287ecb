"""The scenarios of docs/RESULTS.md: for each its name, the section of RFC 7928 that asks for it, its traffic in words, its queues, the number of
blocks, and its options. beside.py runs them, rfc7928.py runs those with the five queues, and docs/results.py makes tables of them.

The sections of RFC 7928 are 4.5 (Interaction with ECN), 5 (Transport Protocols; 5.1 TCP-Friendly Sender, 5.2 Aggressive Transport Sender,
5.3 Unresponsive Transport Sender), 6 (Round-Trip Time Fairness), 7 (Burst Absorption), 8 (Stability; 8.2.5 Varying the Congestion Level,
8.2.6 Varying Available Capacity) and 9 (Various Traffic Profiles; 9.1 Traffic Mix, 9.2 Bidirectional Traffic). A scenario without a section is not
from the RFC.

A block is one draw of start times, round trips and short flows, and of the order of the queues; every queue of a scenario gets the same blocks, as
many as it has: `cake:2` is a queue with 2 blocks, others have the number of the scenario. The queues of TWICE run each of their blocks a second
time with other random words, as `stamp-again` and `pie-again`: two runs of the same queue must agree.

Options (beside.py takes the same):
  --seconds 12, --from 4          the length of a run; its parts are the first 4 s and the rest
  --rate 10mbit,8s:2mbit          the rate, and its changes
  --flows GROUP ..                COUNT:KIND:RTT[:SINCE-UNTIL]; KIND is a congestion control, udp=RATE, ect=RATE (UDP that is ECN-capable and ignores
                                  marks), burst=PACKETSxPERIOD (UDP), voice (UDP of 200 bytes each 20 ms), or dns=COUNT (single packets of UDP,
                                  COUNT a second). back:COUNT:.. goes the other way
  --short 14600x2                 TCP flows of 14,600 bytes, two a second
  --limit 200ms                   of each queue, in packets of 1500 bytes at the first rate
  --probe 100ms                   a probe each 100 ms; 200 ms below 10 Mbit/s
  --reverse 10mbit                the rate of the way back, with a tail drop queue of the same limit
  --bucket 1                      bytes of htb's bucket, which has at least the bytes of 4 us
  --ecn, --offload, --grant 5ms   TCP asks for ECN and queues mark; senders pass super-packets; the link sends at its grants"""
import shlex

# the queues of RFC 7928's suite: this link's PIE, and the kernel's pie, fq_codel, cake and pfifo
FIVE = "stamp,pie,fq_codel:4,cake:4,pfifo:4"
# this link's PIE with the limits of PLAN.md
LIMITS = "limit25,limit50,limit100,limit200"

# name, section of RFC 7928, words, queues, blocks, options; the most important ones come first
TABLE = [
    ("four", "5.1", "4 CUBIC", "tail:40,stamp,wide:14,pfifo:40,pie,fq_codel:40,cake:40,pie-low:14,pie-high:14", 14, ""),
    ("full", "", "UDP of 12 Mbit/s alone", "tail,pfifo,pie:4,fq_codel:4,cake:4", 12, "--seconds 8 --from 2 --probe 20ms --flows 1:udp=12mbit:20ms"),
    ("waves", "", "UDP of 7 Mbit/s, and bursts of 200 packets", "tail,pfifo,pie,fq_codel,cake", 4,
     "--seconds 8 --from 2 --probe 20ms --flows 1:udp=7mbit:20ms 1:burst=200x1s:20ms"),
    ("reno", "", "4 Reno", "tail,pfifo,pie:4,fq_codel:4,cake:4", 77, "--flows 4:reno:20ms"),
    ("two", "", "2 Mbit/s, 4 CUBIC", "stamp,pie:50,fq_codel:4,cake:4,pfifo:4,pie-low:6,pie-high:6", 30, "--rate 2mbit --seconds 25 --from 5"),
    ("slow", "", "0.5 Mbit/s, 4 CUBIC, limit 1 s", "stamp:470,pie:112,fq_codel:4,cake:4,pfifo:4,slowwide:14,mtu:10,pie-low:8,pie-high:8", 20,
     "--rate 500kbit --limit 1s --seconds 40 --from 10"),
    ("far", "6", "4 CUBIC, 100 ms", f"{FIVE},half:12,wide:8", 12, "--flows 4:cubic:100ms"),
    ("udp", "5.3", "4 CUBIC, UDP of 12 Mbit/s", FIVE, 14, "--flows 4:cubic:20ms 1:udp=12mbit:20ms"),
    ("choices", "", "4 CUBIC", "half,rate,pie-rate", 4, ""),
    ("limits", "", "4 CUBIC, other limits", LIMITS, 12, "--limit 1s"),
    ("farlimits", "", "4 CUBIC, 100 ms, other limits", LIMITS, 20, "--limit 1s --flows 4:cubic:100ms"),
    ("burstlimits", "", "1 CUBIC, bursts of 40 packets, other limits", LIMITS, 12, "--limit 1s --flows 1:cubic:20ms 1:burst=40x1s:20ms"),
    ("gigabitlimits", "", "1 Gbit/s, 16 CUBIC, other limits", LIMITS, 4,
     "--rate 1gbit --limit 500ms --seconds 2 --from 0 --probe 10ms --flows 16:cubic:20ms"),
    ("twolimits", "", "2 Mbit/s, 4 CUBIC, other limits", LIMITS, 12, "--rate 2mbit --limit 5s --seconds 25 --from 5"),
    ("slowlimits", "", "0.5 Mbit/s, 4 CUBIC, other limits", f"{LIMITS},limit400,limit775", 12, "--rate 500kbit --limit 5s --seconds 40 --from 10"),
    ("hundred", "8", "100 CUBIC", FIVE, 16, "--flows 100:cubic:20ms"),
    ("step", "8.2.6", "10, 2 and 10 Mbit/s, 4 CUBIC", f"{FIVE},rate:4,pie-rate:4", 10, "--rate 10mbit,8s:2mbit,18s:10mbit --seconds 32 --from 0"),
    ("probe20", "", "4 CUBIC, a probe each 20 ms", "stamp,fq_codel:4", 37, "--probe 20ms"),
    ("probe200", "", "4 CUBIC, a probe each 200 ms", "stamp,fq_codel:4", 30, "--probe 200ms"),
    ("hundred20", "", "100 CUBIC, a probe each 20 ms", "stamp,fq_codel:4", 16, "--probe 20ms --flows 100:cubic:20ms"),
    ("hundred200", "", "100 CUBIC, a probe each 200 ms", "stamp,fq_codel:4", 24, "--probe 200ms --flows 100:cubic:20ms"),
    ("mixed", "9.1", "2 CUBIC, 2 voice, DNS, web", FIVE, 12,
     "--seconds 16 --flows 2:cubic:20ms 2:voice:20ms 1:dns=5:20ms --short 14600x3,146000x0.5"),
    ("trips", "6", "2 CUBIC each at 10, 50, 200 ms", "stamp:47,pie,fq_codel:4,cake:4,pfifo:4", 14,
     "--seconds 16 --flows 2:cubic:10ms 2:cubic:50ms 2:cubic:200ms"),
    ("ecn", "4.5", "4 CUBIC, ECN", FIVE, 8, "--ecn"),
    ("ecnudp", "5.3", "4 CUBIC, ECN, ECN-capable UDP of 12 Mbit/s", f"{FIVE},marks:3", 12, "--ecn --flows 4:cubic:20ms 1:ect=12mbit:20ms"),
    ("ecnmany", "4.5", "16 CUBIC, ECN", "stamp,marks:3,fq_codel:4,cake:4,pfifo:4", 20, "--ecn --flows 16:cubic:20ms"),
    ("short", "7", "1 CUBIC, short flows", "stamp,pie,fq_codel:4,cake:4,pfifo:12,tail:12", 12,
     "--seconds 20 --flows 1:cubic:20ms --short 1460x2,14600x2,146000x0.5,730000x0.1"),
    ("one", "8", "1 CUBIC", FIVE, 4, "--flows 1:cubic:20ms"),
    ("tight", "", "4 CUBIC, limit 10 ms", FIVE, 22, "--limit 10ms"),
    ("back", "9.2", "4 CUBIC each way", "stamp,pie:62,fq_codel:4,cake:4,pfifo:4", 32, "--reverse 10mbit --flows 4:cubic:20ms back:4:cubic:20ms"),
    ("reverse", "9.2", "2 Mbit/s, 1 CUBIC, and 4 the other way at 10", FIVE, 16,
     "--rate 2mbit --reverse 10mbit --seconds 15 --from 5 --flows 1:cubic:20ms back:4:cubic:20ms"),
    ("bbrcubic", "5.2", "2 CUBIC, 2 BBR", "stamp:37,pie:42,fq_codel:4,cake:4,pfifo:4", 16, "--flows 2:cubic:20ms 2:bbr:20ms"),
    ("offload", "", "4 CUBIC, segmentation offload", "stamp,pie:36,fq_codel:4,cake:4,pfifo:4", 6, "--offload"),
    ("burst", "7", "1 CUBIC, bursts of 40 packets", FIVE, 4, "--flows 1:cubic:20ms 1:burst=40x1s:20ms"),
    ("near", "6", "4 CUBIC, 5 ms", FIVE, 4, "--flows 4:cubic:5ms"),
    ("farther", "6", "4 CUBIC, 500 ms", FIVE, 12, "--seconds 25 --from 10 --flows 4:cubic:500ms"),
    ("sixteen", "8", "16 CUBIC", "stamp:36,pie,fq_codel:4,cake:4,pfifo:4", 16, "--flows 16:cubic:20ms"),
    ("onoff", "8.2.5", "2 CUBIC, and 16 more from 5 to 10 s", f"{FIVE},half:3", 10,
     "--seconds 15 --from 0 --flows 2:cubic:20ms 8:cubic:20ms:5s-10s 8:cubic:20ms:5s-10s"),
    ("grant30", "", "4 CUBIC, grants of 30 ms", "stamp:240,rate:12", 46, "--grant 30ms"),
    ("bucket", "", "2 Mbit/s, 4 CUBIC, a bucket of 1514 bytes in htb", "pie", 43, "--rate 2mbit --seconds 25 --from 5 --bucket 1514"),
    ("fifty", "", "50 Mbit/s, 4 CUBIC", FIVE, 10, "--rate 50mbit --seconds 7 --from 3 --probe 50ms"),
    ("gigabit", "", "1 Gbit/s, 16 CUBIC", "stamp,pie,fq_codel:2,cake:2,pfifo:2", 10,
     "--rate 1gbit --seconds 2 --from 0 --probe 10ms --flows 16:cubic:20ms"),
]
# queues that run each block twice
TWICE = ["stamp", "pie"]
# scenarios that get the blocks of another
SAME_BLOCKS = {"choices": "four", "limits": "four", "farlimits": "far", "burstlimits": "burst", "gigabitlimits": "gigabit", "twolimits": "two", "slowlimits": "slow", "probe20": "four", "probe200": "four",
               "hundred20": "hundred", "hundred200": "hundred", "bucket": "two"}


def queues_of(text, blocks):
    """Each queue with its number of blocks."""
    return {name: int(count or blocks) for name, _, count in (it.partition(":") for it in text.split(","))}


SCENARIOS = {name: {"name": name, "section": section, "words": words, "queues": queues_of(queues, blocks), "options": shlex.split(options),
                    # (pie beside tail drop and pfifo alone is a reference, and not compared)
                    "again": {f"{queue}-again": count for queue, count in queues_of(queues, blocks).items()
                              if queue in TWICE and "tail,pfifo" not in queues}}
             for name, section, words, queues, blocks, options in TABLE}
SUITE = [name for name, it in SCENARIOS.items() if set(queues_of(FIVE, 1)) <= set(it["queues"])]
