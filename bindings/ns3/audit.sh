#!/usr/bin/env bash
# Audits the histories of scenarios.sh. The exit status is 1 if one is not clean.
# usage: bindings/ns3/audit.sh PIE FOLDER      PIE: the built program, as crates/pie/out/ has it after `rt run`
set -u
program=$1
folder=$2
clean=0 failed=0 events=0
for history in "$folder"/histories/recorded-*; do
    [ "${history%.part}" = "$history" ] || continue
    found=$("$program" audit < "$history")
    case $found in
    clean,*)
        clean=$((clean + 1))
        events=$((events + ${found#clean,}))
        ;;
    *)
        echo "bindings/ns3/audit.sh: $history: $found"
        failed=1
        ;;
    esac
done
echo "bindings/ns3/audit.sh: $clean histories are clean, with $events events"
exit $failed
