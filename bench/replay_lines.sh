#!/usr/bin/env bash
# Measures `exporter replay`: the least wall time of some rounds and the peak memory, for scripts of three kinds with 10^4,
# 10^5 and 10^6 call lines. Outside the gate. Usage: bench/replay_lines.sh [FOLDER [ROUNDS]]
#
#   ticks  two inverters, and lines `tick 0`
#   mixed  64 inverters under `fair`, visited in turn: ask, read, saw, now and then a want, a tick or a new link
#   asks   64 inverters under `open`, linked, and then asks alone, about 32 live writes for each
#
# A script that FOLDER has as KIND.LINES is taken from there. Where it has a program `yard`, that runs the same scripts in
# turn with ours, and the ratio is told.
top=$(cd "$(dirname "${BASH_SOURCE[0]}")/.." && pwd) || exit 1
folder=${1:-}
rounds=${2:-7}
program=$top/crates/exporter/out/exporter
work=$(mktemp -d) || exit 1
trap 'rm -rf "$work"' EXIT

# head64 CAP POLICY: 64 inverters of 6 to 50 kW.
head64() {
    printf 'site %s 1000 4000 60 20 500 %s 1048576\n' "$1" "$2"
    awk 'BEGIN { split("6000 8000 10000 12500 15000 20000 25000 50000", w)
        for (i = 0; i < 64; i++) printf "inverter %d 0 -1 100\n", w[i * 5 % 8 + 1] }'
    echo 'begin 0'
}

ticks() { # LINES
    printf 'site 10000000 1000 4000 60 20 500 open 1048576\ninverter 6000 0 -1 100\ninverter 6000 0 -1 100\nbegin 0\n'
    yes 'tick 0' | head -n "$1"
}

mixed() { # LINES
    head64 703200000 fair
    awk -v lines="$1" 'BEGIN {
        for (i = 0; i < 64; i++) print "link 0 " i
        now = 66701
        for (visit = 0; ; visit++) {
            i = visit % 64
            if (visit % 259 == 258) { now += 20; print "link " now " " i; sent[i] = 0 }
            now += 20; raw = 100 + visit % 200; print "ask " now " " i " " raw; sent[i]++
            now += 20; print "read " now " " i; sent[i]++
            now += 20; print "saw " now " " i " " sent[i] " " raw
            if (visit % 2) { now += 20; print "want " now " " visit * 7 % 64 " " 20000000 + visit % 999983 }
            if (visit % 4 == 0) { now += 20; print "tick " now }
        } }' | head -n "$1"
}

asks() { # LINES
    head64 1054800000 open
    awk 'BEGIN {
        for (i = 0; i < 64; i++) print "link 0 " i
        now = 66701
        for (k = 0; ; k++) { now += k * 37 % 64; print "ask " now " " k % 64 " " 100 + k * 7919 % 750 }
    }' | head -n "$1"
}

# once PROGRAM SCRIPT: runs it once, and keeps its wall time in hundredths of a ms.
once() {
    local begin end
    begin=$(date +%s%N)
    "$1" replay < "$2" > "$work/text" || exit 1
    end=$(date +%s%N)
    wall=$(((end - begin) / 10000))
}

ms() { printf '%d.%02d ms' "$(($1 / 100))" "$(($1 % 100))"; }

peak() { command time -f %M "$1" replay < "$2" 2>&1 > "$work/text"; }

# measure KIND LINES SCRIPT
measure() {
    local ours='' other=''
    for ((round = 0; round < rounds; round++)); do
        once "$program" "$3"
        if [ -z "$ours" ] || [ "$wall" -lt "$ours" ]; then ours=$wall; fi
        if [ -x "$folder/yard" ]; then
            once "$folder/yard" "$3"
            if [ -z "$other" ] || [ "$wall" -lt "$other" ]; then other=$wall; fi
        fi
    done
    printf '%-6s %8d lines: %s, peak %s kB' "$1" "$2" "$(ms "$ours")" "$(peak "$program" "$3")"
    if [ -n "$other" ]; then
        printf '; yard %s, peak %s kB; ratio %d.%02d' "$(ms "$other")" "$(peak "$folder/yard" "$3")" \
            "$((ours / other))" "$((ours * 100 / other % 100))"
    fi
    echo
}

"$top/exporter" replay < "$top/examples/first-raise.script" > "$work/text" || exit 1
for kind in ticks mixed asks; do
    for lines in 10000 100000 1000000; do
        script=$folder/$kind.$lines
        if [ ! -r "$script" ]; then
            script=$work/script
            "$kind" "$lines" > "$script"
        fi
        measure "$kind" "$lines" "$script"
    done
done
