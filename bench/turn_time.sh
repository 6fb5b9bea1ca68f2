#!/usr/bin/env bash
# Measures a worker's turn on this machine's loopback, beside a plain client of libmodbus that sends as many reads and
# writes to the same server, which is our `serve`. Outside the gate; it wants cc and Debian's libmodbus-dev.
# Usage: bench/turn_time.sh [TURNS [ROUNDS]]
top=$(cd "$(dirname "${BASH_SOURCE[0]}")/.." && pwd) || exit 1
turns=${1:-5000}
rounds=${2:-5}
program=$top/crates/exporter/out/exporter
. "$top/checks/ports"
port=$(free_ports 1)
room=$(mktemp -d) || exit 1
server=
trap '[ -n "$server" ] && kill "$server" 2> /dev/null; rm -rf "$room"' EXIT

cc -O2 -o "$room/turns" "$top/bench/libmodbus_turns.c" -lmodbus || exit 1

# A timer of 1 s, so that a write is past within little more than a second, and limits are written often.
printf 'cap = 10000000\nsend = 1\ndelay = 0\ntimer = 1\nper_mille = 0\nslack = 0\nrenew = 63\npause = 0\nwait = 1000
book = 1048576\npolicy = "open"\n[[inverter]]\nhost = "127.0.0.1"\nport = %s\nunit = 1\nbase = 40296\nwmax = 6000
wsf = 0\npsf = -1\nfloor = 100\n' "$port" > "$room/site.toml"
cd "$room" || exit 1
"$program" serve 0 1000000 &
server=$!
sleep 0.5

# least NAME SECONDS: keeps the least time of a name.
declare -A kept
least() {
    if [ -z "${kept[$1]}" ] || [ "$(echo "$2 < ${kept[$1]}" | bc)" = 1 ]; then kept[$1]=$2; fi
}

for ((round = 0; round < rounds; round++)); do
    begin=$(date +%s.%N)
    "$program" run "$turns" > book || exit 1
    end=$(date +%s.%N)
    reads=$(grep -c ' = readas ' book)
    writes=$(grep -c ' = granted ' book)
    least run "$(echo "$end - $begin" | bc)"
    least libmodbus "$(./turns 127.0.0.1 "$port" "$reads" "$writes")"
done
echo "the least of $rounds rounds, with $reads reads and $writes writes in the last:"
for name in run libmodbus; do
    printf '%-10s %s s, %s us a turn\n' "$name" "${kept[$name]}" "$(echo "${kept[$name]} * 1000000 / $turns" | bc)"
done
