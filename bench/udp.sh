#!/usr/bin/env bash
# How fast `bacgw run` is over sockets of the loopback device, with 1, 2 and 8 ports: reads at the first port that are answered a second,
# with 1 and with 64 in flight, the processor time and the calls of the system a datagram, and the memory at the end. Beside it is a
# plain echo of the same octets in Rust, bench/udp/echo.rs. It writes the second table of docs/PERFORMANCE.md.
#
#     bench/udp.sh [COUNT]            # 200,000 datagrams a figure by default; writes docs/PERFORMANCE.md
#     bench/udp.sh --print [COUNT]    # prints the table alone
#
# It wants the program built, as `./bacgw prove` leaves it, and rustc. Calls are counted by strace; where it isn't there, or may not
# trace, the table says so. Rates are the best of three runs, in which the four servers take turns.
set -euo pipefail

top=$(cd "$(dirname "$0")/.." && pwd)
page=$top/docs/PERFORMANCE.md
[ "${1:-}" = --print ] && { page=; shift; }
count=${1:-200000}
program=${BACGW:-$top/crates/bacgw/out/bacgw}
work=$(mktemp -d)
server=
trap '[ -z "$server" ] || kill "$server" 2> /dev/null || true; rm -rf "$work"' EXIT

[ -x "$program" ] || { echo "build bacgw first: ./bacgw prove" >&2; exit 1; }
command -v rustc > /dev/null || { echo "this wants rustc" >&2; exit 1; }
for name in load echo; do
    rustc --edition 2021 -O -o "$work/$name" "$top/bench/udp/$name.rs"
done

address=127.1.1.1:47808
traced=2000

# site PORTS: a configuration with so many ports, of which the first is at the address
site() {
    cat << 'TOML'
format = 1
[device]
network = 100
instance = 1234
name = "gw"
vendor = 999
vendor_name = "Example"
model = "gw-1"
firmware = "1"
software = "1"
revision = 12
database = 1
[[object]]
type = 5
instance = 1
name = "fan"
default = 0
[[rule]]
name = "all"
allow = true
TOML
    for number in $(seq "$1"); do
        printf '[[port]]\nnetwork = %s\naddress = "127.1.%s.1:47808"\nbroadcast = "127.1.%s.2:47808"\n' "$number" "$number" "$number"
    done
}
for ports in 1 2 8; do
    site "$ports" > "$work/$ports.toml"
done

# serve WHAT: starts the echo, or the gateway with so many ports
serve() {
    if [ "$1" = echo ]; then
        "$work/echo" "$address" &
    else
        "$program" run --config "$work/$1.toml" &
    fi
    server=$!
    sleep 0.5
}

stop() {
    kill "$server"
    wait "$server" 2> /dev/null || true
    server=
}

# ticks: the processor time of the server so far, of its own and of the system for it, in hundredths of a second
ticks() { awk '{ print $14 + $15 }' "/proc/$server/stat"; }

# rate IN_FLIGHT: answers a second, and microseconds of processor time a datagram
rate() {
    local before after answers
    before=$(ticks)
    answers=$("$work/load" "$address" "$1" "$count")
    after=$(ticks)
    echo "$answers $(awk -v t=$((after - before)) -v n="$count" -v hz="$(getconf CLK_TCK)" 'BEGIN { printf "%.2f", t / hz / n * 1e6 }')"
}

# calls IN_FLIGHT: how many calls of the system the server makes a datagram
calls() {
    command -v strace > /dev/null || { echo "not measured"; return; }
    strace -c -o "$work/calls" -p "$server" 2> /dev/null &
    local tracer=$!
    sleep 0.5
    "$work/load" "$address" "$1" "$traced" > /dev/null
    kill -INT "$tracer" 2> /dev/null || true
    wait "$tracer" 2> /dev/null || true
    awk -v n="$traced" '$NF == "total" { calls = $4 } END { if (calls) printf "%.1f\n", calls / n; else print "not measured" }' "$work/calls"
}

servers="echo 1 2 8"
for _ in 1 2 3; do
    for it in $servers; do
        serve "$it"
        for in_flight in 1 64; do
            rate "$in_flight" >> "$work/rate.$it.$in_flight"
        done
        stop
    done
done
for it in $servers; do
    serve "$it"
    awk '/VmRSS/ { print $2 }' "/proc/$server/status" > "$work/memory.$it"
    for in_flight in 1 64; do
        calls "$in_flight" > "$work/calls.$it.$in_flight"
        rate "$in_flight" > /dev/null
    done
    awk '/VmRSS/ { print $2 }' "/proc/$server/status" >> "$work/memory.$it"
    stop
done

grouped() { sed ':a; s/\B[0-9]\{3\}\>/,&/; ta'; }

# best WHAT IN_FLIGHT, least WHAT IN_FLIGHT: the most answers a second of the runs, and the least processor time a datagram
best() { cut -d ' ' -f 1 "$work/rate.$1.$2" | sort -n | tail -1; }
least() { cut -d ' ' -f 2 "$work/rate.$1.$2" | sort -n | head -1; }

# row WHAT HOW IN_FLIGHT: a row of the table, of a figure for each server
row() {
    printf '| %s' "$1"
    for it in $servers; do
        printf ' | %s' "$("$2" "$it" "$3" | grouped)"
    done
    echo ' |'
}
count_of() { cat "$work/calls.$1.$2"; }
memory_of() { paste -sd ' ' "$work/memory.$1" | sed 's/ /, then /'; }

# share IN_FLIGHT: the answers a second of each server by those of the echo
share() {
    printf '| of those of the echo, %s in flight' "$1"
    for it in $servers; do
        printf ' | %s' "$(awk -v a="$(best "$it" "$1")" -v b="$(best echo "$1")" 'BEGIN { printf "%.2f", a / b }')"
    done
    echo ' |'
}

{
    echo "| Reads over the loopback device | Plain echo | 1 port | 2 ports | 8 ports |"
    echo "|---|---|---|---|---|"
    for in_flight in 1 64; do
        row "answers a second, $in_flight in flight" best "$in_flight"
        share "$in_flight"
        row "processor time a datagram, $in_flight in flight, µs" least "$in_flight"
        row "calls of the system a datagram, $in_flight in flight" count_of "$in_flight"
    done
    row "memory in KiB" memory_of ''
} | tee "$work/table"

if [ -n "$page" ]; then
    awk -v table="$work/table" '
        /^<!-- end of the table of bench\/udp.sh/ { is_in = 0 }
        !is_in { print }
        /^<!-- bench\/udp.sh writes/ { is_in = 1; print ""; while ((getline line < table) > 0) print line; print "" }
    ' "$page" > "$work/page"
    cp "$work/page" "$page"
fi
