#!/usr/bin/env bash
# How fast `bacgw replay` is: the instructions of a line of each kind, with start-up taken off, and its calls of the allocator; and for
# three mixes the misses of the instruction cache, the least time of several runs and the peak memory. It writes the table of docs/PERFORMANCE.md, beside the same figures of
# another gateway, one in plain Rust, where it is given.
#
#     bench/replay.sh [RUNS]                         # 11 runs by default; writes docs/PERFORMANCE.md
#     bench/replay.sh --print [RUNS]                 # prints the table alone
#     YARDSTICK=PROGRAM bench/replay.sh [RUNS]       # the other gateway, whose `replay` has the same built-in configuration
#
# It begins by comparing what the two write for each script, and ends where they differ.
#
# It wants the program built, as `./bacgw prove` leaves it, and valgrind, python3 and /usr/bin/time.
set -euo pipefail

top=$(cd "$(dirname "$0")/.." && pwd)
page=$top/docs/PERFORMANCE.md
[ "${1:-}" = --print ] && { page=; shift; }
runs=${1:-11}
program=${BACGW:-$top/crates/bacgw/out/bacgw}
work=$(mktemp -d)
trap 'rm -rf "$work"' EXIT

[ -x "$program" ] || { echo "build bacgw first: ./bacgw prove" >&2; exit 1; }
for tool in valgrind python3 /usr/bin/time; do
    command -v "$tool" > /dev/null || { echo "this wants $tool" >&2; exit 1; }
done
yardstick=${YARDSTICK:-}

kinds="answered denied cut routed long tick write multiple who_is register spread_3 spread_192 onward unknown router"
mixes="mix device passing"
declare -A name=(
    [answered]="read, answered" [denied]="read, denied" [cut]="broken, cut" [routed]="source behind a router of 255 octets"
    [long]="1,632 octets" [tick]="tick" [mix]="a mix of all"
    [write]="write, acknowledged" [multiple]="six properties by one request" [who_is]="Who-Is"
    [device]="a mix of the device's requests"
    [register]="a registration" [spread_3]="a broadcast to 3 addresses" [spread_192]="a broadcast to 192 addresses"
    [onward]="routed to another port" [unknown]="routed, and no way known" [router]="Who-Is-Router, answered"
    [passing]="a mix of what is passed on"
)

# Scripts of 1,000 and of 3,000 lines of each kind, and a mix of 300,000, by fixed seeds.
python3 - "$work" <<'PYTHON'
import random
import sys


def source(choose):
    port = choose.choice((1, 2))
    host = choose.choice([host for host in range(2, 255) if host != 10])
    return f"{port} 192.168.{port}.{host}:47808"


def datagram(choose, npdu):
    return f"{source(choose)} 810A{len(npdu) // 2 + 4:04X}{npdu}"


def read(choose, instance):
    return f"0005{choose.randrange(256):02X}0C0C0140{instance:04X}1955"


def octets(choose, count):
    return choose.randbytes(count).hex().upper()


def answered(choose):
    return datagram(choose, "012400640101FF" + read(choose, 1))


def denied(choose):
    return datagram(choose, "012400640101FF" + read(choose, 2))


def cut(choose):
    whole = answered(choose)
    start = whole.rindex(" ") + 1
    return whole[: start + 2 * choose.randrange(2, (len(whole) - start) // 2)]


def routed(choose):
    return datagram(choose, f"012C00640101{5:04X}FF{octets(choose, 255)}FF" + read(choose, 1))


def long(choose):
    return f"{source(choose)} {octets(choose, 1632)}"


def tick(choose):
    return "tick"


def mix(choose):
    kinds = (answered, denied, cut, tick, routed, long)
    return choose.choices(kinds, (40, 20, 15, 20, 3, 2))[0](choose)


def write(choose):
    priority = choose.choice((7, 8, 16))
    apdu = f"0005{choose.randrange(256):02X}0F0C04C0000119553E21{choose.randrange(1, 4):02X}3F49{priority:02X}"
    return datagram(choose, "012400640101FF" + apdu)


def multiple(choose):
    invoke = choose.randrange(256)
    lists = "0C014000011E0955094D096F1F" + "0C04C000011E0955094A096F1F"
    return datagram(choose, f"012400640101FF0005{invoke:02X}0E{lists}")


def who_is(choose):
    return datagram(choose, "0120006400FF1008")


def device(choose):
    kinds = (answered, write, multiple, who_is, denied, cut)
    return choose.choices(kinds, (40, 15, 10, 5, 15, 15))[0](choose)


def frame(source, function, content):
    return f"{source} 81{function}{len(content) // 2 + 4:04X}{content}"


def device_on(choose, others):
    """One of so many foreign devices."""
    return f"1 192.168.{100 + choose.randrange(others)}.1:47808"


def register(choose):
    return frame(device_on(choose, 3), "05", "FFFF")


def spread(choose):
    return frame(source(choose).replace("2 192.168.2.", "1 192.168.1."), "0B", f"0100{octets(choose, 2)}")


def spread_3(choose):
    return spread(choose)


def spread_192(choose):
    return spread(choose)


def onward(choose):
    port = choose.choice((1, 2))
    host = choose.randrange(20, 200)
    npdu = f"0120{3 - port:04X}06C0A8{3 - port:02X}{host:02X}BAC0FF{octets(choose, 12)}"
    return frame(f"{port} 192.168.{port}.{host}:47808", "0A", npdu)


def unknown(choose):
    return datagram(choose, f"0120{choose.randrange(2000, 3000):04X}0107FF1008")


def router(choose):
    return datagram(choose, "0180000064")


def passing(choose):
    kinds = (answered, register, spread, onward, unknown, router)
    return choose.choices(kinds, (30, 5, 20, 30, 5, 10))[0](choose)


# The tables that a script begins with, in lines that are the same at each length: foreign devices, and peers.
def registered(count):
    return [frame(f"1 192.168.{100 + place}.1:47808", "05", "FFFF") for place in range(count)]


def peers(count):
    entries = "".join(f"0A{place:02X}0001BAC0FFFFFFFF" for place in range(count))
    return [frame("1 192.168.1.5:47808", "01", entries)]


begins = {
    "spread_3": peers(2) + registered(1),
    "spread_192": peers(64) + registered(128),
    "passing": peers(2) + registered(1),
}


def script(kind, count):
    choose = random.Random(135)
    with open(f"{sys.argv[1]}/{kind.__name__}.{count}", "w", encoding="ascii") as lines:
        lines.writelines(line + "\n" for line in begins.get(kind.__name__, []))
        lines.writelines(kind(choose) + "\n" for _ in range(count))


all_kinds = (answered, denied, cut, routed, long, tick, mix, write, multiple, who_is, device)
all_kinds += (register, spread_3, spread_192, onward, unknown, router, passing)
for kind in all_kinds:
    script(kind, 1000)
    script(kind, 3000)
for kind in (mix, device, passing):
    script(kind, 300_000)
PYTHON

# instructions SCRIPT PROGRAM..: how many instructions the program takes for the script
instructions() {
    valgrind --tool=callgrind --callgrind-out-file="$work/callgrind" "${@:2}" < "$1" > /dev/null 2> "$work/errors"
    awk '/^(summary|totals):/ { print $2; exit }' "$work/callgrind"
}

# misses SCRIPT PROGRAM..: how often an instruction isn't in a first cache of 32 KiB, of eight ways
misses() {
    valgrind --tool=cachegrind --cache-sim=yes --I1=32768,8,64 --cachegrind-out-file="$work/cachegrind" "${@:2}" < "$1" > /dev/null 2> "$work/errors"
    awk '/^summary:/ { print $3; exit }' "$work/cachegrind"
}

# allocations SCRIPT PROGRAM..: how often it calls the allocator for memory
allocations() {
    valgrind --tool=memcheck --leak-check=no "${@:2}" < "$1" 2>&1 > /dev/null \
        | sed -n 's/.*total heap usage: \([0-9,]*\) allocs.*/\1/p' | tr -d ,
}

# each FIGURE KIND PROGRAM..: the figure of a line of this kind
each() {
    local few many
    few=$("$1" "$work/$2.1000" "${@:3}")
    many=$("$1" "$work/$2.3000" "${@:3}")
    awk -v d=$((many - few)) 'BEGIN { printf "%.1f", d / 2000 }' | sed 's/\.0$//; s/^-0$/0/'
}

grouped() { sed ':a; s/\B[0-9]\{3\}\>/,&/; ta'; }

# seconds KIND PROGRAM..: the least time of the runs of its long script
seconds() {
    local run start end least=
    for ((run = 0; run < runs; run++)); do
        start=${EPOCHREALTIME/[.,]/}
        timeout 120 "${@:2}" < "$work/$1.300000" > /dev/null
        end=${EPOCHREALTIME/[.,]/}
        [ -n "$least" ] && [ "$least" -le $((end - start)) ] || least=$((end - start))
    done
    awk -v s="$least" 'BEGIN { printf "%.3f", s / 1e6 }'
}

# row NAME OURS PLAIN LAST: a line of the table, with the ratio of the two
row() {
    local ratio=-
    [ "$3" = "not measured" ] || ratio=$(awk -v a="$2" -v b="$3" 'BEGIN { if (b > 0) printf "%.2f", a / b; else printf "-" }')
    echo "| $1 | $(grouped <<< "$2") | $(grouped <<< "$3") | $ratio | $4 |"
}

if [ -n "$yardstick" ]; then
    for kind in $kinds $mixes; do
        cmp <("$program" replay < "$work/$kind.3000") <("$yardstick" replay < "$work/$kind.3000")
    done
fi

# beside FIGURE KIND: the figure of the yardstick
beside() {
    if [ -n "$yardstick" ]; then "$1" "$2" "$yardstick" replay; else echo "not measured"; fi
}

whole_instructions() { each instructions "$@" | sed 's/\..*//'; }
whole_misses() { each misses "$@" | sed 's/\..*//'; }
each_allocation() { each allocations "$@"; }

{
    echo "| Instructions of a line | bacgw | Plain Rust | Ratio | Allocations |"
    echo "|---|---|---|---|---|"
    for kind in $kinds; do
        row "${name[$kind]}" "$(whole_instructions "$kind" "$program" replay)" "$(beside whole_instructions "$kind")" \
            "$(each_allocation "$kind" "$program" replay)"
    done
    for kind in $mixes; do
        row "${name[$kind]}" "$(whole_instructions "$kind" "$program" replay)" "$(beside whole_instructions "$kind")" ""
    done
    echo
    echo "| Seconds for 300,000 lines, least of $runs | bacgw | Plain Rust | Ratio | Cache misses a line |"
    echo "|---|---|---|---|---|"
    for kind in $mixes; do
        row "${name[$kind]}" "$(seconds "$kind" "$program" replay)" "$(beside seconds "$kind")" \
            "$(whole_misses "$kind" "$program" replay), $(beside whole_misses "$kind")"
    done
    /usr/bin/time -o "$work/peak" -f %M "$program" replay < "$work/mix.300000" > /dev/null
    echo
    echo "Peak memory over the mix of all: $(awk '{ printf "%.1f", $1 / 1024 }' "$work/peak") MiB."
} | tee "$work/table"

if [ -n "$page" ]; then
    awk -v table="$work/table" '
        /^<!-- end of the table/ { is_in = 0 }
        !is_in { print }
        /^<!-- bench\/replay.sh writes/ { is_in = 1; print ""; while ((getline line < table) > 0) print line; print "" }
    ' "$page" > "$work/page"
    cp "$work/page" "$page"
fi
