#!/usr/bin/env bash
# What a run that watches costs, for the dearest request: a ReadPropertyMultiple that names ALL of the device 128 times and so raises 2,816
# asks. The processor time of `bacgw run` a request over the loopback device, without watching, with counts by rule (`--metrics`), with a
# trial whose rules decide each of these asks alike, and with an audit that records none of them. It writes the third table of
# docs/PERFORMANCE.md.
#
#     bench/watching.sh [COUNT]            # 4,000 requests a figure by default; writes docs/PERFORMANCE.md
#     bench/watching.sh --print [COUNT]    # prints the table alone
#
# It wants the program built, as `./bacgw prove` leaves it, and python3. A figure is the least of five runs, in which the servers take turns.
set -euo pipefail

top=$(cd "$(dirname "$0")/.." && pwd)
page=$top/docs/PERFORMANCE.md
[ "${1:-}" = --print ] && { page=; shift; }
count=${1:-4000}
program=${BACGW:-$top/crates/bacgw/out/bacgw}
work=$(mktemp -d)
server=
trap '[ -z "$server" ] || kill "$server" 2> /dev/null || true; rm -rf "$work"' EXIT

[ -x "$program" ] || { echo "build bacgw first: ./bacgw prove" >&2; exit 1; }
command -v python3 > /dev/null || { echo "this wants python3" >&2; exit 1; }

cat > "$work/site.toml" << 'TOML'
format = 1
[device]
network = 100
instance = 1234
name = "gw"
vendor = 999
vendor_name = "Example"
model = "gw-1"
firmware = "1"
software = "1"
revision = 12
database = 1
[[port]]
network = 1
address = "127.1.1.1:47808"
broadcast = "127.1.1.2:47808"
[[object]]
type = 5
instance = 1
name = "fan"
default = 0
[[object]]
type = 5
instance = 2
name = "door"
default = 0
[[rule]]
name = "hide"
allow = false
operation = ["read", "write", "list"]
object_type = [5]
instance = [[2, 9]]
[[rule]]
name = "no-desc"
allow = false
operation = ["read"]
object_type = [5]
instance = [1]
property = [28]
[[rule]]
name = "all"
allow = true
TOML
sed 's/property = \[28\]/property = [28, 85]/' "$work/site.toml" > "$work/new.toml"

# serve HOW: starts the gateway so
serve() {
    case $1 in
        plain) set -- ;;
        counts) set -- --metrics "$work/site.prom" ;;
        trial) set -- --trial "$work/new.toml" --trial-log "$work/trial.log" ;;
        audit) set -- --audit "$work/audit.log" ;;
    esac
    "$program" run --config "$work/site.toml" "$@" > "$work/log" &
    server=$!
    sleep 0.5
}

stop() {
    kill "$server"
    wait "$server" 2> /dev/null || true
    server=
}

# time: microseconds of processor time a request
time_of() {
    python3 - "$server" "$count" << 'PYTHON'
import os
import socket
import sys

server, count = sys.argv[1], int(sys.argv[2])
named = bytes.fromhex("0C%08X" % (8 << 22 | 1234) + "1E09081F") * 128
sock = socket.socket(socket.AF_INET, socket.SOCK_DGRAM)
sock.bind(("127.0.0.1", 0))
sock.settimeout(2)


def ask(invoke):
    apdu = bytes([2, 5, invoke, 14]) + named
    npdu = bytes.fromhex("012400640101FF") + apdu
    sock.sendto(bytes([0x81, 10]) + (len(npdu) + 4).to_bytes(2, "big") + npdu, ("127.1.1.1", 47808))
    sock.recv(2048)


def spent():
    with open(f"/proc/{server}/stat") as it:
        fields = it.read().rpartition(")")[2].split()
    return (int(fields[11]) + int(fields[12])) / os.sysconf("SC_CLK_TCK")


ask(0)
before = spent()
for number in range(count):
    ask(number % 256)
print(f"{(spent() - before) / count * 1e6:.1f}")
PYTHON
}

kinds="plain counts trial audit"
for _ in 1 2 3 4 5; do
    for kind in $kinds; do
        serve "$kind"
        time_of >> "$work/time.$kind"
        stop
    done
done

least() { sort -n "$work/time.$1" | head -1; }
ratio() { awk -v a="$(least "$1")" -v b="$(least plain)" 'BEGIN { printf "%.2f", a / b }'; }

{
    echo "| The dearest request | Nothing watched | Counts by rule | A trial | An audit |"
    echo "|---|---|---|---|---|"
    printf '| processor time, µs'
    for kind in $kinds; do printf ' | %s' "$(least "$kind")"; done
    echo ' |'
    printf '| of that without'
    for kind in $kinds; do printf ' | %s' "$(ratio "$kind")"; done
    echo ' |'
} | tee "$work/table"

if [ -n "$page" ]; then
    awk -v table="$work/table" '
        /^<!-- end of the table of bench\/watching.sh/ { is_in = 0 }
        !is_in { print }
        /^<!-- bench\/watching.sh writes/ { is_in = 1; print ""; while ((getline line < table) > 0) print line; print "" }
    ' "$page" > "$work/page"
    cp "$work/page" "$page"
fi
