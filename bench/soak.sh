#!/usr/bin/env bash
# Lets the gateway run for a while among eight subnets of network namespaces: 200 stations send worked and mutated datagrams, register
# and go, interfaces go down and up, and the process is stopped for a while. It sees that each probe is answered as `bacgw replay`
# answers it, that memory stays flat, that the log is numbered without a gap, and that the gateway never ends.
#
#     sudo bench/soak.sh [MINUTES [DATAGRAMS]]      # 5 minutes at 200 datagrams a second by default
#
# It wants root, for the namespaces, and ip, python3 and the built program: ./bacgw prove. What it made is gone when it ends.
set -euo pipefail

top=$(cd "$(dirname "$0")/.." && pwd)
program=$(realpath -m "${BACGW:-$top/crates/bacgw/out/bacgw}")
work=$(mktemp -d)
gateway=
readonly SUBNETS=8

[ "$(id -u)" = 0 ] || { echo "this wants root: it makes network namespaces" >&2; exit 1; }
[ -x "$program" ] || { echo "build bacgw first: ./bacgw prove" >&2; exit 1; }

clean_up() {
    if [ -n "$gateway" ]; then
        kill -CONT "$gateway" 2> /dev/null || true
        kill "$gateway" 2> /dev/null || true
    fi
    for name in bacgw-soak bacgw-field; do
        ip netns del "$name" 2> /dev/null || true
    done
    rm -rf "$work"
}
trap clean_up EXIT

# The gateway on one side, and on the other 25 stations of each subnet.
for name in bacgw-soak bacgw-field; do
    ip netns add "$name"
    ip -n "$name" link set lo up
done
for ((n = 1; n <= SUBNETS; n++)); do
    ip link add "port$n" netns bacgw-soak type veth peer name "field$n" netns bacgw-field
    ip -n bacgw-soak addr add "10.$n.0.2/24" broadcast + dev "port$n"
    for ((station = 10; station < 35; station++)); do
        ip -n bacgw-field addr add "10.$n.0.$station/24" broadcast + dev "field$n"
    done
    ip -n bacgw-soak link set "port$n" up
    ip -n bacgw-field link set "field$n" up
done

{
    cat << 'TOML'
format = 1
[device]
network = 100
instance = 1234
name = "gateway"
vendor = 999
vendor_name = "Example"
model = "gw-1"
firmware = "1"
software = "1"
revision = 12
database = 1
TOML
    for ((n = 1; n <= SUBNETS; n++)); do
        printf '[[port]]\nnetwork = %s\naddress = "10.%s.0.2:47808"\nbroadcast = "10.%s.0.255:47808"\n' "$n" "$n" "$n"
    done
    for ((n = 1; n <= 2; n++)); do
        printf '[[object]]\ntype = 5\ninstance = %s\nname = "point-%s"\ndefault = 0\n' "$n" "$n"
    done
    printf '[[rule]]\nname = "hide"\nallow = false\noperation = ["read", "write", "list"]\nobject_type = [5]\ninstance = [2]\n'
    printf '[[rule]]\nname = "rest"\nallow = true\n'
} > "$work/soak.toml"

cd "$work"
ip netns exec bacgw-soak "$program" run --config soak.toml --log denials.log --verbose 2> told &
gateway=$!
for _ in $(seq 50); do
    [ -s told ] && break
    sleep 0.1
done

ip netns exec bacgw-field python3 - "$top" "$program" "$work" "$gateway" "${1:-5}" "${2:-200}" << 'PYTHON'
import os
import random
import re
import select
import signal
import socket
import subprocess
import sys
import time
from pathlib import Path

top, program, work, gateway = Path(sys.argv[1]), sys.argv[2], Path(sys.argv[3]), int(sys.argv[4])
minutes, rate = float(sys.argv[5]), int(sys.argv[6])
SUBNETS, PORT = 8, 47808
STOPPED = 30  # seconds that the process is stopped
DOWN = 5  # seconds that an interface is down
STILL = 3  # seconds without a probe on either side
TIMEOUT, RETRIES = 3, 3  # the seconds that a probe waits, and how often it asks again
chance = random.Random(1)

LINE = re.compile(r"^[12] \d+\.\d+\.\d+\.\d+:\d+ ([0-9A-Fa-f]+)$")
worked = sorted({
    match[1].upper()
    for path in [*top.glob("examples/*.script"), *top.glob("crates/gw_*_vectors/stdin")]
    for line in path.read_text().splitlines()
    if (match := LINE.match(line)) and len(match[1]) % 2 == 0 and len(match[1]) < 2900
})


def station(subnet, host):
    sock = socket.socket(socket.AF_INET, socket.SOCK_DGRAM)
    sock.setsockopt(socket.SOL_SOCKET, socket.SO_BROADCAST, 1)
    sock.bind((f"10.{subnet}.0.{host}", PORT))
    sock.setblocking(False)
    return sock


# The first station of a subnet probes, and the others send whatever comes.
probes = {subnet: station(subnet, 10) for subnet in range(1, SUBNETS + 1)}
crowd = [(subnet, station(subnet, host)) for subnet in range(1, SUBNETS + 1) for host in range(11, 35)]


def mutated():
    octets = bytearray.fromhex(chance.choice(worked))
    for _ in range(chance.choice([0, 0, 1, 3])):
        if octets:
            octets[chance.randrange(len(octets))] ^= 1 << chance.randrange(8)
    if chance.randrange(8) == 0:
        del octets[chance.randrange(len(octets) + 1):]
    if chance.randrange(2) and len(octets) >= 4:
        octets[2:4] = len(octets).to_bytes(2, "big")
    return bytes(octets)


def send_some(count):
    for _ in range(count):
        subnet, sock = chance.choice(crowd)
        if chance.randrange(10) == 0:
            octets = bytes([0x81, 0x05, 0x00, 0x06]) + chance.randrange(1, 60).to_bytes(2, "big")
        else:
            octets = mutated()
        try:
            sock.sendto(octets, (f"10.{subnet}.0.{chance.choice([2, 2, 255])}", PORT))
        except OSError:
            counts["not sent"] += 1
        counts["sent"] += 1


def drain():
    while ready := select.select([sock for _, sock in crowd], [], [], 0)[0]:
        for sock in ready:
            sock.recv(2048)
            counts["received"] += 1


# A probe reads what nothing changes: the name of the device, or a point that is hidden.
PROBES = [
    bytes.fromhex("810A0016012400640101FF0005") + bytes([0]) + bytes.fromhex("0C0C020004D2194D"),
    bytes.fromhex("810A0016012400640101FF0005") + bytes([0]) + bytes.fromhex("0C0C014000021955"),
]


def with_invoke_id(octets, invoke_id):
    return octets[:13] + bytes([invoke_id]) + octets[14:]


def answers():
    """What replay answers to each probe on each port, by the port and the probe with its invoke id."""
    events = [(subnet, with_invoke_id(probe, invoke_id)) for subnet in probes for probe in PROBES for invoke_id in range(256)]
    script = "".join(f"{subnet} 10.{subnet}.0.10:{PORT} {octets.hex().upper()}\n" for subnet, octets in events)
    ran = subprocess.run([program, "replay", "--config", work / "soak.toml"], input=script, capture_output=True, text=True, check=True)
    found = {}
    for event, block in zip(events, ran.stdout.split("end\n")):
        sends = [line.split() for line in block.splitlines() if line.startswith("send")]
        assert len(sends) == 1, (event, block)
        found[event] = bytes.fromhex(sends[0][3])
    return found


def probe(subnet, wanted):
    """Reads as a client does, which asks three times more: whether the gateway answers as replay does, each time within
    three seconds. What else comes is passed over."""
    octets = with_invoke_id(chance.choice(PROBES), chance.randrange(256))
    sock = probes[subnet]
    while select.select([sock], [], [], 0)[0]:
        sock.recv(2048)
    for asked in range(1 + RETRIES):
        counts["asked again"] += asked > 0
        sock.sendto(octets, (f"10.{subnet}.0.2", PORT))
        until = time.monotonic() + TIMEOUT
        while (left := until - time.monotonic()) > 0 and select.select([sock], [], [], left)[0]:
            if sock.recv(2048) == wanted[subnet, octets]:
                return True
    return False


def memory():
    """KiB that the gateway holds."""
    for line in Path(f"/proc/{gateway}/status").read_text().splitlines():
        if line.startswith("VmRSS:"):
            return int(line.split()[1])
    raise ProcessLookupError("the gateway has ended")


def field(state, subnet):
    subprocess.run(["ip", "link", "set", f"field{subnet}", state], check=True)


counts = {"sent": 0, "not sent": 0, "received": 0, "probes": 0, "asked again": 0, "unanswered": 0, "stops": 0, "downs": 0}
wanted = answers()
start = time.monotonic()
end = start + 60 * minutes
early, most, second = None, 0, 0
try:
    while time.monotonic() < end:
        second += 1
        send_some(rate)
        drain()
        if second % 120 == 60:
            os.kill(gateway, signal.SIGSTOP)
            send_some(rate)
            time.sleep(STOPPED)
            os.kill(gateway, signal.SIGCONT)
            counts["stops"] += 1
            time.sleep(STILL)
            drain()
        elif second % 45 == 30:
            subnet = chance.randrange(1, SUBNETS + 1)
            field("down", subnet)
            time.sleep(DOWN)
            field("up", subnet)
            counts["downs"] += 1
            time.sleep(STILL)
        else:
            subnet = chance.randrange(1, SUBNETS + 1)
            counts["probes"] += 1
            counts["unanswered"] += not probe(subnet, wanted)
        most = max(most, memory())
        if early is None and time.monotonic() - start > 60:
            early = memory()
        time.sleep(max(0, start + (time.monotonic() - start) // 1 + 1 - time.monotonic()))
finally:
    last = memory()

numbers = [int(line.split(" ", 1)[0]) for line in (work / "denials.log").read_text().splitlines()]
has_gap = numbers != list(range(1, len(numbers) + 1))
print(f"{minutes:g} minutes:", ", ".join(f"{count} {name}" for name, count in counts.items()))
print(f"memory {early or last} KiB after a minute, {last} KiB at the end, {most} KiB at most")
print(f"{len(numbers)} denials in the log, {'NOT ' if has_gap else ''}numbered without a gap")
faults = [
    *(["a probe without its answer"] if counts["unanswered"] else []),
    *(["the log has a gap"] if has_gap else []),
    *(["memory grew by more than a MiB"] if early and last > early + 1024 else []),
]
print(*faults, sep="\n", end="\n" if faults else "")
print(f"{4 - len(faults)} passed, {len(faults)} failed")
sys.exit(bool(faults))
PYTHON
kill -0 "$gateway" || { echo "the gateway has ended" >&2; cat told >&2; exit 1; }
