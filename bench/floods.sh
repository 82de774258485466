#!/usr/bin/env bash
# Floods the gateway, and sees that each flood leaves what it should: tables within their limits, a log without a gap, flat memory.
#
#     bench/floods.sh [EVENTS]      # a million denied reads by default
#     BACGW=PROGRAM bench/floods.sh
#
# It wants python3, /usr/bin/time and the built program: ./bacgw prove. It prints a line for each flood, with its seconds and its peak of memory,
# and last how many passed; the status is 0 where all did.
set -euo pipefail

top=$(cd "$(dirname "$0")/.." && pwd)
program=${BACGW:-$top/crates/bacgw/out/bacgw}
[ -x "$program" ] || { echo "build bacgw first: ./bacgw prove" >&2; exit 1; }

exec python3 - "$program" "${1:-1000000}" <<'PYTHON'
import os
import random
import subprocess
import sys
import tempfile
import time

program, events = sys.argv[1], int(sys.argv[2])
chance = random.Random(1)
counts = {"passed": 0, "failed": 0}

DEVICE = """[device]
network = 100
instance = 1234
name = "gateway"
vendor = 999
vendor_name = "Example"
model = "gw-1"
firmware = "1"
software = "1"
revision = 12
database = 1
"""
ALLOW = '[[rule]]\nname = "all"\nallow = true\n'


def configuration(ports=2, more="", rules=ALLOW, peers=0):
    """A configuration of so many ports, 10.P.0.2 on network P, with so many peers each."""
    parts = ["format = 1\n", DEVICE]
    for port in range(1, ports + 1):
        parts.append(f'[[port]]\nnetwork = {port}\naddress = "10.{port}.0.2:47808"\nbroadcast = "10.{port}.0.255:47808"\n')
        parts += [f'[[port.peer]]\naddress = "10.{port}.1.{peer}:47808"\nmask = "255.255.255.255"\n' for peer in range(peers)]
    return "".join(parts) + more + rules


def frame(function, octets):
    return f"81{function:02X}{len(octets) // 2 + 4:04X}{octets}"


def station(text):
    """The six octets of an address."""
    host, port = text.split(":")
    return "".join(f"{int(part):02X}" for part in host.split(".")) + f"{int(port):04X}"


def replay(text, lines):
    """What the program writes of a script under a configuration, an event each; with its seconds and its peak of memory in MiB."""
    with tempfile.TemporaryDirectory() as folder:
        config = os.path.join(folder, "config.toml")
        script, told = os.path.join(folder, "script"), os.path.join(folder, "told")
        with open(config, "w") as file:
            file.write(text)
        with open(script, "w") as file:
            file.writelines(line + "\n" for line in lines)
        peak = os.path.join(folder, "peak")
        start = time.monotonic()
        with open(script) as source, open(told, "w") as sink:
            subprocess.run(["/usr/bin/time", "-f", "%M", "-o", peak, program, "replay", "--config", config],
                           stdin=source, stdout=sink, check=True)
        seconds = time.monotonic() - start
        with open(told) as file:
            blocks = file.read().split("end\n")
        with open(peak) as file:
            return [block.splitlines() for block in blocks[:-1]], seconds, int(file.read()) / 1024


def tell(name, is_right, seconds, memory):
    counts["passed" if is_right else "failed"] += 1
    print(f"{'passed' if is_right else 'FAILED'}: {name} ({seconds:.2f} s, {memory:.0f} MiB)", flush=True)


def sends(address, octets, port=1):
    return [f"send {port} {address} {octets}"]


def registrations():
    """200 devices register for 60 seconds: 128 find room. After 90 ticks none is left, and 128 find room again."""
    devices = [f"10.9.{n // 200}.{n % 200 + 1}:47808" for n in range(200)]
    register = [f"1 {device} {frame(5, '003C')}" for device in devices]
    granted = [sends(device, frame(0, "0000")) for device in devices]
    refused = [sends(device, frame(0, "0030")) for device in devices]
    asker = "10.1.0.7:47808"
    table = [f"1 {asker} {frame(6, '')}"]
    lines = register + table + ["tick"] * 90 + table + list(reversed(register)) + table

    def row(device, remaining):
        return station(device) + f"003C{remaining:04X}"

    def rows(some, remaining):
        return [sends(asker, frame(7, "".join(row(device, remaining) for device in some)))]

    wanted = granted[:128] + refused[128:] + rows(devices[:128], 90) + [[]] * 90 + rows([], 0)
    wanted += list(reversed(granted))[:128] + list(reversed(refused))[128:] + rows(list(reversed(devices))[:128], 90)
    given, seconds, memory = replay(configuration(), lines)
    tell("200 devices register, end, and register again", given == wanted, seconds, memory)


def routers(count=10000):
    """I-Am-Router for a configured network, by so many stations: the network stays behind its router."""
    route = '[[route]]\nnetwork = 300\nport = 2\nnext = "10.2.0.20:47808"\n'
    claims = [f"1 10.1.{n // 250}.{n % 250 + 1}:47808 {frame(11, '0180010' + '12C')}" for n in range(count)]
    message = f"1 10.1.0.7:47808 {frame(10, '0120' + '012C' + '0107' + 'FF' + '1008')}"
    onward = frame(10, "0128" + "012C" + "0107" + "0001" + "06" + station("10.1.0.7:47808") + "FE" + "1008")
    given, seconds, memory = replay(configuration(more=route), claims + [message])
    is_right = given == [[]] * count + [sends("10.2.0.20:47808", onward, 2)]
    tell(f"{count} routers claim a configured network", is_right, seconds, memory)


def learnings():
    """One router tells of 512 networks, then of one more: that finds no room, and the others stay."""
    networks = list(range(1001, 1513))
    router = "10.2.0.20:47808"

    def claims(some):
        return f"2 {router} " + frame(11, "018001" + "".join(f"{network:04X}" for network in some))

    def message(network):
        return f"1 10.1.0.7:47808 " + frame(10, f"0120{network:04X}0107FF1008")

    lines = [claims(networks), claims([2000]), message(1001), message(1512), message(2000)]
    given, seconds, memory = replay(configuration(), lines)

    def onward(network):
        return sends(router, frame(10, f"0128{network:04X}01070001" + "06" + station("10.1.0.7:47808") + "FE1008"), 2)

    reject = sends("10.1.0.7:47808", frame(10, "0180" + "03" + "01" + "07D0"))
    search = sends("10.2.0.255:47808", frame(11, "0180" + "00" + "07D0"), 2)
    wanted = [[], [], onward(1001), onward(1512), reject + search]
    tell("512 networks are learned, and no more", given == wanted, seconds, memory)


def denials():
    """Denied reads by random stations: the log is numbered without a gap, and memory doesn't grow with their number."""
    rules = '[[rule]]\nname = "hide"\nallow = false\noperation = ["read"]\nobject_type = [5]\n' + ALLOW
    text = configuration(more='[[object]]\ntype = 5\ninstance = 2\nname = "door"\ndefault = 0\n', rules=rules)
    read = frame(10, "0124" + "0064" + "0101" + "FF" + "000508" + "0C" + "0C01400002" + "1955")

    def lines(count):
        for _ in range(count):
            yield f"1 10.1.{chance.randrange(1, 250)}.{chance.randrange(1, 250)}:{chance.randrange(1, 65536)} {read}"

    _, _, little = replay(text, lines(1000))
    given, seconds, memory = replay(text, lines(events))
    numbers = [int(block[0].split()[1]) for block in given]
    are_told = all(len(block) == 2 and block[0].endswith("rule=hide") and block[1].startswith("send 1 10.1.") for block in given)
    is_right = numbers == list(range(1, events + 1)) and are_told and memory < little + 1
    tell(f"{events} denied reads, numbered without a gap, in {memory:.0f} MiB as 1000 in {little:.0f}", is_right, seconds, memory)


def storm(count=200):
    """Who-Is by broadcast, on eight ports of 64 peers and 128 foreign devices each."""
    devices = [f"10.{port}.9.{n + 1}:47808" for port in range(1, 9) for n in range(128)]
    register = [f"{n // 128 + 1} {device} {frame(5, 'FFFF')}" for n, device in enumerate(devices)]
    who_is = [f"1 10.1.0.7:47808 {frame(11, '0120FFFF00FF1008')}"] * count
    given, seconds, memory = replay(configuration(ports=8, peers=64), register + who_is)
    # On its own port the request goes to 64 peers and 128 devices; each of seven others has a broadcast more; so has the answer's.
    each = 192 + 7 * 193 + 193
    is_right = all(len(block) == each for block in given[len(register):]) and len(given) == len(register) + count
    tell(f"{count} Who-Is on eight ports of 64 peers and 128 foreign devices: {each} datagrams each", is_right, seconds, memory)


registrations()
routers()
learnings()
denials()
storm()
print(f"{counts['passed']} passed, {counts['failed']} failed")
sys.exit(counts["failed"] != 0)
PYTHON
