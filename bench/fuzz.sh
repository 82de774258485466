#!/usr/bin/env bash
# Mutates the datagrams that are worked in this repository, and sees that nothing goes wrong with them: the proved program and a trial
# of the same sources, which checks each step as it runs, answer alike and neither aborts.
#
#     bench/fuzz.sh [DATAGRAMS [SEED]]        # a million datagrams, seed 1 by default
#     YARDSTICK=PROGRAM bench/fuzz.sh         # compares with another gateway's `replay --config FILE` in the place of the trial
#     FORMAT=2 bench/fuzz.sh                  # under the second format of the policy
#     FORMAT=3 bench/fuzz.sh                  # under the third: with stations, forged claims and strangers
#
# A datagram is cut, lengthened, spliced with another, or gets other bits, octets or repeated parts; two in three get the length of
# their BVLL put right, and every fourth comes as it is worked. They come in scripts of a thousand, or of so many that the output is
# no more than a trial shows, with ticks between, from stations that are peers, registered, of the port's network or of none. Last
# comes what was answered, by kind, and how often: of each kind that the gateway makes itself there must be a hundred.
#
# It wants python3 and the built program: ./bacgw prove. A million take a quarter of an hour of one processor, nearly all of it the
# trial's, which is built once.
set -euo pipefail

top=$(cd "$(dirname "$0")/.." && pwd)
program=${BACGW:-$top/crates/bacgw/out/bacgw}
[ -x "$program" ] || { echo "build bacgw first: ./bacgw prove" >&2; exit 1; }

exec python3 - "$top" "$program" "${1:-1000000}" "${2:-1}" "${YARDSTICK:-}" "${FORMAT:-1}" <<'PYTHON'
import collections
import os
import random
import re
import subprocess
import sys
import tempfile
from pathlib import Path

top, program, wanted, seed, yardstick = Path(sys.argv[1]), sys.argv[2], int(sys.argv[3]), int(sys.argv[4]), sys.argv[5]
format = sys.argv[6]
chance = random.Random(seed)
EACH = 1000  # events of a script at most
SHOWN = 2**20 - 1  # octets of output that a trial shows at most
LEAST = 100  # of each kind that the gateway makes itself
OWN_KINDS = [
    "nothing", "sent broadcast table", "sent device table", "sent broadcast unconfirmed request", "sent forwarded unconfirmed request",
    *(f"sent result {code}" for code in ["0000", "0010", "0020", "0030", "0040", "0050", "0060"]),
    *(f"sent unicast {kind}" for kind in ["simple ack", "complex ack", "error", "reject", "abort", "network message 03"]),
    *(f"sent broadcast network message {kind}" for kind in ["00", "01", "13"]),
    *(f"denied {operation}" for operation in [
        "read", "write", "list", "route", "cast", "network", "learn", "register", "delete", "read-table", "write-table"]),
    *(f"denied {operation}" for operation in (["enter", "claim"] if format == "3" else [])),
]
LINE = re.compile(r"^([12]) (\d+\.\d+\.\d+\.\d+:\d+) ([0-9A-Fa-f]+)$")

# Those of the two ports of the configuration.
worked = sorted({
    (match[1], match[2], match[3].upper())
    for path in [*top.glob("examples/*.script"), *top.glob("crates/gw_*_vectors/stdin")]
    for line in path.read_text().splitlines()
    if (match := LINE.match(line)) and len(match[3]) % 2 == 0
})
# One that may nothing, so that each operation is denied too.
STRANGER = "192.168.1.66:47808"
# Two that belong to no port of the third format: the first one may enter there, the second one mayn't.
OUTSIDERS = ["172.16.0.9:47808", "203.0.113.9:47808"]
STATIONS = sorted({address for _, address, _ in worked}) + (OUTSIDERS if format == "3" else [])
# What the third format says of who is who: the stations of each port, who else may enter, and which claims are taken.
OF_PORT = {port: f'stations = ["192.168.{port}.0/24"]\n' if format == "3" else "" for port in (1, 2)}
OF_ENTRY = f"""[[rule]]
name = "outsider"
allow = false
operation = ["enter"]
sender = ["{OUTSIDERS[1]}", "192.168.0.0/16"]
[[rule]]
name = "forger"
allow = false
operation = ["claim"]
port = [2]
[[rule]]
name = "elsewhere"
allow = false
operation = ["route", "cast"]
station = ["10.0.0.0/8", "192.168.2.99"]
[[rule]]
name = "no-write-spreads"
allow = false
operation = ["write"]
destination = [[1, 99], [101, 65535]]
sender = ["192.168.2.0/24"]
""" if format == "3" else ""
# The objects that the worked datagrams name, two hidden from all.
CONFIGURATION = f"""format = {format}
[device]
network = 100
instance = 1234
name = "gw"
vendor = 999
vendor_name = "Example"
model = "gw-1"
firmware = "1"
software = "1"
revision = 12
database = 1
[[port]]
network = 1
address = "192.168.1.10:47808"
broadcast = "192.168.1.255:47808"
{OF_PORT[1]}[[port.peer]]
address = "192.168.1.10:47808"
mask = "255.255.255.255"
[[port.peer]]
address = "192.168.4.1:47808"
mask = "255.255.255.255"
[[port]]
network = 2
address = "192.168.2.10:47808"
broadcast = "192.168.2.255:47808"
{OF_PORT[2]}[[route]]
network = 300
port = 2
next = "192.168.2.20:47808"
[[object]]
type = 5
instance = 1
name = "fan"
default = 0
[[object]]
type = 5
instance = 2
name = "door"
default = 0
[[object]]
type = 19
instance = 1
name = "mode"
default = 1
states = ["off", "auto", "on"]
[[object]]
type = 40
instance = 1
name = "note"
default = "hi"
[[object]]
type = 45
instance = 1
name = "offset"
default = -5
units = 95
[[object]]
type = 48
instance = 1
name = "count"
default = 0
units = 95
[[rule]]
name = "stranger"
allow = false
source = ["{STRANGER}"]
[[rule]]
name = "hide"
allow = false
operation = ["read", "write", "list"]
object_type = [5]
instance = [[2, 9]]
{OF_ENTRY}[[rule]]
name = "all"
allow = true
"""


def with_length(octets):
    """With the length of the BVLL put right."""
    return octets[:2] + bytes([len(octets) >> 8, len(octets) & 255]) + octets[4:] if len(octets) >= 4 else octets


def mutate(octets):
    kind = chance.randrange(7)
    at = chance.randrange(len(octets) + 1)
    if kind == 0:
        octets = octets[:at]
    elif kind == 1:
        octets = octets[:at] + chance.randbytes(chance.randrange(1, 9)) + octets[at:]
    elif kind == 2:
        other = bytes.fromhex(chance.choice(worked)[2])
        octets = octets[:at] + other[chance.randrange(len(other) + 1):]
    elif kind == 3 and octets:
        some = bytearray(octets)
        some[chance.randrange(len(some))] ^= 1 << chance.randrange(8)
        octets = bytes(some)
    elif kind == 4 and octets:
        some = bytearray(octets)
        some[chance.randrange(len(some))] = chance.choice([0, 1, 6, 0x0C, 0x1E, 0x1F, 0x7F, 0x80, 0xFE, 0xFF])
        octets = bytes(some)
    elif kind == 5:
        end = chance.randrange(at, min(len(octets), at + 24) + 1)
        octets = octets[:end] + octets[at:end] * chance.choice([1, 2, 20]) + octets[end:]
    else:
        end = chance.randrange(at, len(octets) + 1)
        octets = octets[:at] + octets[end:]
    return with_length(octets) if chance.randrange(3) else octets


def event():
    if chance.randrange(50) == 0:
        return "tick"
    port, address, text = chance.choice(worked)
    octets = bytes.fromhex(text)
    if chance.randrange(4):
        octets = mutate(octets)
    if chance.randrange(4) == 0:
        address = chance.choice([STRANGER, chance.choice(STATIONS)])
    if chance.randrange(8) == 0:
        port = chance.choice("12")
    # A line has at most 4096 octets.
    return f"{port} {address} {octets[:2000].hex().upper() or '-'}"


def kinds_of(block):
    """What an event came to: the operations that were denied, and what was sent, by BVLL function and kind of message."""
    if not block:
        yield "nothing"
    for line in block:
        words = line.split()
        if words[0] == "deny":
            yield f"denied {words[5]}"
        else:
            yield "sent " + sent_kind(bytes.fromhex(words[3]))


def sent_kind(octets):
    names = {0: "result", 3: "broadcast table", 4: "forwarded", 7: "device table", 10: "unicast", 11: "broadcast"}
    name = names.get(octets[1], f"function {octets[1]:02X}")
    if octets[1] == 0:
        return f"{name} {octets[4:6].hex()}"
    if octets[1] not in (4, 10, 11):
        return name
    at = 10 if octets[1] == 4 else 4
    control = octets[at + 1]
    at += 2
    for bit in (0x20, 0x08):
        if control & bit:
            at += 3 + octets[at + 2]
    at += 1 if control & 0x20 else 0
    if control & 0x80:
        return f"{name} network message {octets[at]:02X}" if octets[at] < 0x14 else f"{name} network message"
    pdu = octets[at] >> 4 if at < len(octets) else 15
    pdus = {0: "confirmed request", 1: "unconfirmed request", 2: "simple ack", 3: "complex ack", 5: "error", 6: "reject", 7: "abort"}
    return f"{name} {pdus.get(pdu, 'other')}"


def shown(output):
    """The front of an output that is shown, event by event."""
    blocks, room = [], SHOWN
    for block in output.split("end\n")[:-1]:
        room -= len(block) + len("end\n")
        if room < 0:
            break
        blocks.append(block + "end\n")
    return blocks


def by_yardstick(folder, names):
    """The names of the scripts to which the other gateway answers otherwise."""
    for name in names:
        with open(folder / name) as script:
            ran = subprocess.run([yardstick, "replay", "--config", config], stdin=script, capture_output=True, text=True)
        if ran.returncode or ran.stdout != (folder / f"{name}.stdout").read_text():
            yield name


def by_trial(folder, names):
    """The names of the scripts to which the trial answers otherwise, or what it told where it didn't try them all."""
    ran = subprocess.run(["rt", "try", "--seconds", "600", "--data", f"config.toml={config}", "--cases", str(folder), "--",
                          "replay", "--config", "config.toml"], cwd=top / "crates/bacgw", capture_output=True, text=True)
    told = (ran.stdout + ran.stderr).splitlines()
    done = [match[1] for line in told if (match := re.match(r"case=(\S+) run=ended status=0 ", line)) and "differs" not in line]
    yield from sorted(set(names) - set(done))
    whole = f"cases={len(names)} ended={len(names)} fault=0 differs=0 no-answer=0"
    if ran.returncode or not any(line.startswith(whole) for line in told):
        yield "\n".join(["the trial:", *told[-20:]])


counts, failures, number = collections.Counter(), [], 0
with tempfile.TemporaryDirectory() as place:
    (folder := Path(place) / "scripts").mkdir()
    config = f"{place}/config.toml"
    Path(config).write_text(CONFIGURATION)
    names = []
    while number < wanted:
        name = f"{len(names):06}"
        lines = [event() + "\n" for _ in range(EACH)]
        ran = subprocess.run([program, "replay", "--config", config], input="".join(lines), capture_output=True, text=True)
        if ran.returncode or ran.stdout.count("end\n") != EACH:
            failures.append(f"{name}: the program ended with status {ran.returncode}: {ran.stderr}")
            break
        blocks = shown(ran.stdout)
        number += len(blocks)
        for block in blocks:
            counts.update(set(kinds_of(block.splitlines()[:-1])))
        (folder / name).write_text("".join(lines[:len(blocks)]))
        (folder / f"{name}.stdout").write_text("".join(blocks))
        names.append(name)
    failures += [f"the answers differ: {name}" for name in (by_yardstick if yardstick else by_trial)(folder, names)]

for kind, count in sorted(counts.items(), key=lambda it: -it[1]):
    print(f"{count:9} {kind}")
failures += [f"only {counts[kind]} of: {kind}" for kind in OWN_KINDS if counts[kind] < LEAST]
print(*failures, sep="\n", end="\n" if failures else "")
print(f"{number} events; {len(counts)} kinds of answers; {len(failures)} failures")
sys.exit(bool(failures))
PYTHON
