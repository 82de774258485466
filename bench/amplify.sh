#!/usr/bin/env bash
# What one datagram becomes: how many datagrams and octets the gateway sends for it, and how many lines and octets of log it leaves.
# Each row is the last line of a script of its own, which `bacgw replay` plays under a configuration that is made here, so nothing is
# sent on a network. The lines before it fill the tables.
#
#     bench/amplify.sh              # prints both tables, and compares them with those of docs/threats.md
#     bench/amplify.sh --write      # prints them, and writes them there
#     BACGW=PROGRAM bench/amplify.sh
#
# Octets are those of the UDP datagrams; a factor counts 28 more for each, its headers of IP and UDP. The line after the tables says
# what a flood writes; its last sentence is the best of three runs on this machine, and isn't compared.
#
# It wants python3 and the built program: ./bacgw prove. The status is 1 where the page has another number than was measured.
set -euo pipefail

top=$(cd "$(dirname "$0")/.." && pwd)
program=${BACGW:-$top/crates/bacgw/out/bacgw}
[ -x "$program" ] || { echo "build bacgw first: ./bacgw prove" >&2; exit 1; }

exec python3 - "$program" "$top/docs/threats.md" "$@" <<'PYTHON'
import os
import subprocess
import sys
import tempfile
import time

program, page, *words = sys.argv[1:]
if words not in ([], ["--write"]):
    sys.exit("bench/amplify.sh takes --write or nothing")

PORTS, PEERS, DEVICES, ROUTES = 8, 64, 128, 512     # as many as there may be: peers and foreign devices on each port
HEADERS = 28                                        # the octets of the headers of IP and UDP
START, END = "<!-- bench/amplify.sh writes the table from here -->", "<!-- end of the table -->"
UNCOMPARED = "Measured:"                            # how the sentence begins that another machine has otherwise
ALLOW = '[[rule]]\nname = "all"\nallow = true\n'
PANEL = "1 10.1.0.7:47808"
DEVICE = """[device]
network = 100
instance = 1234
name = "gateway"
vendor = 999
vendor_name = "Example"
model = "gw-1"
firmware = "1"
software = "1"
revision = 12
database = 1
"""
FAN = '[[object]]\ntype = 5\ninstance = 1\nname = "fan"\ndefault = 1\n'


def deny(name, fields):
    return f'[[rule]]\nname = "{name}"\nallow = false\n{fields}\n'


def configuration(rules, peers=0, more="", form=1):
    """Of eight ports, 10.P.0.2 on network P, with so many peers each."""
    parts = [f"format = {form}\n", DEVICE]
    for port in range(1, PORTS + 1):
        parts.append(f'[[port]]\nnetwork = {port}\naddress = "10.{port}.0.2:47808"\nbroadcast = "10.{port}.0.255:47808"\n')
        parts += [f'[[port.peer]]\naddress = "10.{port}.1.{peer}:47808"\nmask = "255.255.255.255"\n' for peer in range(peers)]
    return "".join(parts) + more + rules


def frame(function, octets):
    return f"81{function:02X}{len(octets) // 2 + 4:04X}{octets}"


def unicast(npdu):
    return frame(10, npdu)


def broadcast(npdu):
    return frame(11, npdu)


def to_device(apdu, source=""):
    """An NPDU to the gateway's device, from a station behind a router where one is named."""
    return f"01{'2C' if source else '24'}00640101{source}FF{apdu}"


def to_all(apdu):
    return "0120FFFF00FF" + apdu


def read():
    """A ReadProperty of the fan's present value."""
    return unicast(to_device("0005010C" + "0C01400001" + "1955"))


def multiple(properties, asked="0C023FFFFF"):
    """A ReadPropertyMultiple of properties of one object, the device itself unless told otherwise."""
    return "0005010E" + asked + "1E" + "".join(f"09{number:02X}" for number in properties) + "1F"


def registrations():
    """As many foreign devices on each port as there may be."""
    devices = [(port, f"10.{port}.9.{device + 1}:47808") for port in range(1, PORTS + 1) for device in range(DEVICES)]
    return [f"{port} {device} {frame(5, 'FFFF')}" for port, device in devices]


def replay(text, lines, sink):
    """What the program writes of a script under a configuration, where the sink is a pipe; and its seconds."""
    with tempfile.TemporaryDirectory() as folder:
        config, script = os.path.join(folder, "config.toml"), os.path.join(folder, "script")
        with open(config, "w") as file:
            file.write(text)
        with open(script, "w") as file:
            file.writelines(line + "\n" for line in lines)
        with open(script) as source:
            start = time.monotonic()
            command = [program, "replay", "--config", config]
            told = subprocess.run(command, stdin=source, stdout=sink, check=True, text=True).stdout
            return told, time.monotonic() - start


def grouped(number):
    return f"{number:,}"


class Row:
    """One datagram, and what comes of it."""

    def __init__(self, name, text, datagram, before=(), sender=PANEL):
        self.name, self.text, self.line, self.octets = name, text, f"{sender} {datagram}", len(datagram) // 2
        told = replay(text, [*before, self.line], subprocess.PIPE)[0].split("end\n")[-2].splitlines()
        self.sends = [len(line.split()[3]) // 2 for line in told if line.startswith("send ")]
        self.denials = [len(line) + 1 - len("deny ") for line in told if line.startswith("deny ")]

    def amplified(self):
        count, octets = len(self.sends), sum(self.sends)
        factor = (octets + HEADERS * count) / (self.octets + HEADERS)
        shown = f"{factor:.1f}" if factor < 10 else grouped(round(factor))
        return f"| {self.name} | {grouped(self.octets)} | {grouped(count)} | {grouped(octets)} | {shown} |"

    def logged(self):
        return f"| {self.name} | {grouped(self.octets)} | {grouped(len(self.denials))} | {grouped(sum(self.denials))} |"


def longest_answer():
    """ALL of a point whose last state's text is as long as the answer of 1,476 octets, the most that a client takes, lets it be."""
    best = None
    for length in range(1, 256):
        states = ", ".join(f'"{"s" * count}"' for count in [20] * 50 + [length])
        mode = f'[[object]]\ntype = 19\ninstance = 1\nname = "mode"\ndefault = 1\nstates = [{states}]\n'
        asked = unicast(to_device(multiple([8], "0C04C00001")))
        row = Row("ReadPropertyMultiple, the longest answer", configuration(ALLOW, more=mode), asked)
        if best is not None and row.sends[0] <= best.sends[0]:
            return best
        best = row
    return best


def answers():
    """Rows of what one station is answered."""
    denied = configuration(deny("no-reads", 'operation = ["read"]'), more=FAN)
    return [
        Row("ReadProperty, answered", configuration(ALLOW, more=FAN), read()),
        Row("ReadProperty, denied", denied, read()),
        longest_answer(),
        Row("Read-Foreign-Device-Table", configuration(ALLOW), frame(6, ""), registrations()),
    ]


def broadcasts():
    """Rows of what is spread, under as many peers, foreign devices and routes as there may be."""
    routes = "".join(f'[[route]]\nnetwork = {1001 + place}\nport = 2\nnext = "10.2.0.20:47808"\n' for place in range(ROUTES))
    bare, full = configuration(ALLOW), configuration(ALLOW, peers=PEERS, more=routes)
    devices, who_is, unknown = registrations(), broadcast(to_all("1008")), "07D0"
    spread = [
        ("Original-Broadcast", broadcast("01001008")),
        ("Who-Is to all networks", who_is),
        ("the longest such broadcast", broadcast(to_all("1004" + "00" * 1480))),
        ("Who-Is-Router, unknown network", broadcast("018000" + unknown)),
        ("the same to all networks", broadcast("01A0FFFF00FF00" + unknown)),
        ("Who-Is-Router to all, 512 routes", broadcast("01A0FFFF00FF00")),
    ]
    rows = [Row(name, full, datagram, devices) for name, datagram in spread]
    rows.insert(1, Row("Distribute-Broadcast", full, frame(9, "01001008"), devices, "1 10.1.9.1:47808"))
    rows.insert(2, Row("Who-Is to all networks, ports alone", bare, who_is))
    rows.insert(3, Row("the same with foreign devices", bare, who_is, devices))
    return rows


def refusals():
    """Rows of what is logged. In the last two ALL is allowed, each property of the device denied, and a rule's name as long as may be."""
    nothing = configuration("")
    hidden = configuration(deny("n" * 32, "property = [[0, 7], [9, 4194303]]") + deny("c" * 32, 'operation = ["cast"]') + ALLOW)
    networks = "".join(f"{network:04X}" for network in range(1001, 1743))
    members, far = multiple([8] * 128), "FFFE" + "FF" + "AB" * 255
    return [
        Row("ReadProperty", nothing, read()),
        Row("I-Am-Router of 742 networks", nothing, broadcast("018001" + networks)),
        Row("ReadPropertyMultiple to all networks, format 2", configuration("", form=2), broadcast(to_all(multiple([85] * 128)))),
        Row("ReadPropertyMultiple, 128 times ALL", hidden, broadcast(to_device(members))),
        Row("the same from behind a router", hidden, broadcast(to_device(members, far))),
    ]


def flood(row, count=100):
    """What a flood of such datagrams writes: at 1 Mbit/s, and at the rate at which the program takes them here."""
    octets = sum(row.denials)
    at_a_megabit = 1e6 / 8 / (row.octets + HEADERS)
    with open(os.devnull, "w") as sink:
        here = count / min(replay(row.text, [row.line] * count, sink)[1] for _ in range(3))
    return [
        f"1 Mbit/s of the last, {at_a_megabit:.0f} a second, leaves {at_a_megabit * octets / 1e6:.0f} MB of log a second.",
        f"{UNCOMPARED} `replay` takes {here:.0f} a second and writes {here * octets / 1e6:.0f} MB.",
    ]


def table(head, lines):
    return [head, "|" + "---|" * (head.count("|") - 1), *lines, ""]


def stored():
    """The page in three parts: up to the tables, the tables, and what is behind them."""
    with open(page) as file:
        text = file.read()
    if text.count(START) != 1 or END not in text.split(START)[1]:
        sys.exit(f"{page} has no place for the tables, between {START} and {END}")
    before, rest = text.split(START)
    between, behind = rest.split(END, 1)
    return before + START, between.strip("\n").splitlines(), END + behind


denied = refusals()
lines = table("| Datagram | Octets | Sent | Octets | Factor |", [row.amplified() for row in answers() + broadcasts()])
lines += table("| Datagram | Octets | Lines | Octets of log |", [row.logged() for row in denied])
lines += flood(denied[-1])
print("\n".join(lines))

before, between, behind = stored()
if words:
    with open(page, "w") as file:
        file.write(before + "\n\n" + "\n".join(lines) + "\n\n" + behind)
    sys.exit(0)
compared = [[line for line in some if not line.startswith(UNCOMPARED)] for some in (lines, between)]
others = [line for line in compared[0] if line not in compared[1]]
print(f"{page}: " + ("has these" if compared[0] == compared[1] else "has other lines than these: " + "; ".join(others)), file=sys.stderr)
sys.exit(compared[0] != compared[1])
PYTHON
