#!/usr/bin/env bash
# Looks for leaks between peers: plays random scripts under random configurations, each twice, the second time without some of its
# datagrams, and compares what the events that both have do, but for the numbers of denials.
#
#     bench/leaks.sh [PAIRS [SEED]]      # 1200 pairs, seed 1 by default
#     FORMAT=3 bench/leaks.sh            # under the third format of the policy: with stations, strangers and forged claims
#
# A third of the pairs leaves out writes of an object that the policy hides from some sources, and compares the events of those
# sources (hidden); a third leaves out writes of an object, and compares every event but the reads of it that are allowed (unread);
# a third leaves out datagrams that may change nothing, and compares every event (quiet). No pair may differ. To see that it could,
# as many pairs without the premise are tried: the object is read by who may, or what is left out was allowed to change something.
#
# It wants python3 and the built program: ./bacgw prove. The last line says how many pairs were alike, and how many of the others
# differed; the status is 0 where all pairs were alike and one in twenty of the others, at least, differed.
set -euo pipefail

top=$(cd "$(dirname "$0")/.." && pwd)
program=${BACGW:-$top/crates/bacgw/out/bacgw}
[ -x "$program" ] || { echo "build bacgw first: ./bacgw prove" >&2; exit 1; }

exec python3 - "$program" "${1:-1200}" "${2:-1}" "${FORMAT:-1}" <<'PYTHON'
import random
import re
import subprocess
import sys
import tempfile
from dataclasses import dataclass

program, pairs, seed, format = sys.argv[1], int(sys.argv[2]), int(sys.argv[3]), sys.argv[4]
chance = random.Random(seed)

DEVICE_NETWORK = 100
# The objects of each configuration: type, instance, the lines of its table, and values that a write may have.
OBJECTS = [
    (5, 1, 'default = 0', ["9100", "9101", "00"]),
    (5, 2, 'default = 1', ["9100", "9101", "00"]),
    (19, 1, 'default = 1\nstates = ["off", "auto", "on"]', ["2101", "2102", "2103", "00"]),
    (45, 1, 'default = -5\nunits = 95', ["3105", "31FB", "00"]),
    (48, 1, 'default = 0\nunits = 95', ["2107", "220100", "00"]),
]


@dataclass
class Station:
    """Who sends: the port, the sender's last octet, and the network and MAC behind a router, where it is behind one."""

    port: int
    host: int
    net: int = 0
    mac: str = ""
    subnet: str = ""

    @property
    def address(self):
        return f"{self.subnet or f'192.168.{self.port}'}.{self.host}:47808"

    @property
    def network(self):
        return self.net or self.port

    @property
    def octets(self):
        return self.mac if self.net else bytes(map(int, self.address.split(":")[0].split("."))).hex().upper() + "BAC0"

    @property
    def key(self):
        """What a rule's `source` names, where it can name it."""
        if len(self.octets) != 12:
            return None
        parts = bytes.fromhex(self.octets)
        return f"{parts[0]}.{parts[1]}.{parts[2]}.{parts[3]}:{parts[4] * 256 + parts[5]}"


STATIONS = [Station(1, 5), Station(1, 6), Station(2, 5), Station(2, 7), Station(1, 20, 500, "07"),
            Station(1, 20, 500, "C0A80909BAC0"), Station(2, 21, 501, "0809")]
# Strangers, one that speaks for a network too, and one that speaks for a network whose router is another.
STATIONS += [Station(1, 9, subnet="172.16.0"), Station(2, 9, 500, "07", "172.16.0"), Station(2, 7, 300, "05")] if format == "3" else []


@dataclass
class Sent:
    """An event line; who claims to have sent it; the object that it reads or writes at the device; whether it may change something."""

    line: str
    station: Station = None
    reads: tuple = None
    writes: tuple = None
    operation: str = ""


def frame(function, rest):
    return f"81{function:02X}{len(rest) // 2 + 4:04X}{rest}"


def npdu(station, destination, payload, message=False):
    control = (0x80 if message else 0x04) | (0x20 if destination else 0) | (0x08 if station.net else 0)
    source = f"{station.net:04X}{len(station.mac) // 2:02X}{station.mac}" if station.net else ""
    return f"01{control:02X}{destination}{source}{'FF' if destination else ''}{payload}"


def event(station, function, rest, **said):
    return Sent(f"{station.port} {station.address} {frame(function, rest)}", station, **said)


def object_octets(kind, instance):
    return f"{kind << 22 | instance:08X}"


def to_device(station, apdu, **said):
    everywhere = chance.random() < 0.05
    destination = "FFFF00" if everywhere else f"{DEVICE_NETWORK:04X}0101"
    return event(station, 0x0B if everywhere else 0x0A, npdu(station, destination, apdu), **said)


def read(station, kind, instance):
    if chance.random() < 0.5:
        apdu = f"0005{chance.randrange(256):02X}0C0C{object_octets(kind, instance)}19{chance.choice([85, 87, 104, 77]):02X}"
    else:
        listed = "".join(f"09{p:02X}" for p in chance.choices([85, 87, 104, 8, 80, 105], k=chance.randint(1, 3)))
        apdu = f"0005{chance.randrange(256):02X}0E0C{object_octets(kind, instance)}1E{listed}1F"
    return to_device(station, apdu, reads=(kind, instance))


def write(station, kind, instance, values):
    told, priority = (85, f"49{chance.randint(1, 16):02X}") if chance.random() < 0.8 else (104, "")
    apdu = f"0005{chance.randrange(256):02X}0F0C{object_octets(kind, instance)}19{told:02X}3E{chance.choice(values)}3F{priority}"
    return to_device(station, apdu, writes=(kind, instance), operation="write")


def other(station):
    near = Station(station.port, station.host, subnet=station.subnet)
    return chance.choice([
        lambda: event(near, 0x05, f"{chance.randint(0, 60):04X}", operation="register"),
        lambda: event(near, 0x08, chance.choice(STATIONS[:4]).octets, operation="delete"),
        lambda: event(near, 0x01, "".join(f"C0A804{n:02X}BAC0FFFFFFFF" for n in range(chance.randint(0, 3))), operation="write-table"),
        lambda: event(near, 0x02, ""),
        lambda: event(near, 0x06, ""),
        lambda: event(near, 0x0A, npdu(near, "", f"01{chance.randint(600, 609):04X}", message=True), operation="learn"),
        lambda: event(near, 0x0A, npdu(near, "", chance.choice(["00", f"00{chance.randint(600, 612):04X}", "12"]), message=True)),
        lambda: event(station, 0x0B, npdu(station, "FFFF00", "1008")),
        lambda: event(station, 0x09, npdu(station, "", "1008")),
        lambda: event(station, 0x0B, npdu(station, "", "1008")),
        lambda: event(station, 0x0A, npdu(station, f"{chance.choice([1, 2, 300, 600, 605, 611]):04X}0109", "1008")),
        lambda: event(station, 0x0A, npdu(station, "FFFF00", f"1007{'3C'}{object_octets(5, 2)}")),
        lambda: Sent("tick"),
    ])()


def script(wanted):
    """A script that reads and writes one object more often than the others."""
    events = []
    for _ in range(chance.randint(12, 40)):
        station = chance.choice(STATIONS)
        kind, instance, _, values = wanted if chance.random() < 0.6 else chance.choice(OBJECTS)
        what = chance.random()
        if what < 0.35:
            events.append(read(station, kind, instance))
        elif what < 0.65:
            events.append(write(station, kind, instance, values))
        else:
            events.append(other(station))
    return events


def rule(name, allow, **fields):
    lines = "".join(f"{key} = {value}\n" for key, value in fields.items() if value is not None)
    return f'[[rule]]\nname = "{name}"\nallow = {allow}\n{lines}'


def configuration(rules):
    text = (f'format = {format}\n[device]\nnetwork = {DEVICE_NETWORK}\ninstance = 1234\nname = "gw"\nvendor = 999\nvendor_name = "Example"\n'
            'model = "gw-1"\nfirmware = "1"\nsoftware = "1"\nrevision = 12\ndatabase = 1\n')
    for port in (1, 2):
        text += f'[[port]]\nnetwork = {port}\naddress = "192.168.{port}.10:47808"\nbroadcast = "192.168.{port}.255:47808"\n'
        text += f'stations = ["192.168.{port}.0/24"]\n' if format == "3" else ""
    text += '[[route]]\nnetwork = 300\nport = 2\nnext = "192.168.2.20:47808"\n'
    for number, (kind, instance, lines, _) in enumerate(OBJECTS):
        text += f'[[object]]\ntype = {kind}\ninstance = {instance}\nname = "o{number}"\n{lines}\n'
    return text + "".join(rules)


def some_rules():
    """Rules that deny this and that, in front of one that allows all."""
    rules = []
    if format == "3":
        operations = chance.choice(['["enter"]', '["claim"]', '["enter", "claim"]', '["route", "cast"]'])
        rules.append(rule("entry", chance.choice(["true", "false"]), operation=operations,
                          sender=chance.choice([None, '["172.16.0.0/16"]', '["192.168.1.0/24"]', '["192.168.2.7"]']),
                          station=chance.choice([None, None, '["192.168.0.0/16"]'])))
    for number in range(chance.randint(0, 3)):
        kind, instance, _, _ = chance.choice(OBJECTS)
        rules.append(rule(f"r{number}", chance.choice(["true", "false"]),
                          operation=chance.choice(['["read"]', '["write", "list"]', '["cast", "route"]', '["network"]']),
                          source_network=chance.choice([None, "[1]", "[2, 500]"]),
                          property=chance.choice([None, "[85]", "[28, 87]"]),
                          object_type=chance.choice([None, f"[{kind}]"])))
    return rules


def blind_rule(stations, kind, instance):
    """A rule that hides an object from a source, from every source of its network, or from all; and from whom of these stations."""
    station = chance.choice(stations)
    how = chance.choice(["source", "network", "all"])
    fields = {"operation": '["read"]', "object_type": f"[{kind}]", "instance": f"[{instance}]"}
    if how == "all":
        return rule("blind", "false", **fields), stations
    fields["source_network"] = f"[{station.network}]"
    if how == "source" and station.key:
        fields["source"] = f'["{station.key}"]'
        return rule("blind", "false", **fields), [s for s in stations if s.network == station.network and s.octets == station.octets]
    return rule("blind", "false", **fields), [s for s in stations if s.network == station.network]


def played(config, events):
    """What each event does, a text each, but for the numbers of denials."""
    with tempfile.NamedTemporaryFile("w", suffix=".toml") as file:
        file.write(config)
        file.flush()
        told = subprocess.run([program, "replay", "--config", file.name], input="".join(e.line + "\n" for e in events),
                              capture_output=True, text=True, timeout=60)
    if told.returncode != 0:
        sys.exit(f"not played: {told.stderr}{config}")
    blocks = told.stdout.split("end\n")[:-1]
    if len(blocks) != len(events):
        sys.exit("not one block an event")
    return [re.sub(r"^deny \d+ ", "deny - ", block, flags=re.MULTILINE) for block in blocks]


def differs(config, events, left_out, compared):
    """Whether an event that is kept and compared does something else where some are left out; the first one that does."""
    kept = [n for n in range(len(events)) if n not in left_out]
    whole = played(config, events)
    short = played(config, [events[n] for n in kept])
    for place, n in enumerate(kept):
        if compared(events[n]) and whole[n] != short[place]:
            return n
    return None


def part(numbers):
    """Some of these, or all."""
    return set(numbers) if chance.random() < 0.5 else {n for n in numbers if chance.random() < 0.6}


def a_write(premise):
    """Writes of an object are left out. With the premise the events compared read it by no allowed ask, without it they are the others."""
    wanted = chance.choice(OBJECTS)
    kind, instance = wanted[:2]
    hidden, blind = blind_rule(STATIONS, kind, instance)
    config = configuration([hidden] + some_rules() + [rule("all", "true")])
    events = script(wanted)
    left_out = part(n for n, e in enumerate(events) if e.writes == (kind, instance))
    is_blind = lambda e: any(e.station == s for s in blind)
    reads_it = lambda e: e.reads == (kind, instance) and not is_blind(e)
    if premise == "hidden":
        return config, events, left_out, is_blind
    if premise == "unread":
        return config, events, left_out, lambda e: not reads_it(e)
    return config, events, left_out, reads_it


def a_change(premise):
    """Datagrams are left out: those that are denied every change and ask for none, or, without the premise, those that are allowed one."""
    quiet = chance.choice(STATIONS)
    denies = rule("quiet", "false", operation='["register", "delete", "write-table", "learn"]', source_network=f"[{quiet.port}]")
    no_write = rule("no-write", "false", operation='["write"]', source_network=f"[{quiet.network}]")
    config = configuration([denies, no_write] + [rule("all", "true")])
    events = script(chance.choice(OBJECTS))

    def is_quiet(e):
        if e.station is None:
            return False
        if e.operation == "write":
            return e.station.network == quiet.network
        return not e.operation or e.station.port == quiet.port

    wanted = premise == "quiet"
    left_out = part(n for n, e in enumerate(events) if e.station is not None and is_quiet(e) == wanted)
    return config, events, left_out, lambda e: True


alike = other_differ = others = 0
for number in range(pairs):
    premise = ["hidden", "unread", "quiet"][number % 3]
    pair = a_change(premise) if premise == "quiet" else a_write(premise)
    at = differs(*pair)
    if at is not None:
        print(f"differs ({premise}): event {at + 1}\n{pair[0]}")
        print("\n".join(("- " if n in pair[2] else "  ") + e.line for n, e in enumerate(pair[1])))
        sys.exit(1)
    alike += 1
    without = a_change("loud") if premise == "quiet" else a_write("read")
    others += 1
    other_differ += differs(*without) is not None
print(f"{alike} pairs alike; without the premise {other_differ} of {others} differed")
sys.exit(0 if other_differ * 20 >= others else 1)
PYTHON
