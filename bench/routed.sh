#!/usr/bin/env bash
# Judges requests that are routed: plays random ones, whole and broken, under random policies of all formats, and compares what
# `bacgw replay` prints with what a second reading of the rules says, here, from docs/spec/policy.md, routing.md, services.md and tags.md.
#
#     bench/routed.sh [SCRIPTS [SEED]]      # 600 scripts of twelve datagrams, seed 1 by default
#     PROGRAM=FILE bench/routed.sh          # of another program with the same words
#
# It wants python3 and the built program: ./bacgw prove. The last line says how many scripts agreed, and how much they had of each kind;
# the status is 0 where all did.
set -euo pipefail

top=$(cd "$(dirname "$0")/.." && pwd)
program=${PROGRAM:-$top/crates/bacgw/out/bacgw}
[ -x "$program" ] || { echo "build bacgw first: ./bacgw prove" >&2; exit 1; }

exec python3 - "$program" "${1:-600}" "${2:-1}" <<'PYTHON'
import ipaddress
import json
import random
import subprocess
import sys
import tempfile
from collections import Counter
from dataclasses import dataclass

program, scripts, seed = sys.argv[1], int(sys.argv[2]), int(sys.argv[3])
chance = random.Random(seed)

PORTS = [1, 2, 3]  # each with a network of its number
DEVICE_NETWORK, FAR_NETWORK, NEXT = 100, 300, "C0A80214BAC0"  # the far one is reached by 192.168.2.20
EVERYWHERE = 65535
LAST = 4194303
SETS = [8, 80, 105]


def address(octets):
    return ".".join(str(it) for it in octets[:4]) + f":{int.from_bytes(octets[4:], 'big')}"


def station(port, host):
    return bytes([192, 168, port, host]) + (47808).to_bytes(2, "big")


# ---- what a request names


class Broken(Exception):
    """These octets are no body."""


@dataclass
class Tag:
    number: int
    kind: str  # opening, closing, context or application
    length: int


class Reader:
    """Octets that are read from the front."""

    def __init__(self, octets):
        self.octets, self.at = octets, 0

    def ends(self):
        return self.at == len(self.octets)

    def take(self, count):
        if count > len(self.octets) - self.at:
            raise Broken
        self.at += count
        return self.octets[self.at - count : self.at]

    def tag(self):
        first = self.take(1)[0]
        number = first >> 4 if first >> 4 < 15 else self.take(1)[0]
        if number == 255 or (first & 8 == 0 and first & 7 > 5):
            raise Broken
        if first & 7 > 5:
            return Tag(number, "opening" if first & 7 == 6 else "closing", 0)
        return Tag(number, "context" if first & 8 else "application", self.length(first & 7))

    def length(self, low):
        length = low if low < 5 else self.take(1)[0]
        if low < 5 or length < 254:
            return length
        return int.from_bytes(self.take(2 if length == 254 else 4), "big")

    def next_is(self, number, kind):
        """Whether such a tag stands in front, where it stays."""
        at = self.at
        try:
            tag = self.tag()
            return (tag.number, tag.kind) == (number, kind)
        except Broken:
            return False
        finally:
            self.at = at

    def expect(self, number, kind):
        if not self.next_is(number, kind):
            raise Broken
        return self.tag()

    def object(self, number):
        tag = self.expect(number, "context")
        if tag.length != 4:
            raise Broken
        return divmod(int.from_bytes(self.take(4), "big"), 1 << 22)

    def number(self, number, low, high):
        octets = self.take(self.expect(number, "context").length)
        value = int.from_bytes(octets, "big")
        if not (1 <= len(octets) <= 4 and low <= value <= high):
            raise Broken
        return value

    def optional(self, number, low, high):
        return self.number(number, low, high) if self.next_is(number, "context") else None

    def value(self, number):
        """Tagged values between an opening and its closing, at most 16 deep."""
        self.expect(number, "opening")
        open_tags = [number]
        while open_tags:
            tag = self.tag()
            if tag.kind == "opening":
                open_tags.append(tag.number)
            elif tag.kind == "closing":
                if tag.number != open_tags.pop():
                    raise Broken
            elif (tag.number, tag.kind) != (1, "application"):  # a Boolean has no content
                self.take(tag.length)
            if len(open_tags) > 17:
                raise Broken


def read_named(body):
    named = [(body.object(0), body.number(1, 0, LAST), None)]
    body.optional(2, 0, 2**32 - 1)
    return named


def write_named(body):
    thing, name = body.object(0), body.number(1, 0, LAST)
    body.optional(2, 0, 2**32 - 1)
    body.value(3)
    return [(thing, name, body.optional(4, 1, 16) or 16)]


def multi_named(body):
    named = []
    while not named or not body.ends():
        thing = body.object(0)
        body.expect(1, "opening")
        first = len(named)
        while first == len(named) or not body.next_is(1, "closing"):
            name, index = body.number(0, 0, LAST), body.optional(1, 0, 2**32 - 1)
            if len(named) == 128 or (name in SETS and index is not None):
                raise Broken
            named.append((thing, name, None))
        body.tag()
    return named


SERVICES = {12: ("read", read_named), 14: ("read", multi_named), 15: ("write", write_named)}
# How many octets the header of an APDU of each type has, but for two more of a segment.
HEADERS = {0: 4, 1: 2, 2: 3, 3: 3, 4: 4, 5: 3, 6: 3, 7: 3}


def header_length(apdu):
    is_segment = apdu[0] >> 4 in (0, 3) and apdu[0] & 8
    return HEADERS[apdu[0] >> 4] + (2 if is_segment else 0)


def service_of(apdu):
    """The code of the service, or none where the APDU can't be read."""
    if not apdu or apdu[0] >> 4 not in HEADERS or len(apdu) < header_length(apdu):
        return None
    kind, last = apdu[0] >> 4, apdu[header_length(apdu) - 1]
    return last if kind == 0 else 256 + last if kind == 1 else 1024 + kind


def named_asks(route, apdu):
    """What is asked behind an ask `route` under the second format."""
    service = service_of(apdu)
    if service not in SERVICES:
        return []
    operation, named = SERVICES[service]
    unnamed = {**route, "operation": operation}
    body = Reader(apdu[header_length(apdu) :])
    try:
        if apdu[0] & 8:
            raise Broken
        found = named(body)
        if not body.ends():
            raise Broken
    except Broken:
        return [unnamed]
    return [{**unnamed, "object_type": o[0], "instance": o[1], "property": p, "priority": at} for o, p, at in found]


# ---- what the gateway does


def place(network, octets):
    return network.to_bytes(2, "big") + bytes([len(octets)]) + octets


@dataclass
class Message:
    """A message with a destination network, on a port, of a station there or behind a router."""

    port: int
    host: int
    is_broadcast: bool
    network: int
    station: bytes
    hops: int
    claim: tuple  # the network and the station behind a router, or none
    apdu: bytes

    @property
    def sender(self):
        return station(self.port, self.host)

    @property
    def source(self):
        return self.claim or (self.port, self.sender)

    def line(self):
        npdu = bytes([1, 0x2C if self.claim else 0x24]) + place(self.network, self.station)
        npdu += place(*self.claim) if self.claim else b""
        npdu += bytes([self.hops]) + self.apdu
        return f"{self.port} {address(self.sender)} {frame(0x0B if self.is_broadcast else 0x0A, npdu)}"


def frame(function, npdu):
    return (bytes([0x81, function]) + (len(npdu) + 4).to_bytes(2, "big") + npdu).hex().upper()


class Gateway:
    """A gateway without peers, foreign devices and objects, as far as messages go through it."""

    def __init__(self, form, rules, stations):
        self.form, self.rules, self.stations, self.denials = form, rules, stations, 0

    def denying(self, ask):
        """The name of the rule that denies the ask, or none."""
        for rule in self.rules:
            if all(holds(items, ask.get(field)) for field, items in rule["fields"].items()):
                return None if rule["allow"] else rule["name"]
        return "default"

    def allowed(self, asks):
        """Whether all are; what is denied is printed."""
        by = [self.denying(ask) for ask in asks]
        for ask, name in zip(asks, by):
            if name:
                self.denials += 1
                self.lines.append(f"deny {self.denials} 0 {denial(ask, name)}" + (stations_of(ask) if self.form == 3 else ""))
        return not any(by)

    def send(self, port, to, function, npdu):
        self.sends.append(f"send {port} {address(to)} {frame(function, npdu)}")

    def spread(self, ports, npdu):
        for port in ports:
            self.send(port, station(port, 255), 0x0B, npdu)

    def take(self, m):
        """What is printed for a message."""
        self.lines, self.sends = [], []
        network, octets = m.source
        key = octets if len(octets) == 6 else None
        self.base = {"port": m.port, "source_network": network, "by": octets, "source": key, "service": service_of(m.apdu)}
        if self.form == 3:
            self.base |= {"sender": m.sender, "station": m.station if 1 <= len(m.station) <= 7 else None}
        if self.form < 3 or self.enters(m):
            if m.is_broadcast:
                self.spreads(m)
            self.route(m)
        return self.lines + self.sends + ["end"]

    def belongs(self, port, octets):
        """Whether an address is a station of a port; nobody is registered here."""
        if self.stations[port] is None:
            return True
        return octets != station(port, 10) and octets[:4] != station(port, 255)[:4] and holds(self.stations[port], octets)

    def enters(self, m):
        """Whether the sender may enter, and may speak for the source that it claims."""
        ask = {"port": m.port, "sender": m.sender}
        by_sender = {"source_network": m.port, "by": m.sender, "source": m.sender}
        if not self.belongs(m.port, m.sender) and not self.allowed([{**ask, **by_sender, "operation": "enter"}]):
            return False
        by_route = m.claim and m.claim[0] == FAR_NETWORK and (m.port, m.sender.hex().upper()) == (2, NEXT)
        by_claim = {field: self.base[field] for field in ("source_network", "by", "source")}
        return not m.claim or by_route or self.allowed([{**ask, **by_claim, "operation": "claim"}])

    def spreads(self, m):
        """Whether the policy lets the message go to the peers and the foreign devices, of which there are none."""
        cast = {**self.base, "operation": "cast", "destination": m.network}
        return self.allowed([cast] + (named_asks(cast, m.apdu) if self.form == 3 else []))

    def goes_to(self, network, m):
        """Whether the policy lets the message go to this network."""
        route = {**self.base, "operation": "route", "destination": network}
        return self.allowed([route] + (named_asks(route, m.apdu) if self.form > 1 else []))

    def route(self, m):
        others, hops = [it for it in PORTS if it != m.port], max(m.hops - 1, 0)
        by = 2 if m.network == FAR_NETWORK else m.network
        if m.network == EVERYWHERE:
            for port in others:
                if self.goes_to(port, m) and hops:
                    self.spread([port], onward(m, hops))
        elif by == m.port or not self.goes_to(m.network, m):
            pass
        elif m.network in PORTS and not m.station:
            self.spread([m.network], onward(m, None))
        elif m.network in PORTS:
            if len(m.station) == 6 and (self.form < 3 or self.belongs(m.network, m.station)):
                self.send(m.network, m.station, 0x0A, onward(m, None))
        elif m.network == FAR_NETWORK:
            if hops:
                self.send(2, bytes.fromhex(NEXT), 0x0A, onward(m, hops))
        else:
            wanted = m.network.to_bytes(2, "big")
            back = b"\x01\x80" if not m.claim else b"\x01\xa0" + place(*m.claim) + b"\xff"
            self.send(m.port, m.sender, 0x0A, back + b"\x03\x01" + wanted)
            self.spread(others, b"\x01\x80\x00" + wanted)


def onward(m, hops):
    """The message as it goes on: to a neighbour without a destination, else with so many hops."""
    if hops is None:
        return b"\x01\x0c" + place(*m.source) + m.apdu
    return b"\x01\x2c" + place(m.network, m.station) + place(*m.source) + bytes([hops]) + m.apdu


def holds(items, value):
    if value is None:
        return False
    for item in items:
        if isinstance(value, bytes) and isinstance(item, str):
            # a subnet has addresses alone, of six octets
            if len(value) == 6 and ipaddress.ip_address(value[:4]) in ipaddress.ip_network(item):
                return True
            continue
        low, high = item if isinstance(item, list) else (item, item)
        if low == value or (isinstance(value, int) and low <= value <= high):
            return True
    return False


def denial(ask, name):
    shown = lambda field: "-" if ask.get(field) is None else ask[field]
    return (
        f"{ask['port']} {ask['source_network']}:{ask['by'].hex().upper()} {ask['operation']} dst={shown('destination')} "
        f"svc={shown('service')} obj={shown('object_type')},{shown('instance')} prop={shown('property')} prio={shown('priority')} rule={name}"
    )


def stations_of(ask):
    """What a line says more in the third format."""
    return f" sender={ask['sender'].hex().upper()} station={ask['station'].hex().upper() if ask.get('station') else '-'}"


# ---- what is played


def context(number, value):
    octets = value.to_bytes(max(1, (value.bit_length() + 7) // 8), "big")
    return bytes([number << 4 | 8 | len(octets)]) + octets


def some_object():
    kind, instance = chance.choice([5, 8, 19, 40, 1023]), chance.choice([1, 2, 3, 1234, LAST])
    return b"\x0c" + (kind << 22 | instance).to_bytes(4, "big")


def some_property():
    return chance.choice([85, 28, 77, 87, 300, LAST, LAST + 1] + SETS)


def some_list():
    count = chance.choice([1, 2, 3]) if chance.random() < 0.9 else chance.choice([0, 64, 127, 128, 129])
    body = some_object() + b"\x1e"
    for _ in range(count):
        body += context(0, some_property())
        if chance.random() < 0.1:
            body += context(1, chance.choice([0, 16, 70000]))
    return body + b"\x1f"


VALUES = [b"", b"\x00", b"\x11", b"\x91\x01", b"\x75\x03\x00ab", b"\x2e\x3f", b"\x0e" * 16 + b"\x0f" * 16, b"\x0e" * 17 + b"\x0f" * 17]


def some_body(service):
    if service == 14:
        return b"".join(some_list() for _ in range(chance.choice([1, 1, 2, 3])))
    body = some_object() + context(1, some_property())
    if chance.random() < 0.2:
        body += context(2, chance.choice([0, 3, 70000]))
    if service == 15:
        body += b"\x3e" + chance.choice(VALUES) + b"\x3f"
        if chance.random() < 0.6:
            body += context(4, chance.choice([0, 1, 8, 16, 17]))
    return body


def slipped(octets):
    """The octets, in half of the cases with an octet left out, changed, put in, or cut."""
    octets = bytearray(octets)
    at = chance.randrange(len(octets) + 1)
    how = chance.choice(["not"] * 4 + ["out", "changed", "in", "cut"])
    if how == "out":
        del octets[at : at + 1]
    elif how == "changed":
        octets[at : at + 1] = bytes([chance.randrange(256)])
    elif how == "in":
        octets.insert(at, chance.randrange(256))
    elif how == "cut":
        del octets[at:]
    return bytes(octets)


OTHERS = ["20540F", "30550C0C014000021955", "50560C9102911B", "600104", "710104", "0005", ""]


def some_apdu():
    if chance.random() < 0.15:
        return bytes.fromhex(chance.choice(OTHERS))
    service = chance.choice([12, 12, 14, 14, 14, 15, 15, 16])
    head = bytes([8, 5, 1, 0, 4]) if chance.random() < 0.1 else bytes([chance.choice([0, 2]), 5, 1])
    return head + bytes([service]) + slipped(some_body(service if service in SERVICES else 12))


def some_message():
    network = chance.choice(PORTS + [FAR_NETWORK, 400, EVERYWHERE])
    there = station(2, 5) if chance.random() < 0.7 else station(chance.choice(PORTS), chance.choice([4, 6, 7, 10, 255]))
    octets = b"" if network == EVERYWHERE else chance.choice([b"", b"\x07", there, there])
    claim = chance.choice([None, None, None, (500, b"\x07"), (500, station(9, 9)), (FAR_NETWORK, b"\x09")])
    hops, host = chance.choice([255, 255, 0, 1, 2]), chance.choice([5, 5, 7, 7, 20])
    return Message(chance.choice(PORTS), host, chance.random() < 0.3, network, octets, hops, claim, some_apdu())


FIELDS = {
    "operation": (0.6, ["read", "write", "route", "cast"]),
    "port": (0.1, PORTS),
    "source_network": (0.15, [1, 2, 500, [1, 3]]),
    "source": (0.1, [station(port, 7) for port in PORTS]),
    "destination": (0.2, [2, 3, 300, 400, [2, 3]]),
    "service": (0.15, [12, 14, 15, [12, 15], [1026, 1031]]),
    "object_type": (0.3, [5, 8, 19, [0, 1023], [0, 1023]]),
    "instance": (0.2, [1, 2, [2, 9], LAST]),
    "property": (0.2, [85, 28, 8, [0, 100]]),
    "priority": (0.1, [8, 16, [1, 16]]),
}
# Those that the third format has beside them, and what an operation may be there.
STATION_FIELDS = {
    "operation": (0.6, ["read", "write", "route", "cast", "enter", "claim"]),
    "sender": (0.15, [station(1, 7), station(2, 5), "192.168.1.0/24", "192.168.2.4/30", "192.168.0.0/16"]),
    "station": (0.15, [station(2, 5), station(3, 7), "192.168.2.0/24", "192.168.0.0/16", "0.0.0.0/0"]),
}


def some_rule(form, number):
    fields = {}
    for field, (often, items) in {**FIELDS, **(STATION_FIELDS if form == 3 else {})}.items():
        if chance.random() < often:
            fields[field] = chance.sample(items, chance.choice([1, 1, 2]))
    return {"name": f"r{number}", "allow": chance.random() < 0.6, "fields": fields}


def some_rules(form):
    rules = [some_rule(form, number) for number in range(chance.choice([0, 1, 2, 4, 6, 40]))]
    return rules + ([{"name": "all", "allow": True, "fields": {}}] if chance.random() < 0.5 else [])


def some_stations(form):
    """The subnets of each port, or none: everybody is a station of such a port."""
    some = lambda port: chance.choice([None, [f"192.168.{port}.0/24"], [f"192.168.{port}.4/31", f"192.168.{port}.20/32"], ["10.0.0.0/8"]])
    return {port: some(port) if form == 3 else None for port in PORTS}


def text_of(form, rules, stations):
    """The configuration as a text."""
    text = f'format = {form}\n[device]\nnetwork = {DEVICE_NETWORK}\ninstance = 1234\nname = "gw"\nvendor = 999\nvendor_name = "Example"\n'
    text += 'model = "gw-1"\nfirmware = "1"\nsoftware = "1"\nrevision = 12\ndatabase = 1\n'
    for port in PORTS:
        text += f'[[port]]\nnetwork = {port}\naddress = "{address(station(port, 10))}"\nbroadcast = "{address(station(port, 255))}"\n'
        text += f"stations = {json.dumps(stations[port])}\n" if stations[port] else ""
    text += f'[[route]]\nnetwork = {FAR_NETWORK}\nport = 2\nnext = "{address(bytes.fromhex(NEXT))}"\n'
    for rule in rules:
        text += f'[[rule]]\nname = "{rule["name"]}"\nallow = {str(rule["allow"]).lower()}\n'
        for field, items in rule["fields"].items():
            text += f"{field} = {json.dumps([address(it) if isinstance(it, bytes) else it for it in items])}\n"
    return text


def replayed(text, lines):
    with tempfile.NamedTemporaryFile("w", suffix=".toml") as file:
        file.write(text)
        file.flush()
        told = subprocess.run([program, "replay", "--config", file.name], input="\n".join(lines) + "\n", capture_output=True, text=True)
    return told.stdout.splitlines()


agreed, kinds = 0, Counter()
for number in range(scripts):
    form = chance.choice([1, 2, 2, 3, 3, 3])
    rules, stations = some_rules(form), some_stations(form)
    messages = [some_message() for _ in range(12)]
    gateway = Gateway(form, rules, stations)
    wanted = [line for message in messages for line in gateway.take(message)]
    lines, text = [message.line() for message in messages], text_of(form, rules, stations)
    if replayed(text, lines) == wanted:
        agreed += 1
    else:
        print(f"script {number} differs:\n{text}\n" + "\n".join(lines) + "\nwanted:\n" + "\n".join(wanted))
    kinds["sends"] += sum(line.startswith("send") for line in wanted)
    kinds["denials of a way"] += sum(" route " in line for line in wanted)
    kinds["of a property"] += sum(" obj=" in line and " obj=-" not in line for line in wanted)
    kinds["of an entry"] += sum(" enter " in line or " claim " in line for line in wanted)
    kinds["of what names none"] += sum((" read " in line or " write " in line) and " obj=-" in line for line in wanted)
print(f"{agreed} of {scripts} scripts agreed: " + ", ".join(f"{count} {kind}" for kind, count in kinds.items()))
sys.exit(0 if agreed == scripts else 1)
PYTHON
