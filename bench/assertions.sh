#!/usr/bin/env bash
# Judges assertions on random small policies by trying each ask, and compares with what `bacgw check` says.
#
#     bench/assertions.sh [POLICIES [SEED]]          # 2,000 policies by default
#     PROGRAM=path/to/bacgw bench/assertions.sh      # another program than crates/bacgw/out/bacgw
#
# A policy has two ports, a route, one to six rules and one to three assertions over a few fields. Each field takes every number at which a
# range of a rule, of an assertion or of the asks begins or ends, and the numbers beside it, so the asks that are tried decide the
# question. An assertion must be said to hold, to be broken (by a rule that breaks it) or to be empty, as it is. The last line says how
# many assertions there were of each, and how many answers were wrong; `unknown` counts apart.
set -euo pipefail

top=$(cd "$(dirname "$0")/.." && pwd)
program=$(realpath -m "${PROGRAM:-$top/crates/bacgw/out/bacgw}")
[ -x "$program" ] || { echo "build bacgw first: ./bacgw prove" >&2; exit 1; }

python3 - "$program" "${1:-2000}" "${2:-1}" <<'PYTHON'
import collections
import itertools
import os
import random
import re
import subprocess
import sys
import tempfile
from concurrent.futures import ProcessPoolExecutor

PROGRAM, POLICIES, SEED = sys.argv[1], int(sys.argv[2]), int(sys.argv[3])
FIELDS = "operation port source_network source destination service object_type instance property priority sender station".split()
OPERATIONS = "cast route register delete read-table write-table learn network read write list enter claim".split()
NUMBER = {name: at + 1 for at, name in enumerate(OPERATIONS)}
MAY_LACK = {"object_type", "instance", "property", "priority", "station"}
OBJECT = {"object_type", "instance", "property", "priority"}
WRITING = [0, 7, 8, 9, 10, 11, 16, 17, 18, 19, 20, 21, 22, 23, 27, 260, 261, 262, 265, 266, 270]
READING = [3, 4, 5, 6, 13, 26, 28, 29, 30, 33]
DEVICE = 100


def address(text):
    ip, _, udp = text.partition(":")
    a, b, c, d = map(int, ip.split("."))
    return (((a << 8 | b) << 8 | c) << 8 | d) << 16 | int(udp)


def octets(count, number):
    return (count << 56) + number


# the keys of stations: of six octets, and of the other lengths from one to seven
SIX = [(0, 2**48 - 1)]
KEYS = SIX + [(octets(n, 0), octets(n, 256**n - 1)) for n in (1, 2, 3, 4, 5, 7)]
STATIONS = {"192.168.1.5:47808": None, "192.168.2.5:47808": None, "192.168.9.9:47808": None, "mac:07": octets(1, 7), "mac:0102": octets(2, 258)}
KEY_OF = {text: key if key is not None else address(text) for text, key in STATIONS.items()}


class Site:
    def __init__(self, random):
        self.has_stations = [random.random() < 0.8 for _ in range(2)]
        self.bbmd = random.random() < 0.15

    def text(self):
        said = f'format = 3\n[device]\nnetwork = {DEVICE}\ninstance = 7\nname = "gateway"\nvendor = 999\nvendor_name = "Example"\nmodel = "gw-1"\nfirmware = "1"\nsoftware = "1"\nrevision = 12\ndatabase = 1\n'
        for port in (1, 2):
            said += f'[[port]]\nnetwork = {port}\naddress = "192.168.{port}.10:47808"\nbroadcast = "192.168.{port}.255:47808"\n'
            if self.has_stations[port - 1]:
                said += f'stations = ["192.168.{port}.0/24"]\n'
            if port == 1 and self.bbmd:
                said += 'bbmd = "192.168.1.3:47808"\n'
        return said + '[[route]]\nnetwork = 300\nport = 2\nnext = "192.168.2.20:47808"\n'

    def belongs(self, port, key):
        """whether an address belongs to the port by its stations"""
        subnet = (address(f"192.168.{port}.0:0"), address(f"192.168.{port}.255:65535"))
        own, all_ = address(f"192.168.{port}.10:47808"), (address(f"192.168.{port}.255:0"), address(f"192.168.{port}.255:65535"))
        return subnet[0] <= key <= subnet[1] and key != own and not all_[0] <= key <= all_[1]

    def shapes(self):
        """of each shape the ranges of each field, None among them where it may be absent, and a test of its asks or None"""
        nets = lambda *without: [(low, high) for low, high in zip([1] + [n + 1 for n in sorted(without)], [n - 1 for n in sorted(without)] + [65534]) if low <= high]
        own = [{"port": [(p, p)], "source_network": [(p, p)], "source": SIX, "sender": SIX} for p in (1, 2)]
        other = {"port": [(1, 2)], "source_network": nets(1, 2, DEVICE), "source": KEYS + [None], "sender": SIX}
        op = lambda name: {"operation": [(NUMBER[name], NUMBER[name])]}
        is_manager = [not self.bbmd, True]
        for p, shape in enumerate(own):
            if is_manager[p]:
                yield {**shape, **op("write-table"), "service": [(769, 769)]}, None
                yield {**shape, **op("read-table"), "service": [(770, 770), (774, 774)]}, None
                yield {**shape, **op("register"), "service": [(773, 773)]}, None
                yield {**shape, **op("delete"), "service": [(776, 776)], "station": SIX}, None
            if self.has_stations[p]:
                yield {**shape, **op("enter")}, lambda ask, p=p: not self.belongs(p + 1, ask["source"])
            yield {**shape, **op("learn"), "service": [(513, 513)], "destination": nets()}, None
            yield {**shape, **op("network"), "service": [(530, 530)]}, None
        yield {**other, **op("claim")}, None
        passed = [(0, 767), (1026, 1031)]
        for shape, ports in [(own[0], [1]), (own[1], [2]), (other, [1, 2])]:
            managers = [p for p in ports if is_manager[p - 1]]
            yield {**shape, **op("network"), "service": [(512, 512)], "destination": nets() + [None]}, None
            if managers:
                there = {"port": [(p, p) for p in managers]}
                yield {**shape, **there, **op("cast"), "service": passed + [None], "destination": [(1, 65535), None], "station": KEYS + [None]}, None
            yield {**shape, **op("route"), "service": passed + [None], "destination": nets(DEVICE), "station": KEYS + [None]}, None
            things = [{}, {"object_type": [(0, 1023)], "instance": [(0, 4194303)], "property": [(0, 4194303)]}]
            for p in ports:
                reach = [(1, 65535), None] if is_manager[p - 1] else [(1, 65534)]
                for thing in things:
                    base = {**shape, "port": [(p, p)], "destination": reach, "station": KEYS + [None], **thing}
                    yield {**base, **op("read"), "service": [(12, 12), (14, 14)]}, None
                    yield {**base, **op("write"), "service": [(15, 15)], **({"priority": [(1, 16)]} if thing else {})}, None
            device = {**shape, **op("list"), "destination": [(DEVICE, DEVICE)]}
            yield {**device, "service": [(263, 263)], "object_type": [(0, 1023)], "instance": [(0, 4194303)], "property": [(77, 77)]}, None
            yield {**device, "service": [(264, 264)], "object_type": [(8, 8)], "instance": [(0, 4194303)], "property": [(75, 75)]}, None


def pick(random, field, is_assertion):
    """an item's text and its range, or the operation's name"""
    if field == "operation":
        names = OPERATIONS + ["read", "write", "route", "cast"] * 3 + (["any-read", "any-write"] * 6 if is_assertion else [])
        name = random.choice(names)
        return f'"{name}"', name if name.startswith("any") else (NUMBER[name], NUMBER[name])
    if field in ("source", "station", "sender"):
        text = random.choice([it for it in STATIONS if field != "sender" or not it.startswith("mac")])
        return f'"{text}"', (KEY_OF[text], KEY_OF[text])
    most = {"port": (1, 3), "source_network": (1, 400), "destination": (1, 401), "service": (0, 1031), "object_type": (0, 20), "instance": (0, 9), "property": (70, 90), "priority": (1, 16)}[field]
    known = {"source_network": [1, 2, 100, 300], "destination": [1, 2, 100, 300, 65535], "service": [5, 12, 14, 15, 16, 20, 26, 263, 264, 1027], "object_type": [5, 8], "property": [75, 77, 85], "port": [1, 2, 2, 1, 3]}
    low = random.choice(known.get(field, [random.randint(*most)]))
    high = low if random.random() < 0.6 else min(low + random.randint(0, most[1] // 3 + 1), 65535 if field == "destination" else most[1] if field != "source_network" else 65534)
    high = max(low, high)
    return (str(low) if low == high else f"[{low}, {high}]"), (low, high)


def made(random):
    site = Site(random)
    fields = ["operation"] + random.sample(FIELDS[1:], random.randint(2, 4))
    rules, assertions = [], []

    def table(is_assertion):
        named = {}
        for field in fields:
            if random.random() < (0.8 if field == "operation" else 0.5):
                named[field] = [pick(random, field, is_assertion) for _ in range(random.randint(1, 3 if field == "operation" else 2))]
        return named

    for at in range(random.randint(1, 6)):
        rules.append((f"r{at + 1}", random.random() < 0.6, table(False)))
    for at in range(random.randint(1, 3)):
        allowed = random.random() < 0.3
        unnamed = random.choice([None, True, False])
        assertions.append((f"a{at + 1}", allowed, (not allowed) if unnamed is None else unnamed, unnamed, table(True)))
    text = site.text()
    keys = lambda named: "".join(f"{field} = [{', '.join(it for it, _ in items)}]\n" for field, items in named.items())
    for name, allow, named in rules:
        text += f'[[rule]]\nname = "{name}"\nallow = {str(allow).lower()}\n{keys(named)}'
    for name, allowed, _, unnamed, named in assertions:
        text += f'[[assert]]\nname = "{name}"\nverdict = "{"allowed" if allowed else "denied"}"\n' + (f"unnamed = {str(unnamed).lower()}\n" if unnamed is not None else "") + keys(named)
    return site, rules, assertions, text


def holds(ranges, value):
    return any(it is not None and not isinstance(it, str) and it[0] <= value <= it[1] for it in ranges)


def matches(named, ask):
    return all(ask.get(field) is not None and holds([it for _, it in items], ask[field]) for field, items in named.items())


def meets(named, unnamed, ask, without=()):
    for field, items in named.items():
        if field == "operation" or field in without:
            continue
        if ask.get(field) is None:
            if not (unnamed and field in MAY_LACK):
                return False
        elif not holds([it for _, it in items], ask[field]):
            return False
    return True


def is_meant(named, unnamed, ask):
    if "operation" not in named:
        return meets(named, unnamed, ask)
    for _, item in named["operation"]:
        if item in ("any-read", "any-write"):
            own, services = ("read", READING) if item == "any-read" else ("write", WRITING)
            if ask["operation"] == NUMBER[own] and meets(named, unnamed, ask):
                return True
            if ask["operation"] in (NUMBER["route"], NUMBER["cast"]) and ask.get("service") in services and meets(named, unnamed, ask, OBJECT):
                return True
        elif item[0] <= ask["operation"] <= item[1] and meets(named, unnamed, ask):
            return True
    return False


def asks(site, rules, assertions):
    """every ask of the shapes that can make a difference"""
    points = collections.defaultdict(set)
    for named in [it[-1] for it in rules + assertions]:
        for field, items in named.items():
            for _, item in items:
                if not isinstance(item, str):
                    points[field] |= {item[0], item[1], item[0] - 1, item[1] + 1}
    if any(isinstance(it, str) for named in [it[-1] for it in assertions] for _, it in named.get("operation", [])):
        points["service"] |= set(WRITING) | set(READING) | {1, 12, 15, 264}
    is_named = set(points)
    for p in (1, 2):
        points["source"] |= {address(f"192.168.{p}.{last}:{udp}") for last, udp in [(0, 0), (10, 47808), (255, 0), (255, 65535), (20, 1)]} | {address(f"192.168.{p}.0:0") - 1}
    for shape, test in site.shapes():
        choices = []
        for field in FIELDS:
            ranges = shape.get(field, [None])
            if field not in is_named and not (field == "source" and test):
                first = ranges[0]
                choices.append([None if first is None else first[0]])
                continue
            found = {it[0] for it in ranges if it is not None} | {it for it in points[field] if holds(ranges, it)} | ({None} if None in ranges else set())
            choices.append(sorted(found, key=lambda it: (it is None, it or 0)))
        for values in itertools.product(*choices):
            ask = dict(zip(FIELDS, values))
            if test is None or test(ask):
                yield ask


def count(site, rules, assertions):
    return sum(1 for _ in itertools.islice(asks(site, rules, assertions), 120_001))


def work(seed):
    dice = random.Random(seed)
    while True:
        site, rules, assertions, text = made(dice)
        if count(site, rules, assertions) <= 120_000:
            break
    found = [{"meant": 0, "breaking": set()} for _ in assertions]
    for ask in asks(site, rules, assertions):
        by = next((rule for rule in rules if matches(rule[2], ask)), None)
        is_allowed = by is not None and by[1]
        for at, (_, allowed, unnamed, _, named) in enumerate(assertions):
            if is_meant(named, unnamed, ask):
                found[at]["meant"] += 1
                if is_allowed != allowed:
                    found[at]["breaking"].add("default" if by is None else by[0])
    with tempfile.NamedTemporaryFile("w", suffix=".toml") as file:
        file.write(text)
        file.flush()
        run = subprocess.run([PROGRAM, "check", "--config", file.name], capture_output=True, text=True, timeout=60)
    said, counts, wrong = {}, collections.Counter(), []
    for line in run.stdout.splitlines():
        parts = re.fullmatch(r'assert (\d+) "([^"]*)": (broken: .* (?:is allowed by|is denied by|is denied) (\S+)|empty: no ask is meant|unknown)', line)
        if parts:
            said[int(parts[1])] = ("broken", parts[4]) if parts[3].startswith("broken") else (parts[3].split(":")[0], None)
        elif not (line.startswith("ok ") and not said):
            wrong.append(f"a line that isn't known: {line}")
    if run.returncode not in (0, 2) or run.stderr or (run.returncode == 2) != bool(said):
        wrong.append(f"status {run.returncode} {run.stderr}")
    for at, it in enumerate(found):
        kind, by = said.get(at + 1, ("holds", None))
        counts[kind] += 1
        if kind == "unknown":
            continue
        true = "empty" if not it["meant"] else "broken" if it["breaking"] else "holds"
        if kind != true or kind == "broken" and by not in it["breaking"]:
            wrong.append(f'assertion {at + 1} is {true} {sorted(it["breaking"])}, and said to be {kind} {by or ""}')
    return seed, counts, wrong, text


if __name__ == "__main__":
    all_counts, bad = collections.Counter(), 0
    with ProcessPoolExecutor(max_workers=int(os.environ.get("JOBS", os.cpu_count()))) as pool:
        for seed, counts, wrong, text in pool.map(work, range(SEED * 1_000_000, SEED * 1_000_000 + POLICIES), chunksize=8):
            all_counts += counts
            if wrong:
                bad += len(wrong)
                print(f"policy {seed}:", *wrong, sep="\n  ")
                if bad < 4:
                    print(text)
    print(", ".join(f"{all_counts[kind]} {kind}" for kind in ("holds", "broken", "empty", "unknown")) + f"; {bad} wrong")
    sys.exit(bad > 0)
PYTHON
