#!/usr/bin/env bash
# What `bacgwctl compare` says, against a judge by brute force: random pairs of policies in each format. The judge knows the shapes of asks and
# the first match alone. It reads the printed lines back, and asks of each ask of the shapes (one for each way in which the ranges of the two
# policies can hold its numbers):
#
#     - it lies in a line exactly if the two policies decide it otherwise;
#     - the line says what becomes of it, and names the two rules that decide it;
#     - each line has such an ask, one of each operation that it names, and one without each field of which it says that it may be absent;
#     - the last line and the exit status are right;
#     - more than 40 lines are in groups by the rules that decide, and the line of each group counts them.
#
# And each example, written in format 3 by `migrate`, is compared with itself: the rules decide alike.
#
# `traffic` looks at datagrams in the place of asks: random sites and edits of any part of them (rules, stations, peers, routes, objects, a
# broadcast manager, who announces, notes, names, which rules are quiet), and the same random events under both, played by `bacgw replay`. Where one line of what
# comes of them differs, but for the name of a rule, `compare` says that something differs; an edit that has no effect, such as another
# spelling of the same stations, has status 0 (or 3, if it is one of the rules, and a rule is quiet).
#
#     bench/compare.sh           # 200 pairs
#     bench/compare.sh 5 9       # 5 pairs, from the seed 9
#     bench/compare.sh lists     # lists as a site has them, of 3 to 512 rules, after an edit: how many lines, in what time and steps
#     bench/compare.sh lists 3   # the same, with 3 lists of each length and edit in the place of 10
#     bench/compare.sh pairs 50 # hostile lists of so many rules, wide but for slits: the comparison is complete by pairs of rules, each
#                               # pair has an ask that shows it, and no random ask is of another pair
#     bench/compare.sh traffic 2000 7   # 2,000 pairs of sites, from the seed 7, with 60 events each
#
# It wants python3 and the programs built, as `./bacgw prove` leaves them; BACGWCTL and BACGW name other ones, with their words.
set -euo pipefail

top=$(cd "$(dirname "$0")/.." && pwd)
exec python3 - "$top" "${BACGWCTL:-$top/crates/bacgwctl/out/bacgwctl}" "${BACGW:-$top/crates/bacgw/out/bacgw}" "${1:-200}" "${@:2}" <<'PYTHON'
import copy
import itertools
import random
import re
import statistics
import subprocess
import sys
import tempfile
import time
from collections import Counter
from pathlib import Path

top, program, player, mode, more = Path(sys.argv[1]), sys.argv[2].split(), sys.argv[3].split(), sys.argv[4], sys.argv[5:]
# How many regions are printed without groups at most.
UNGROUPED = 40
MOST = 2**64 - 1
FIELDS = [
    "operation", "port", "source_network", "source", "destination", "service",
    "object_type", "instance", "property", "priority", "sender", "station",
]
OPERATIONS = [
    "cast", "route", "register", "delete", "read-table", "write-table", "learn", "network", "read", "write", "list", "enter", "claim",
]
NUMBER = {name: number for number, name in enumerate(OPERATIONS, 1)}
PORTS = [1, 2]
DEVICE = 100
# The numbers that the rules of a random policy name, by field.
SOME = {
    "port": [1, 2],
    "source_network": [1, 2, 3, 100],
    "source": [0x0A0101050000 + 47808, 0x0A0101060000 + 47808, 0x0A0201090000 + 47808],
    "destination": [1, 2, 7, 100, 65535],
    "service": [8, 12, 14, 15, 263, 770, 776],
    "object_type": [2, 5, 8],
    "instance": [1, 2, 3, 4],
    "property": [28, 77, 85],
    "priority": [1, 8, 16],
    "sender": [0x0A0101050000 + 47808, 0x0A0201090000 + 47808],
    "station": [0x0A0101050000 + 47808, 7],
}


# ---- shapes, as docs and `gw_ask_sets::shapes` have them: a side is whether the field may be absent, and its least and greatest number

NOTHING = (True, None)
# The least and the greatest number that a datagram can carry in a field.
BOUNDS = {
    "source": (0, 2**48 - 1), "sender": (0, 2**48 - 1), "station": (0, 2**48 - 1), "destination": (1, 65535),
    "object_type": (0, 1023), "instance": (0, 2**22 - 1), "property": (0, 2**22 - 1), "priority": (1, 16),
}
NETWORK, NETWORK_OR_NONE = (False, (1, 65534)), (True, (1, 65534))
REQUEST_OR_MESSAGE, ANSWER = (True, (0, 767)), (False, (1026, 1031))


# Keys of stations of one to seven octets, as format 3 has them: the length in front, but of six octets the number alone.
KEYS = (0, 8 * 2**56 - 1)


def is_key(number):
    length, octets = divmod(number, 2**56)
    return number < 2**48 or length in (1, 2, 3, 4, 5, 7) and octets < 256**length


def some(field):
    return (False, BOUNDS[field])


def perhaps(field):
    return (True, BOUNDS[field])


def only(low, high=None):
    return (False, (low, low if high is None else high))


def shape(origin, operation, service, destination=NOTHING, named=False, station=NOTHING, **others):
    port, network, source, sender = origin
    names = [some(it) if named else NOTHING for it in ("object_type", "instance", "property")]
    priority = some("priority") if named and operation == "write" else NOTHING
    sides = [only(NUMBER[operation]), port, network, source, destination, service, *names, priority, sender, station]
    return {**dict(zip(FIELDS, sides)), **others}


def shapes_of(form):
    third = form == 3
    sender = some("sender") if third else NOTHING
    aimed = (True, KEYS) if third else NOTHING

    def tables(it):
        yield shape(it, "write-table", only(769))
        yield shape(it, "read-table", only(770))
        yield shape(it, "register", only(773))
        yield shape(it, "read-table", only(774))
        yield shape(it, "delete", only(776), station=some("station") if third else NOTHING)

    def near(it):
        yield shape(it, "learn", only(513), NETWORK)
        yield shape(it, "network", only(530))

    def messages(it):
        for services in (REQUEST_OR_MESSAGE, ANSWER):
            yield shape(it, "cast", services, perhaps("destination"), station=aimed)
            yield shape(it, "route", services, NETWORK, station=aimed)
        yield shape(it, "network", only(512), NETWORK_OR_NONE)
        for operation, service in [("read", 12), ("read", 14), ("write", 15)]:
            yield shape(it, operation, only(service), only(DEVICE), True)
        yield shape(it, "list", only(263), only(DEVICE), True, property=only(77))
        yield shape(it, "list", only(264), only(DEVICE), True, object_type=only(8), property=only(75))

    def requests(it):
        if form == 1:
            return
        to = perhaps("destination") if third else NETWORK
        for operation, service in [("read", 12), ("read", 14), ("write", 15)]:
            yield shape(it, operation, only(service), to, station=aimed)
            yield shape(it, operation, only(service), to, True, aimed)

    for number, network in enumerate(PORTS, 1):
        it = (only(number), only(network), some("source"), sender)
        yield from tables(it)
        if third:
            yield shape(it, "enter", NOTHING)
        yield from near(it)
        yield from messages(it)
        yield from requests(it)
    start = 1
    for network in [*sorted({*PORTS, DEVICE}), 65535]:
        if start < network:
            it = (only(1, len(PORTS)), only(start, network - 1), (True, KEYS) if third else perhaps("source"), sender)
            if third:
                yield shape(it, "claim", NOTHING)
            yield from messages(it)
            yield from requests(it)
        start = network + 1


# ---- policies

def random_rule(dice, number, form):
    fields = [it for it in FIELDS[1:] if form == 3 or it not in ("sender", "station")]
    ranges = {}
    if dice.random() < 0.8:
        operations = OPERATIONS if form == 3 else OPERATIONS[:11]
        ranges["operation"] = [(it, it) for it in sorted({NUMBER[dice.choice(operations)] for _ in range(dice.randint(1, 2))})]
    for field in dice.sample(fields, dice.choice([0, 0, 1, 1, 2, 2, 3])):
        made = []
        for _ in range(dice.choice([1, 1, 2])):
            # A rule of formats 1 and 2 can't name the global network.
            some = [it for it in SOME[field] if form == 3 or it != 65535]
            low, high = sorted(dice.choice(some) for _ in range(2))
            made.append((low, high))
        ranges[field] = made
    return {"name": f"r{number}", "allow": dice.random() < 0.5, "ranges": ranges}


def other_policy(dice, rules, form):
    """The policy after some edits, or another one."""
    rules = [dict(it) for it in rules]
    for _ in range(dice.randint(1, 3)):
        deed = dice.choice(["add", "remove", "turn", "swap", "edit"])
        place = dice.randrange(len(rules)) if rules else 0
        if deed == "add" or not rules:
            rules.insert(place, random_rule(dice, 50 + len(rules), form))
        elif deed == "remove":
            del rules[place]
        elif deed == "turn":
            rules[place]["allow"] = not rules[place]["allow"]
        elif deed == "swap":
            at = dice.randrange(len(rules))
            rules[place], rules[at] = rules[at], rules[place]
        else:
            rules[place] = {**random_rule(dice, 0, form), "name": rules[place]["name"]}
    for number, it in enumerate(rules):
        it["name"] = f"r{number}"
    return rules


def key_text(key):
    octets = key.to_bytes(6, "big")
    return '"' + ".".join(map(str, octets[:4])) + f":{int.from_bytes(octets[4:], 'big')}\""


def end_text(field, number):
    if field == "operation":
        return f'"{OPERATIONS[number - 1]}"'
    return key_text(number) if field in ("source", "sender", "station") else str(number)


def text_of(rules, form, ports=PORTS):
    head = (top / "examples" / "base.toml").read_text(encoding="utf-8").split("[[port]]")[0]
    lines = [re.sub(r"^format = \d$", f"format = {form}", re.sub(r"^network = \d+$", f"network = {DEVICE}", head, flags=re.M), flags=re.M)]
    for network in ports:
        lines.append(f'[[port]]\nnetwork = {network}\naddress = "10.{network}.1.1:47808"\nbroadcast = "10.{network}.255.255:47808"\n')
    for it in rules:
        lines.append(f'[[rule]]\nname = "{it["name"]}"\nallow = {str(it["allow"]).lower()}')
        for field, ranges in it["ranges"].items():
            if field == "operation":
                said = ", ".join(end_text(field, low) for low, _ in ranges)
            else:
                said = ", ".join(f"[{end_text(field, low)}, {end_text(field, high)}]" for low, high in ranges)
            lines.append(f"{field} = [{said}]")
        lines.append("")
    return "\n".join(lines)


def holds(ranges, number):
    return number is not None and any(low <= number <= high for low, high in ranges)


def decide(rules, ask):
    for it in rules:
        if all(holds(ranges, ask[field]) for field, ranges in it["ranges"].items()):
            return it["allow"], it["name"]
    return False, "default"


# ---- asks: one for each way in which the ranges of the policies and of the lines can hold its numbers

def values_within(side, cuts):
    absent, bounds = side
    out = [None] if absent else []
    if bounds is not None:
        low, high = bounds
        found = {low, *(it for it in cuts if low <= it <= high)}
        if bounds == KEYS:
            found = {it for it in found | {2**56} if is_key(it)}
        out += sorted(found)
    return out


def asks_of(form, regions, *policies):
    cuts = {it: set() for it in FIELDS}
    for it in [*(rule["ranges"] for rules in policies for rule in rules), *({f: v[1] for f, v in region.items()} for region in regions)]:
        for field, ranges in it.items():
            for low, high in ranges:
                cuts[field] |= {low, high + 1}
    for sides in shapes_of(form):
        choices = [values_within(sides[it], cuts[it]) for it in FIELDS]
        for values in itertools.product(*choices):
            yield dict(zip(FIELDS, values))


# ---- the printed lines

WORDS = [
    ("from network ", "source_network"), ("to network ", "destination"), ("type ", "object_type"), ("instance ", "instance"),
    ("property ", "property"), ("priority ", "priority"), ("service ", "service"), ("port ", "port"), ("sender ", "sender"),
    ("from ", "source"), ("to ", "station"),
]
NOUNS = {
    "source network": "source_network", "source": "source", "destination": "destination", "type": "object_type", "station": "station",
    **{it: it for it in ("port", "service", "instance", "property", "priority", "sender")},
}


def number_of(text):
    found = re.fullmatch(r"(\d+)\.(\d+)\.(\d+)\.(\d+):(\d+)", text)
    if text.startswith("mac:"):
        return len(text[4:]) // 2 * 2**56 + int(text[4:], 16)
    if not found:
        return int(text)
    a, b, c, d, port = map(int, found.groups())
    return int.from_bytes(bytes([a, b, c, d]), "big") * 65536 + port


def host_of(text):
    return int.from_bytes(bytes(map(int, text.split("."))), "big")


def subnet_of(text):
    """The keys of an IPv4 address or a subnet at every UDP port, or none if the text is neither."""
    found = re.fullmatch(r"(\d+\.\d+\.\d+\.\d+)(?:/(\d+))?", text)
    if not found:
        return None
    size = 2 ** (32 - int(found[2] or 32))
    low = host_of(found[1])
    assert low % size == 0 and found[2] != "32", text
    return low * 65536, (low + size) * 65536 - 1


def others_of(ranges):
    """The numbers of none of these."""
    out, low = [], 0
    for one in sorted(ranges):
        out.append((low, one[0] - 1))
        low = one[1] + 1
    return [it for it in [*out, (low, MOST)] if it[0] <= it[1]]


def values_of(text):
    if text.startswith("not "):
        return True, others_of(map(subnet_of, text[4:].split(" and not ")))
    if text.startswith("any but "):
        return False, others_of(map(subnet_of, text[8:].split(" and ")))
    absent, ranges = False, []
    for part in re.sub(r"(\S+) or more", r"\1..more", text).split(" or "):
        part = part.split(" ")[0]
        if part == "none":
            absent = True
        elif ".." in part:
            low, high = part.split("..")
            ranges.append((number_of(low), MOST if high == "more" else number_of(high)))
        elif subnet_of(part):
            ranges.append(subnet_of(part))
        else:
            ranges.append((number_of(part), number_of(part)))
    return absent, ranges


def region_of(text):
    operations, *items = text.split(", ")
    out = {}
    if operations != "any operation":
        out["operation"] = (False, [(NUMBER[it], NUMBER[it]) for it in operations.split(" or ")])
    for item in items:
        if item.startswith("without "):
            out[NOUNS[item[8:]]] = (True, [])
            continue
        word, field = next(it for it in WORDS if item.startswith(it[0]))
        assert field not in out, item
        out[field] = values_of(item[len(word):])
    return out


LINE = re.compile(r"now (allowed|denied): (.*), by (.*) \(was (allowed|denied) by (.*)\)")
# Where a rule's table is, if it has another number than the rule.
PLACE = re.compile(r" \(table \d+(?:, line \d+)?\)")


def line_of(text):
    found = LINE.fullmatch(PLACE.sub("", text))
    assert found and found[1] != found[4], text
    return found[1] == "allowed", region_of(found[2]), set(found[3].split(" or ")), set(found[5].split(" or "))


HEAD = re.compile(r"(\d+) kinds?: now (allowed|denied) by (.*) \((?:was|were) (allowed|denied) by (.*)\)")


def without_heads(said):
    """The lines of the regions, after those of their groups are judged."""
    heads = list(itertools.takewhile(HEAD.fullmatch, said))
    lines = said[len(heads):]
    groups = [(it[1], it[3], it[4], it[5]) for it in map(LINE.fullmatch, lines)]
    if len(lines) <= UNGROUPED:
        assert not heads
        return lines
    counted = Counter(groups)
    assert [it for it, _ in itertools.groupby(groups)] == list(counted), "the groups aren't one after the other"
    told = [(it[2], it[3], it[4], it[5], int(it[1])) for it in map(HEAD.fullmatch, heads)]
    assert told == [(*it, counted[it]) for it in counted], f"the counts: {heads}"
    return lines


def lies(region, ask):
    return all(absent if ask[field] is None else holds(ranges, ask[field]) for field, (absent, ranges) in region.items())


def compare(old, new, *words):
    done = subprocess.run([*program, "compare", "--config", str(old), "--with", str(new), *words], stdin=subprocess.DEVNULL, capture_output=True, text=True)
    return done.returncode, done.stdout.splitlines(), done.stderr


OTHER_PARTS = "the rules decide alike, but other parts differ"


def of_names(old, new):
    """The lines on rules that are new or gone."""
    olds, news = [it["name"] for it in old], [it["name"] for it in new]
    return [f"rule {it} is new" for it in news if it not in olds] + [f"rule {it} is gone" for it in olds if it not in news]


def ending(count, parts=()):
    if count == 0:
        return OTHER_PARTS if parts else "no ask is decided otherwise"
    return ("1 kind of asks is" if count == 1 else f"{count} kinds of asks are") + " decided otherwise, and no other"


def judge(room, dice, number):
    form = dice.choice([1, 2, 3])
    old = [random_rule(dice, it, form) for it in range(dice.randint(1, 5))]
    new = other_policy(dice, old, form)
    files = [room / "old.toml", room / "new.toml"]
    for path, rules in zip(files, [old, new]):
        path.write_text(text_of(rules, form), encoding="utf-8")
    status, said, wrong = compare(*files)
    where = f"pair {number}, format {form}"
    assert not wrong and status in (0, 1, 3), f"{where}: {status} {wrong}"
    parts = of_names(old, new)
    assert said[:len(parts)] == parts, f"{where}: {said}"
    said = said[len(parts):]
    lines = [line_of(it) for it in without_heads(said[:-1])]
    assert said[-1] == ending(len(lines), parts) and status == (1 if lines else 3 if parts else 0), f"{where}: {said[-1]}"
    assert [it[0] for it in lines] == sorted((it[0] for it in lines), reverse=True), f"{where}: the order"
    has, lacked, asked, count = [False] * len(lines), set(), set(), 0
    for ask in asks_of(form, [it[1] for it in lines], old, new):
        count += 1
        (was, by_old), (now, by_new) = decide(old, ask), decide(new, ask)
        found = [it for it, line in enumerate(lines) if lies(line[1], ask)]
        assert bool(found) == (was != now), f"{where}: {ask} was {was} by {by_old}, now {now} by {by_new}, lies in {found}\n" + "\n".join(said)
        for it in found:
            has[it] = True
            asked.add((it, ask["operation"]))
            allowed, region, news, olds = lines[it]
            lacked |= {(it, field) for field in region if ask[field] is None}
            assert allowed == now and by_new in news and by_old in olds, f"{where}: {ask}: {said[it]}"
    assert all(has), f"{where}: a line without an ask\n" + "\n".join(said)
    absent = {(it, field) for it, line in enumerate(lines) for field, values in line[1].items() if values[0]}
    named = {(it, low) for it, line in enumerate(lines) for low, _ in line[1].get("operation", (False, []))[1]}
    assert named <= asked, f"{where}: no ask of an operation {named - asked}\n" + "\n".join(said)
    assert absent <= lacked, f"{where}: no ask lacks {absent - lacked}\n" + "\n".join(said)
    return count, len(lines)


def judge_pairs(room, pairs, seed):
    dice = random.Random(seed)
    asks = lines = 0
    for number in range(pairs):
        count, found = judge(room, dice, number)
        asks, lines = asks + count, lines + found
    print(f"{pairs} pairs of policies: {asks} asks, {lines} lines, all as the judge says")
    examples = 0
    for path in sorted((top / "examples").glob("*.toml")):
        made = subprocess.run([*program, "migrate", "--config", str(path)], stdin=subprocess.DEVNULL, capture_output=True, text=True)
        if made.returncode:
            continue
        third = room / "third.toml"
        third.write_text(made.stdout, encoding="utf-8")
        status, said, _ = compare(path, third)
        assert (status, len(said), said[-1]) == (3, 2, OTHER_PARTS) and said[0].startswith("format: 3, was "), f"{path.name}: {said}"
        examples += 1
    print(f"{examples} examples, each with itself in format 3: the rules decide alike")


# ---- lists as a site has them

NETWORKS = [1, 2, 3, 4]
EDITS = ["one rule added", "two swapped", "a range widened", "one removed", "one turned", "ten edits", "second half new"]


def key_of(network, host):
    return int.from_bytes(bytes([10, network, host // 256, host % 256]), "big") * 65536 + 47808


def site_rule(dice):
    """A rule as people write them: points hidden or kept to a network, workstations that write, subnets that read, routes, services."""
    network, host = dice.choice(NETWORKS), dice.randrange(2, 2000)
    kind, first = dice.choice([0, 1, 2, 3, 4, 5, 8, 19]), dice.randrange(1, 400)
    points = [(first, first + dice.choice([0, 0, 4, 20]))]
    allow, ranges = dice.choice([
        (False, {"operation": ["read"], "object_type": [(kind, kind)], "instance": points}),
        (True, {"operation": ["read"], "source_network": [(network, network)], "object_type": [(kind, kind)], "instance": points}),
        (False, {"operation": ["read", "write"], "object_type": [(kind, kind)], "property": [(dice.choice([28, 77, 81, 104]),) * 2]}),
        (True, {"operation": ["write"], "source_network": [(network, network)], "source": [(key_of(network, host),) * 2],
                "object_type": [(kind, kind)], "instance": points, "property": [(85, 85)], "priority": [(dice.choice([8, 10, 13]), 16)]}),
        (True, {"operation": ["read"], "source_network": [(network, network)], "source": [(key_of(network, host), key_of(network, host + 255))]}),
        (dice.random() < 0.7, {"operation": ["route"], "source_network": [(network, network)], "destination": [(dice.choice(NETWORKS),) * 2]}),
        (dice.random() < 0.7, {"operation": ["register"], "port": [(network, network)], "source": [(key_of(network, host),) * 2]}),
        (False, {"operation": ["cast", "route"], "service": [(dice.choice([256, 257, 258, 263, 264]),) * 2], "source_network": [(network, network)]}),
    ])
    return {"allow": allow, "ranges": {**ranges, "operation": [(NUMBER[it],) * 2 for it in ranges["operation"]]}}


def operations_rule(allow, *operations):
    return {"allow": allow, "ranges": {"operation": [(NUMBER[it],) * 2 for it in operations]} if operations else {}}


def site_list(dice, length):
    tail = dice.choice([
        [operations_rule(False, "read-table", "write-table"), operations_rule(False, "write"), operations_rule(True)],
        [operations_rule(True, "read"), operations_rule(True, "cast", "route", "list", "network")],
    ])
    return [site_rule(dice) for _ in range(length - len(tail))] + tail


def widened(dice, rule):
    named = [it for it in rule["ranges"] if it != "operation"]
    if not named:
        return {**rule, "allow": not rule["allow"]}
    field = dice.choice(named)
    (low, high), *more = rule["ranges"][field]
    # No priority is over 16.
    return {**rule, "ranges": {**rule["ranges"], field: [(max(1, low - 1), high if field == "priority" else high + 3), *more]}}


def edited(dice, rules, edit):
    rules = list(rules)
    place = dice.randrange(len(rules))
    if edit == "one rule added":
        rules.insert(place, site_rule(dice))
    elif edit == "two swapped":
        other = dice.randrange(len(rules))
        rules[place], rules[other] = rules[other], rules[place]
    elif edit == "a range widened":
        rules[place] = widened(dice, rules[place])
    elif edit == "one removed":
        del rules[place]
    elif edit == "one turned":
        rules[place] = {**rules[place], "allow": not rules[place]["allow"]}
    elif edit == "ten edits":
        for _ in range(10):
            rules = edited(dice, rules, dice.choice(EDITS[:5])) or rules
    else:
        half = len(rules) // 2
        rules = rules[:half] + site_list(dice, len(rules) - half)
    # A policy has 512 rules at most.
    return rules[-512:]


def named(rules):
    return [{**it, "name": f"r{number}"} for number, it in enumerate(rules)]


def shown(numbers, form):
    return f"{form.format(statistics.median(numbers))} / {form.format(max(numbers))}"


def measure(room, dice, length, edit, lists):
    """The kinds that are found, the seconds and the steps that it takes; and how many comparisons weren't finished."""
    kinds, seconds, steps, unfinished = [], [], [], 0
    files = [room / "old.toml", room / "new.toml"]
    for _ in range(lists):
        old = site_list(dice, length)
        for path, rules in zip(files, [old, edited(dice, old, edit)]):
            path.write_text(text_of(named(rules), 2, NETWORKS), encoding="utf-8")
        start = time.monotonic()
        status, said, wrong = compare(*files, "--steps")
        seconds.append(time.monotonic() - start)
        assert status in (0, 1, 3) and not wrong, f"{length} rules, {edit}: {status} {wrong}"
        steps.append(int(said.pop().split()[0]))
        count = re.search(r"(\d+) kinds? of asks", said[-1])
        kinds.append(int(count[1]) if count else 0)
        unfinished += said[-1].startswith("not finished")
    return kinds, seconds, unfinished, steps


def measure_lists(room, lists, seed):
    print("| Rules | " + " | ".join(EDITS) + " |")
    print("|---|" + "---|" * len(EDITS))
    for length in [3, 20, 50, 200, 512]:
        dice = random.Random(seed * 1000 + length)
        found = [measure(room, dice, length, edit, lists) for edit in EDITS]
        print(f"| {length}, kinds | " + " | ".join(shown(it[0], "{:.0f}") for it in found) + " |")
        print(f"| {length}, seconds | " + " | ".join(shown(it[1], "{:.2f}") for it in found) + " |", flush=True)
        print(f"| {length}, steps | " + " | ".join(shown(it[3], "{:.0f}") for it in found) + " |", flush=True)
        left = [f"{it[2]} of {lists} ({edit})" for it, edit in zip(found, EDITS) if it[2]]
        if left:
            print(f"{length} rules, not finished: " + ", ".join(left), file=sys.stderr)


# ---- hostile lists

PAIR_LINE = re.compile(r"now (allowed|denied) by (\S+) \(was (allowed|denied) by (\S+)\), for one:(.*)")


def slit_rule(dice, width):
    """A rule that takes all but a slit of each of four fields."""
    out = {}
    for field in dice.sample(["source_network", "source", "destination", "service", "object_type", "instance", "property", "priority"], 4):
        low, high = {"source_network": (1, 65534), "destination": (1, 65534), "service": (0, 1031)}.get(field) or BOUNDS[field]
        slit = max(1, (high - low) // width)
        at = dice.randrange(low + 1, high - slit)
        out[field] = [(low, at - 1), (at + slit, high)]
    return {"allow": dice.random() < 0.5, "ranges": out}


def asked(text):
    out = dict.fromkeys(FIELDS)
    for item in text.split():
        field, value = item.split("=")
        if value != "-":
            out[field] = NUMBER[value] if field == "operation" else number_of(value)
    return out


def near(dice, rules):
    """A random ask of the shapes, with numbers at the ends of the rules' ranges."""
    sides = dice.choice(SHAPES)
    out = {}
    for field, (absent, span) in sides.items():
        numbers = [it for rule in rules for low, high in rule["ranges"].get(field, []) for it in (low - 1, low, high, high + 1) if span and span[0] <= it <= span[1]]
        choices = ([None] if absent else []) + ([dice.randint(*span)] if span else []) + ([dice.choice(numbers)] if numbers else [])
        out[field] = dice.choice(choices)
    return out


SHAPES = list(shapes_of(2))


def is_of(sides, ask):
    return all(absent if ask[field] is None else span and span[0] <= ask[field] <= span[1] for field, (absent, span) in sides.items())


def judge_hostile(room, length, seed):
    dice = random.Random(seed)
    for place in ["last", "first"]:
        old = [slit_rule(dice, 50) for _ in range(length)]
        new = old + [slit_rule(dice, 50)] if place == "last" else [slit_rule(dice, 50)] + old
        files = [room / "old.toml", room / "new.toml"]
        lists = [[{**it, "name": f"{letter}{number}"} for number, it in enumerate(rules)] for letter, rules in [("o", old), ("n", new)]]
        for path, rules in zip(files, lists):
            path.write_text(text_of(rules, 2), encoding="utf-8")
        start = time.monotonic()
        status, said, wrong = compare(*files, "--most", "1000000")
        seconds = time.monotonic() - start
        found = {(it[4], it[2]): (it[1], it[3], asked(it[5])) for it in (PAIR_LINE.fullmatch(PLACE.sub("", line)) for line in said) if it}
        # If no ask is decided otherwise, only the names of the rules differ.
        assert (status == 1 or status == 3 and not found) and not wrong, (status, wrong)
        for (was, now), (verdict, before, ask) in found.items():
            assert verdict != before and any(is_of(sides, ask) for sides in SHAPES), ask
            assert decide(lists[0], ask) == (before == "allowed", was) and decide(lists[1], ask) == (verdict == "allowed", now), (was, now, ask)
        if said[-1].startswith("pairs"):
            assert said[-1] == f"pairs of rules that decide asks otherwise: {len(found)}, and no other", said[-1]
        for _ in range(20000):
            ask = near(dice, lists[0] + lists[1])
            (before, was), (after, now) = decide(lists[0], ask), decide(lists[1], ask)
            assert before == after or status == 1 and not said[-1].startswith("pairs") or (was, now) in found, (was, now, ask)
        print(f"{length} rules, one added {place}: {len(found)} pairs, {seconds:.1f} s, {said[-1]}", flush=True)


# ---- what comes of datagrams


def random_site(dice):
    """A site of two subnets in format 3, with a router to a network at each port."""
    ports = [{"stations": [f"10.{it}.0.0/17"], "bbmd": None, "peers": []} for it in PORTS]
    for number, port in enumerate(ports, 1):
        if dice.random() < 0.4:
            port["stations"].append(dice.choice([f"10.{number}.128.0/17", f"10.{number + 4}.0.0/16", "172.16.0.0/12"]))
        if dice.random() < 0.3:
            port["bbmd"] = f"10.{number}.1.3:47808"
        elif dice.random() < 0.5:
            port["peers"] = [[f"10.{number + 4}.1.1:47808", dice.choice(["255.255.255.255", "255.255.0.0"])]]
    rules = [random_rule(dice, it, 3) for it in range(dice.randint(1, 4))] + [{"name": "rest", "allow": dice.random() < 0.8, "ranges": {}}]
    for rule in rules:
        rule["quiet"] = dice.random() < 0.3
    return {
        "name": "gateway", "announce": dice.random() < 0.5, "ports": ports, "rules": rules, "notes": {}, "audits": [],
        "routes": [[300, 1, "10.1.1.20:47808"]] if dice.random() < 0.6 else [],
        "objects": [[5, 1, "point", 1], [45, 1, "level", 3]][: dice.randint(0, 2)],
    }


def edit_rules(dice, site):
    rules = other_policy(dice, site["rules"], 3)
    for rule in rules:
        site["notes"].pop(rule["name"], None)
    site["rules"], site["audits"] = rules, []


def edit_stations(dice, site):
    stations = dice.choice(site["ports"])["stations"]
    if len(stations) > 1 and dice.random() < 0.5:
        stations.pop()
    else:
        stations.append(dice.choice(["10.7.0.0/16", "10.1.1.5/32", "192.168.0.0/16"]))


def spell_stations(dice, site):
    """The same addresses as two halves."""
    for port in site["ports"]:
        address, length = port["stations"][0].split("/")
        octets = [int(it) for it in address.split(".")]
        half = int.from_bytes(octets, "big") + (1 << (31 - int(length)))
        halves = [address, ".".join(str(it) for it in half.to_bytes(4, "big"))]
        port["stations"][0:1] = [f"{it}/{int(length) + 1}" for it in dice.sample(halves, 2)]


def spell_rules(dice, site):
    """A range as its two halves: the same asks."""
    for rule in site["rules"]:
        for field, ranges in rule["ranges"].items():
            low, high = ranges[0]
            if field != "operation" and high > low:
                ranges[0:1] = [(low, low), (low + 1, high)]


def edit_manager(dice, site):
    number = dice.choice(PORTS)
    port = site["ports"][number - 1]
    port["peers"], port["bbmd"] = [], dice.choice([it for it in (None, f"10.{number}.1.3:47808", f"10.{number}.1.4:47808") if it != port["bbmd"]])


def edit_peers(dice, site):
    number = dice.choice(PORTS)
    port = site["ports"][number - 1]
    if port["bbmd"] is None:
        port["peers"] = [] if port["peers"] else [[f"10.{number + 4}.1.1:47808", "255.255.255.255"]]


def edit_routes(dice, site):
    site["routes"] = dice.choice([[], [[300, 1, "10.1.1.20:47808"]], [[300, 2, "10.2.1.20:47808"]], [[300, 1, "10.1.1.21:47808"]]])


def edit_objects(dice, site):
    if site["objects"] and dice.random() < 0.5:
        dice.choice(site["objects"])[3] ^= 1
    else:
        site["objects"] = [] if site["objects"] else [[5, 1, "point", 0]]


def edit_small(dice, site):
    kind = dice.choice(["name", "announce", "note", "audit", "quiet"])
    if kind == "name":
        site["name"] = "another"
    elif kind == "announce":
        site["announce"] = not site["announce"]
    elif kind == "note":
        site["notes"][dice.choice(site["rules"])["name"]] = "why"
    elif kind == "quiet":
        rule = dice.choice(site["rules"])
        rule["quiet"] = not rule.get("quiet")
    else:
        site["audits"] = [dice.choice(site["rules"])["name"]]


# Each edit, and whether it leaves what has an effect as it was.
SITE_EDITS = [
    (edit_rules, False), (edit_stations, False), (edit_manager, False), (edit_peers, False), (edit_routes, False), (edit_objects, False),
    (edit_small, False), (spell_stations, True), (spell_rules, True),
]


def is_quiet(rule):
    """Whether a rule keeps what it denies out of the log."""
    return rule.get("quiet", False) and not rule["allow"]


def site_text(site):
    lines = [f"format = 3\nannounce = {str(site['announce']).lower()}\n[device]\nnetwork = {DEVICE}\ninstance = 7\nname = \"{site['name']}\""]
    lines.append('vendor = 1\nvendor_name = "x"\nmodel = "x"\nfirmware = "x"\nsoftware = "x"\nrevision = 12\ndatabase = 1')
    for number, port in enumerate(site["ports"], 1):
        lines.append(f'[[port]]\nnetwork = {number}\naddress = "10.{number}.1.1:47808"\nbroadcast = "10.{number}.127.255:47808"')
        lines.append("stations = [" + ", ".join(f'"{it}"' for it in port["stations"]) + "]")
        if port["bbmd"]:
            lines.append(f'bbmd = "{port["bbmd"]}"')
        for address, mask in port["peers"]:
            lines.append(f'[[port.peer]]\naddress = "{address}"\nmask = "{mask}"')
    for network, port, hop in site["routes"]:
        lines.append(f'[[route]]\nnetwork = {network}\nport = {port}\nnext = "{hop}"')
    for kind, instance, name, default in site["objects"]:
        unit = "\nunits = 95" if kind == 45 else ""
        lines.append(f'[[object]]\ntype = {kind}\ninstance = {instance}\nname = "{name}"\ndefault = {default}{unit}')
    for rule in site["rules"]:
        lines.append(f'[[rule]]\nname = "{rule["name"]}"\nallow = {str(rule["allow"]).lower()}')
        if is_quiet(rule):
            lines.append("quiet = true")
        if rule["name"] in site["notes"]:
            lines.append(f'note = "{site["notes"][rule["name"]]}"')
        if rule["name"] in site["audits"]:
            lines.append("audit = true")
        for field, ranges in rule["ranges"].items():
            if field == "operation":
                said = ", ".join(end_text(field, low) for low, _ in ranges)
            else:
                said = ", ".join(f"[{end_text(field, low)}, {end_text(field, high)}]" for low, high in ranges)
            lines.append(f"{field} = [{said}]")
    return "\n".join(lines) + "\n"


def random_event(dice):
    """A line of a script: a request or an answer, who asks for a network or tells of one, or a frame for the tables."""
    if dice.random() < 0.05:
        return "tick"
    port = dice.choice(PORTS)
    sender = dice.choice([f"10.{port}.1.5", f"10.{port}.1.20", f"10.{port}.200.9", f"10.{port + 4}.1.1", f"10.{port}.1.3", f"10.{3 - port}.1.9", "172.16.0.9"])
    other = f"0A0{3 - port}0109BAC0"
    target = dice.choice(["00640101FF", f"{3 - port:04X}06{other}FF", "012C0107FF", "FFFF00FF", f"{3 - port:04X}00FF", ""])
    source = dice.choice(["", "", "", "012C0107", f"{3 - port:04X}06{other}"])
    control = (0x20 if target else 0) | (0x08 if source else 0)
    named = dice.choice(["0C01400001", "0C0B400001", "0C02000007"])
    bodies = [f"00050{dice.randrange(8)}0C{named}1955", f"00050{dice.randrange(8)}0F{named}19553E91013F4908", "1008", "1000C4020000072205C4910322" + "0001"]
    bodies += [f"30{dice.randrange(8):02X}0C{named}19553E91013F", f"20{dice.randrange(8):02X}0F"]
    body = dice.choice(bodies)
    if target:
        npdu = f"01{control:02X}{target[:-2]}{source}FF{body}"
    else:
        npdu = f"01{control:02X}{source}{body}"
    if dice.random() < 0.15:
        npdu = dice.choice(["018000", "0180000064", "0180010258", "018001012C", "018012"])
    frames = [("0A", npdu), ("0B", npdu), ("09", npdu), ("04", f"0A0{port}0105BAC0{npdu}")]
    frames += [("05", "003C"), ("02", ""), ("06", ""), ("01", "0A050101BAC0FFFFFFFF"), ("08", f"0A0{port}01C8BAC0")]
    function, content = dice.choices(frames, (40, 25, 4, 6, 3, 1, 1, 1, 1))[0]
    return f"{port} {sender}:47808 81{function}{len(content) // 2 + 4:04X}{content}"


def played(path, script):
    """What comes of the events, a line each, without the names of rules."""
    done = subprocess.run([*player, "replay", "--config", str(path)], input=script, capture_output=True, text=True)
    assert done.returncode == 0, f"{done.stderr}{path.read_text(encoding='utf-8')}"
    return [re.sub(r" rule=\S+", "", it) for it in done.stdout.splitlines()]


def judge_site(room, dice, number):
    """Whether the traffic of a pair of sites differs, and the status of the comparison."""
    old = random_site(dice)
    new, edits = copy.deepcopy(old), dice.sample(SITE_EDITS, dice.choice([1, 1, 2]))
    for edit, _ in edits:
        edit(dice, new)
    files = [room / "old.toml", room / "new.toml"]
    for path, site in zip(files, [old, new]):
        path.write_text(site_text(site), encoding="utf-8")
    script = "".join(random_event(dice) + "\n" for _ in range(60))
    differs = played(files[0], script) != played(files[1], script)
    status, said, wrong = compare(*files)
    where = f"site {number}, {', '.join(edit.__name__ for edit, _ in edits)}"
    assert not wrong and status in (0, 1, 3), f"{where}: {status} {wrong}"
    assert not differs or status != 0, f"{where}: the traffic differs\n" + "\n".join(said)
    # where a rule is quiet, another spelling of the rules may log otherwise, as far as the comparison looks
    least = (0, 3) if any(is_quiet(rule) for site in (old, new) for rule in site["rules"]) else (0,)
    assert status in least or not all(same for _, same in edits), f"{where}: {status}\n" + "\n".join(said)
    return differs, status


def judge_sites(room, sites, seed):
    dice, found = random.Random(seed), Counter()
    for number in range(sites):
        differs, status = judge_site(room, dice, number)
        found[status, differs] += 1
    for (status, differs), count in sorted(found.items()):
        print(f"status {status}, the traffic {'differs' if differs else 'is alike'}: {count}")
    print(f"{sites} pairs of sites: where the traffic differs compare says so")


with tempfile.TemporaryDirectory() as folder:
    if mode == "lists":
        measure_lists(Path(folder), int(more[0]) if more else 10, 1)
    elif mode == "pairs":
        judge_hostile(Path(folder), int(more[0]) if more else 50, int(more[1]) if len(more) > 1 else 1)
    elif mode == "traffic":
        judge_sites(Path(folder), int(more[0]) if more else 200, int(more[1]) if len(more) > 1 else 1)
    else:
        judge_pairs(Path(folder), int(mode), int(more[0]) if more else 1)
PYTHON
