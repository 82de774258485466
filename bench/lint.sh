#!/usr/bin/env bash
# How long `bacgwctl lint` takes over policies of 512 rules, each with four ranges in each of the ten fields of format 2, at eight
# ports and under that format: the row of docs/PERFORMANCE.md. The texts come from a fixed seed:
#
#     narrow    random narrow ranges
#     wide      random wide ranges, which overlap often
#     half      random ranges of up to half of a field
#     wider     random ranges of 85 to 97 % of a field
#     widest    random ranges of 90 to 99 % of a field
#     pieces    rules whose ranges one earlier rule takes in pieces alone, so that their searches use up all their steps; the rules
#               between them differ only in the last field but one
#     slits     rules that each leave out a slit of a thousandth of each field: which asks all of them leave out is a puzzle, so that
#               nearly all searches use up all their steps
#     64 slits  64 of these
#     tiles     rules that together deny each source, and rules behind them that allow: each of these is searched in vain
#
# And how long `bacgwctl report` takes over the same and over a shipped policy, and how many cells of each kind its table has.
#
#     bench/lint.sh              # prints a line for each: seconds, the least of three runs, the most memory, and how many lines of each
#                                # kind; or over 60 s
#     bench/lint.sh FOLDER       # and keeps the texts there
#
# It wants python3 and the program built, as `./bacgw prove` leaves it; LINT and REPORT name another program, with its words.
set -euo pipefail

top=$(cd "$(dirname "$0")/.." && pwd)
program=$top/crates/bacgwctl/out/bacgwctl
exec python3 - "$top" "${LINT:-$program lint --config}" "${REPORT:-$program report --config}" "$@" <<'PYTHON'
import collections
import os
import random
import re
import signal
import subprocess
import sys
import tempfile
import time
from pathlib import Path

top, lint, report = Path(sys.argv[1]), sys.argv[2].split(), sys.argv[3].split()
RULES = 512
RANGES = 4
RUNS = 3
MOST = 60  # seconds for a run
OPERATIONS = ["cast", "route", "register", "delete", "read-table", "write-table", "learn", "network", "read", "list"]
# The keys that have numbers, each with its least and its greatest one.
LIMITS = {
    "port": (1, 8),
    "source_network": (1, 65534),
    "source": (0, 2**48 - 1),
    "destination": (1, 65534),
    "service": (0, 1031),
    "object_type": (0, 1023),
    "instance": (0, 4194303),
    "property": (0, 4194303),
    "priority": (1, 16),
}


def head():
    """A configuration of eight ports, whose networks aren't next to one another."""
    text = (top / "examples" / "base.toml").read_text(encoding="utf-8").split("[[port]]")[0]
    lines = [re.sub(r"^format = 1$", "format = 2", text, flags=re.MULTILINE)]
    for port in range(1, 9):
        lines.append(f'[[port]]\nnetwork = {port * 1000}\naddress = "10.{port}.0.1:47808"\nbroadcast = "10.{port}.255.255:47808"\n')
    return "\n".join(lines)


def value(key, number):
    if key != "source":
        return str(number)
    octets = number.to_bytes(6, "big")
    return '"' + ".".join(map(str, octets[:4])) + f':{int.from_bytes(octets[4:], "big")}"'


def rule(number, allow, operations, ranges):
    """The text of a rule, of its operations and a list of ranges for each key."""
    lines = [f'[[rule]]\nname = "rule-{number}"\nallow = {str(allow).lower()}']
    if operations:
        lines.append("operation = [" + ", ".join(f'"{it}"' for it in operations) + "]")
    for key, list_of in ranges.items():
        lines.append(f"{key} = [" + ", ".join(f"[{value(key, low)}, {value(key, high)}]" for low, high in list_of) + "]")
    return "\n".join(lines) + "\n"


def random_ranges(dice, key, share, least):
    """Four ranges, each of at most this share of the field, and of a least one."""
    low, high = LIMITS[key]
    out = []
    for _ in range(RANGES):
        width = int((high - low) * (share - least) * dice.random() + (high - low) * least)
        start = dice.randint(low, high - width)
        out.append((start, start + width))
    return out


def random_rules(share, least=0.0):
    """Rules that name all ten fields of format 2, so writes alone can meet them."""
    dice = random.Random(45)
    out = []
    for number in range(1, RULES + 1):
        ranges = {key: random_ranges(dice, key, share, least) for key in LIMITS}
        ranges["service"][0] = (15, 15)
        out.append(rule(number, dice.random() < 0.5, ["write", *dice.sample(OPERATIONS, RANGES - 1)], ranges))
    return out


def tiles(key, shift):
    """Four ranges side by side that fill a field, up to their ends, or four across their seams."""
    low, high = LIMITS[key]
    step = (high - low + 1) // (RANGES + 1)
    if step == 0:
        return [(low, high)] * RANGES
    if shift:
        return [(low + step * n + step // 2, low + step * (n + 1) + step // 2 - 1) for n in range(RANGES)]
    return [(low + step * n, low + step * (n + 1) - 1 if n < RANGES - 1 else high) for n in range(RANGES)]


def pieces_rules():
    """In the first half rules that differ in their properties alone; the last of them takes all rules of the second half in pieces."""
    out = []
    half = RULES // 2
    for n in range(1, RULES + 1):
        ranges = {key: tiles(key, n > half) for key in LIMITS}
        ranges["service"] = [(12, 12), (13, 13), (14, 14), (15, 15)]
        low, high = LIMITS["property"]
        middle = 1_000_000
        if n < half:
            ranges["property"] = [(n * 4 + it, n * 4 + it) for it in range(RANGES)]
        elif n == half:
            ranges["property"] = [(middle + it * 100, middle + it * 100 + 99) for it in range(RANGES)]
        else:
            # Across the seams of those, and none of these rules lies in another: as one end goes up, another goes down.
            it = n - half
            ranges["property"] = [(middle + 50, middle + 149), (middle + 150, middle + 249), (middle + 250, middle + 349), (middle, middle)]
            ranges["instance"][0] = (ranges["instance"][0][0] + it, ranges["instance"][0][1])
            ranges["instance"][1] = (ranges["instance"][1][0], ranges["instance"][1][1] + it)
        out.append(rule(n, n % 2 == 0, ["read", "write", "cast", "list"], ranges))
    return out


def slit_rules(count):
    """Rules that each leave out a slit of every field."""
    dice = random.Random(45)
    out = []
    for number in range(1, count + 1):
        ranges = {}
        for key, (low, high) in LIMITS.items():
            slit = max(1, (high - low) // 1000)
            at = dice.randrange(low + 1, high - slit + 1)
            ranges[key] = [(low, at - 1), (min(at + slit, high), high)]
        out.append(rule(number, dice.random() < 0.5, [], ranges))
    return out


def tile_rules():
    """120 rules that deny all sources in pieces, and then rules that allow, no two of which are the same."""
    low, high = LIMITS["source"]
    step = (high - low + 1) // 120
    out = []
    for number in range(1, RULES + 1):
        if number <= 120:
            ranges = {"source": [(low + step * (number - 1), high if number == 120 else low + step * number - 1)]}
        else:
            ranges = {"source": [(low, high)], "source_network": [(1, 65000 + number)]}
        out.append(rule(number, number > 120, [], ranges))
    return out


def cells(page):
    """How many cells of each kind the table of a report has."""
    table = page.split("Who may do what")[1].split("</table>")[0]
    found = collections.Counter(re.findall(r">(all|some|none|some\?|-)</td>", table))
    return ", ".join(f"{count} {kind}" for kind, count in sorted(found.items()))


def kinds(text):
    """How many lines of each kind."""
    found = collections.Counter()
    for line in text.splitlines():
        for words_of in ("note:", "matches no ask", "takes all", "together", "can't tell", "decides, for one"):
            if words_of in line:
                found[words_of] += 1
                break
    return ", ".join(f"{count} {kind}" for kind, count in sorted(found.items()))


def run(words, path):
    """What a run prints, its seconds, and the most memory that it had, in MB."""
    with tempfile.TemporaryFile() as out:
        start = time.perf_counter()
        child = subprocess.Popen([*words, str(path)], stdin=subprocess.DEVNULL, stdout=out)
        signal.alarm(MOST)
        try:
            _, status, usage = os.wait4(child.pid, 0)
        except TimeoutError:
            child.kill()
            child.wait()
            raise
        finally:
            signal.alarm(0)
        taken = time.perf_counter() - start
        assert status == 0, status
        child.returncode = 0
        out.seek(0)
        return out.read().decode("utf-8"), taken, usage.ru_maxrss / 1024


def is_over(*_):
    raise TimeoutError


def seconds(words, path):
    least, most, out = float("inf"), 0, ""
    for _ in range(RUNS):
        out, taken, memory = run(words, path)
        least, most = min(least, taken), max(most, memory)
    return least, most, out


signal.signal(signal.SIGALRM, is_over)
with tempfile.TemporaryDirectory() as folder:
    room = Path(sys.argv[4]) if len(sys.argv) > 4 else Path(folder)
    lists = [
        ("narrow", random_rules(0.01)),
        ("wide", random_rules(1.0)),
        ("half", random_rules(0.5)),
        ("wider", random_rules(0.97, 0.85)),
        ("widest", random_rules(0.99, 0.9)),
        ("pieces", pieces_rules()),
        ("slits", slit_rules(RULES)),
        ("64 slits", slit_rules(64)),
        ("tiles", tile_rules()),
    ]
    paths = []
    for name, rules in lists:
        paths.append(room / f"{name}.toml")
        paths[-1].write_text(head() + "\n" + "\n".join(rules), encoding="utf-8")
    policy = top / "examples" / "plant_room.toml"
    for tool, words, told, of in [("lint", lint, kinds, paths), ("report", report, cells, [*paths, policy])]:
        for path in of:
            try:
                taken, memory, said = seconds(words, path)
                print(f"{tool}, {path.stem}: {taken:.2f} s, {memory:.0f} MB ({told(said)})", flush=True)
            except TimeoutError:
                print(f"{tool}, {path.stem}: over {MOST} s", flush=True)
PYTHON
