#!/usr/bin/env bash
# Checks the edges of crates.txt, from a crate to each that it uses, ours or the kit's: some line of the crate's src/, specs/ or proofs/
# that isn't a comment names it, and ours come after those that they use. A crate may need another one that no line names, as for its
# types; then a comment right above its line says so:
#
#     # CRATE needs DEP: reason
#
# A program reaches nothing that docs/ARCHITECTURE.md keeps from it: bacgw no crate of the group Tools, bacgwctl neither gw_service nor
# gw_turns.
#
#     bench/edges.sh         # says which edges are idle; the last line is how many there are, the status 1 if one is
#
# It wants python3.
set -euo pipefail
exec python3 - "$(cd "$(dirname "$0")/.." && pwd)" <<'PYTHON'
import re
import sys
from pathlib import Path

top = Path(sys.argv[1])
NEEDS = re.compile(r"# (\w+) needs (\w+): \S.*")
COMMENT = re.compile(r"\s*(//|--)")
GROUP = re.compile(r"- \*\*(.+)\*\*")
MEMBER = re.compile(r"    - \[`(\w+)`\]")


def listed():
    """Each crate of crates.txt, what it uses, and what the comments right above it say that it needs."""
    needs = set()
    for line in (top / "crates.txt").read_text(encoding="utf-8").splitlines():
        if line.startswith("#"):
            if needed := NEEDS.fullmatch(line):
                needs.add(needed.groups())
        elif line.strip():
            name, _, uses = line.partition("#")[0].partition(":")
            yield name.split()[0], uses.split(), needs
            needs = set()


def named_in(crate):
    """The words of a crate's lines that aren't comments."""
    found = set()
    for part in ("src", "specs", "proofs"):
        for path in (top / "crates" / crate / part).rglob("*"):
            if path.suffix in (".rt", ".antt"):
                lines = path.read_text(encoding="utf-8").splitlines()
                found.update(word for line in lines if not COMMENT.match(line) for word in re.findall(r"\w+", line))
    return found


def grouped(group):
    """The crates that the page of the architecture lists in a group."""
    found, at = [], None
    for line in (top / "docs" / "ARCHITECTURE.md").read_text(encoding="utf-8").splitlines():
        if title := GROUP.fullmatch(line):
            at = title[1]
        elif (crate := MEMBER.match(line)) and at == group:
            found.append(crate[1])
    return found


def reached(crate, uses):
    """Every crate that a crate reaches, by the first way that leads there."""
    ways, left = {}, [(it, [it]) for it in uses[crate]]
    while left:
        name, way = left.pop(0)
        if name in uses and name not in ways:
            ways[name] = way
            left += [(it, [*way, it]) for it in uses[name]]
    return ways


faults, edges, before = [], 0, set()
rows = list(listed())
ours = {name for name, _, _ in rows}
for name, uses, needs in rows:
    words = named_in(name)
    edges += len(uses)
    faults += [f"{name} uses {it}, which none of its lines names" for it in uses if it not in words and (name, it) not in needs]
    faults += [f"{name} comes before {it}, which it uses" for it in uses if it in ours - before]
    faults += [f"a comment says that {crate} needs {it}, but its line follows elsewhere" for crate, it in sorted(needs) if crate != name]
    idle = {it for it in uses if it not in words}
    faults += [f"a comment says that {name} needs {it}, but it doesn't use it or names it" for crate, it in sorted(needs) if crate == name and it not in idle]
    before.add(name)
every = {name: uses for name, uses, _ in rows}
tools = grouped("Tools")
faults += [] if "gw_tools" in tools else ["docs/ARCHITECTURE.md lists no crates of the group Tools"]
for program, kept_from in (("bacgw", tools), ("bacgwctl", ["gw_service", "gw_turns"])):
    ways = reached(program, every)
    faults += [f"{program} reaches {it}, by {' '.join(ways[it])}" for it in kept_from if it in ways]
for fault in faults:
    print(f"crates.txt: {fault}")
print(f"{edges} edges of crates.txt, {len(faults)} faults")
sys.exit(1 if faults else 0)
PYTHON
