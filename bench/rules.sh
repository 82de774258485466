#!/usr/bin/env bash
# How long an ask takes by the list of the rules and by their index, in nanoseconds, and how long the greatest list takes to compile:
# the tables of docs/PERFORMANCE.md. The program that is timed, bench/rules/judge.rattle, is proved first, in a repository of its own (the
# gate reads each .rt file that it finds, so this one has another ending).
#
#     bench/rules.sh
#
# It wants git, python3, GNU time and rt on the path.
set -euo pipefail

top=$(cd "$(dirname "$0")/.." && pwd)
work=$(mktemp -d)
trap 'rm -rf "$work"' EXIT

git -C "$work" init -q
mkdir -p "$work/crates/judge/src"
for crate in gw_addr gw_rules gw_rule_index; do
    cp -a "$top/crates/$crate" "$work/crates/"
done
cp "$top/bench/rules/judge.rattle" "$work/crates/judge/src/main.rt"
cp "$top/HANDLES" "$work/"
{ grep -E '^gw_(addr|rules|rule_index):' "$top/crates.txt"; echo "judge: gw_rules gw_rule_index"; } > "$work/crates.txt"
(cd "$work/crates/judge" && rt run -- list 3 3 0) >&2

python3 - "$work/crates/judge/out/judge" <<'PYTHON'
import subprocess
import sys
import time

judge = sys.argv[1]
ASKS = 2_000_000
RUNS = 5


def seconds(*words):
    """The least time of some runs."""
    least = float("inf")
    for _ in range(RUNS):
        start = time.perf_counter()
        subprocess.run([judge, *map(str, words)], check=False)
        least = min(least, time.perf_counter() - start)
    return least


def ask(mode, rules, fields):
    """Nanoseconds an ask, without what the list takes to make."""
    return (seconds(mode, rules, fields, ASKS) - seconds(mode, rules, fields, 0)) / ASKS * 1e9


print("| Rules | List, 3 fields | Index, 3 fields | List, 12 fields | Index, 12 fields |")
print("|---|---|---|---|---|")
for rules in (1, 3, 16, 32, 64, 512):
    times = [ask(mode, rules, fields) for fields in (3, 12) for mode in ("list", "index")]
    print(f"| {rules} | " + " | ".join(f"{it:.0f}" for it in times) + " |")
built = seconds("build", 512, 3, 0) - seconds("unbuilt", 512, 3, 0)
print(f"\nThe greatest list (512 rules, four ranges in each of twelve fields) is compiled in {built * 1000:.0f} ms.")
PYTHON
for mode in unbuilt build; do
    echo "peak memory, $mode: $( { command time -f %M "$work/crates/judge/out/judge" "$mode" 512 3 0 || true; } 2>&1 | tail -n 1) KiB"
done
