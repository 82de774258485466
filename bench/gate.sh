#!/usr/bin/env bash
# Runs the gate from nothing on a clean clone of HEAD and, if it is green, adds its row to docs/GATE.md. That page says what the
# columns are and how they are measured. A run that fails writes no row.
#
# A kit whose gate keeps what has passed knows the word `--anew`; one that doesn't proves everything at each `rt ci`.
#
#     bench/gate.sh [PAGE]      # docs/GATE.md by default
#
# It wants git, python3 and rt on the path, a Linux /proc, and about 4 GB of free disk.
set -euo pipefail

top=$(cd "$(dirname "$0")/.." && pwd)
page=${1:-$top/docs/GATE.md}
work=$(mktemp -d)
trap 'rm -rf "$work"' EXIT

[ -f "$page" ] || { echo "there is no page $page" >&2; exit 1; }
command -v rt > /dev/null || { echo "this wants rt on the path" >&2; exit 1; }
[ -z "$(git -C "$top" status --porcelain)" ] || echo "note: what is not committed is not in this run" >&2

clone=$work/clone
git clone -q --no-checkout "$top" "$clone"
git -C "$clone" checkout -q --detach "$(git -C "$top" rev-parse HEAD)"

# Runs the gate from nothing, passes on what it prints, and writes its last line and what the run cost to the file.
python3 - "$clone" "$work/cost" <<'PYTHON'
import os
import re
import resource
import subprocess
import sys
import time

PAUSE = 0.5  # seconds between two looks at the processor times
LOOKS = 60  # how many of them for each look at the memory: one looks at every page of processes of gigabytes
TICKS = os.sysconf("SC_CLK_TCK")


def content(path):
    try:
        with open(path, "rb") as file:
            return file.read()
    except OSError:
        return b""


def processes():
    """Each process: its parent, its processor time in seconds, and when it started, by which two of one number differ."""
    found = {}
    for name in filter(str.isdigit, os.listdir("/proc")):
        fields = content(f"/proc/{name}/stat").rpartition(b")")[2].split()
        if len(fields) > 19:
            found[int(name)] = int(fields[1]), (int(fields[11]) + int(fields[12])) / TICKS, int(fields[19])
    return found


def crate_in(process):
    words = content(f"/proc/{process}/cmdline").split(b"\0")
    at = words.index(b"--crate-name") + 1 if b"--crate-name" in words else 0
    return words[at].decode() if 0 < at < len(words) else ""


def held(process):
    """The memory that the process holds, a page that several share counted once among them, in KiB."""
    for line in content(f"/proc/{process}/smaps_rollup").splitlines():
        if line.startswith(b"Pss:"):
            return int(line.split()[1])
    return 0


class Cost:
    """What the processes below this one have cost."""

    def __init__(self):
        self.spent = {}
        self.crate_of = {}
        self.peak = 0
        self.looks = 0

    def look(self):
        now = processes()
        ours = {os.getpid(): ""}
        grown = True
        while grown:
            below = {it for it, (parent, _, _) in now.items() if parent in ours and it not in ours}
            for it in below:
                key = it, now[it][2]
                self.crate_of[key] = self.crate_of.get(key) or crate_in(it) or ours[now[it][0]]
                ours[it] = self.crate_of[key]
                self.spent[key] = now[it][1]
            grown = bool(below)
        if self.looks % LOOKS == 0:
            self.peak = max(self.peak, sum(held(it) for it in ours if it != os.getpid()))
        self.looks += 1

    def of_crates(self):
        sums = {}
        for key, seconds in self.spent.items():
            sums[self.crate_of[key]] = sums.get(self.crate_of[key], 0) + seconds
        return sums


def knows_anew():
    """Whether the kit knows the word `--anew`. One that doesn't says how it is called; no gate runs in a folder that is no repository."""
    ran = subprocess.run(["rt", "ci", "--anew"], cwd="/", stdin=subprocess.DEVNULL, capture_output=True)
    return not ran.stderr.lstrip().startswith(b"usage:")


clone, report = sys.argv[1:]
words = [f"{clone}/.ci/run", *(["--anew"] if knows_anew() else [])]
cost, start, text, ended = Cost(), time.monotonic(), b"", None
with open(report + ".log", "wb") as log, open(report + ".log", "rb") as told:
    ran = subprocess.Popen(words, cwd=clone, stdin=subprocess.DEVNULL, stdout=log, stderr=subprocess.STDOUT)
    while ended is None:
        try:
            ended = ran.wait(PAUSE)
        except subprocess.TimeoutExpired:
            cost.look()
        more = told.read()
        sys.stdout.buffer.write(more)
        sys.stdout.flush()
        text += more
verdicts = [line for line in text.decode(errors="replace").splitlines() if re.fullmatch(r"\d+ passed, \d+ failed", line)]
last = verdicts[-1] if verdicts else ""
wall = time.monotonic() - start
used = resource.getrusage(resource.RUSAGE_CHILDREN)
total = used.ru_utime + used.ru_stime
crates = {name: spent for name, spent in cost.of_crates().items() if name}
dearest = sorted(crates, key=lambda name: -crates[name])[:3]
with open(report, "w") as file:
    print(ended, last, sep="\n", file=file)
    print(f"{total / 60:.0f}", f"{wall / 60:.0f}", f"{cost.peak / 2**20:.1f} GB", sep="\n", file=file)
    print(", ".join(f"`{name}` {crates[name] / 60:.1f}" for name in dearest), file=file)
    print(len(os.sched_getaffinity(0)), file=file)
seen = sum(cost.spent.values())
print(f"{total:.0f} processor seconds; {seen:.0f} were seen in samples, {sum(crates.values()):.0f} of them as a crate's", file=sys.stderr)
print("minutes:", ", ".join(f"{name} {crates[name] / 60:.1f}" for name in sorted(crates, key=lambda name: -crates[name])), file=sys.stderr)
PYTHON

{ read -r status; read -r last; read -r minutes; read -r wall; read -r peak; read -r dearest; read -r processors; } < "$work/cost"

if [ "$status" != 0 ] || ! [[ $last =~ ^[1-9][0-9]*\ passed,\ 0\ failed$ ]]; then
    echo "no row: the gate ended with status $status and the line '$last'" >&2
    exit 1
fi

cd "$clone"
# lines ENDING FOLDER: how many lines that are not blank stand in the files of this ending below this folder of each crate
lines() {
    git ls-files "crates/*/$2/*.$1" | xargs -r cat | grep -c '[^[:space:]]' | sed ':a; s/\B[0-9]\{3\}\>/,&/; ta' || true
}
crates=$(grep -c '^[a-z]' crates.txt)
edits=$(git ls-files 'crates/*/must-fail/*.edit' | wc -l)
cases=$(cat crates/gw_*_vectors/stdout | grep -cE ' => |^== (script|again|list|check|texts|run|fronts|faults)( |$)' || true)
row="| $(date +%F) | $crates | $(lines rt src) | $(lines antt specs) | $(lines antt proofs) | $edits | $cases | $minutes | $wall | $processors | $peak | $dearest |"

# The newest row is the last of the page's first table.
awk -v row="$row" '
    is_in && !/^\|/ && !is_told { print row; is_told = 1 }
    /^\|/ { is_in = 1 }
    { print }
    END { if (is_in && !is_told) print row }' "$page" > "$work/page"
cp "$work/page" "$page"
echo "$row"
