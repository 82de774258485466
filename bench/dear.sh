#!/usr/bin/env bash
# Says what in the proofs takes the time: of each crate named, or of every one whose out/ has what `rt check` kept, the seconds between the
# files that the check wrote one after the other, summed by kind and by function.
#
#     bench/dear.sh [CRATE...]
#
# Run it after a first `rt check --jobs 1` of a crate: a later check writes only what changed, and one with more jobs writes out of turn.
# The kinds are those of the checker's own files: `Lts` is the walk through a function's steps, its exits and what each of them drops;
# `Proof` the proofs of its goals; `Tie` what its calls need of the code below; `Kinds`, `Layout` and `Reads` are of its types.
set -euo pipefail

top=$(cd "$(dirname "$0")/.." && pwd)
exec python3 - "$top" "$@" <<'PYTHON'
import re
import signal
import sys
from collections import Counter
from pathlib import Path

signal.signal(signal.SIGPIPE, signal.SIG_DFL)
top, names = Path(sys.argv[1]), sys.argv[2:]
GAP = 300  # seconds: a longer gap is between two runs
ROWS = 40
KINDS = ["Lts", "Proof", "Tie", "Kinds", "Layout", "Reads", "Code", "Mir", "Answers"]
for name in names:
    if not (top / "crates" / name).is_dir():
        sys.exit(f"there is no crate {name}")
names = names or sorted(it.parent.parent.name for it in top.glob("crates/*/out/incremental"))
kinds, functions, total = Counter(), Counter(), 0.0
for name in names:
    files = sorted((it.stat().st_mtime, it.name) for it in (top / "crates" / name / "out" / "incremental").glob("**/*") if it.is_file())
    for (before, _), (after, file) in zip(files, files[1:]):
        if after - before > GAP:
            continue
        total += after - before
        found = re.match(r"Rattle-\w+-(?:proofs|specs)\.(.+?)(?:\.decls)?\.oantt$", file)
        path, _, last = found[1].rpartition(".") if found else ("", "", "")
        kind = last.partition("-")[0]
        kinds[kind if kind in KINDS else "libraries" if not found else "others"] += after - before
        functions[f"{name} {path} {kind}" if kind in KINDS else f"{name} {found[1] if found else 'libraries'}"] += after - before
if not total:
    sys.exit("nothing is kept: run `rt check --jobs 1` in a crate first")
for kind, seconds in kinds.most_common():
    print(f"{seconds:8.1f} s {100 * seconds / total:5.1f} % {kind}")
for what, seconds in functions.most_common(ROWS):
    print(f"{seconds:8.1f} s {what}")
PYTHON
