#!/usr/bin/env bash
# Makes each mistake of mistakes/mistakes.tsv in a right configuration, mistakes/format2.toml or mistakes/format3.toml, and compares what
# tells it.
#
#     examples/mistakes.sh [PROGRAM]
#
# A row has the format, the mistake, a text of the configuration (`*`: all of it), what is written in its place (`\n` is a line feed, `\xE9`
# an octet, `crlf` and `utf-16` how all of it is written), what tells it, and a part of the line that does:
#
#     check     `bacgwctl check` refuses it
#     warning   `check` accepts it, with a warning
#     note      `explain --lint` has the line, and of the right configuration it has none
#     silent    nothing tells it
#     legal     it is no mistake in this format
#
# PROGRAM is the built `bacgwctl` if none is given. The last lines say how many of each format are told by what, and how many agreed.
set -euo pipefail
exec python3 - "$(cd "$(dirname "$0")" && pwd)" "${1:-}" <<'PYTHON'
import os, re, subprocess, sys, tempfile

here = sys.argv[1]
program = os.path.abspath(sys.argv[2] or os.path.join(here, "../crates/bacgwctl/out/bacgwctl"))
if not os.access(program, os.X_OK):
    sys.exit("build bacgwctl first: ./bacgw prove")
KINDS = ("check", "warning", "note", "silent", "legal")


def run(name, *words):
    call = subprocess.run((program, *words, "--config", name), capture_output=True)
    return call.returncode, (call.stdout + call.stderr).decode(errors="replace").splitlines()


def written(text):
    text = text.replace("\\n", "\n").encode()
    return re.sub(rb"\\x([0-9A-F]{2})", lambda octet: bytes.fromhex(octet[1].decode()), text)


def edited(text, old, new):
    if old == "*":
        return {"crlf": text.replace(b"\n", b"\r\n"), "utf-16": text.decode().encode("utf-16")}[new]
    old = written(old)
    assert old in text, old
    return text.replace(old, written(new), 1)


def told(name, base, part):
    status, lines = run(name, "check")
    if status != 0:
        return "check", lines
    warnings = [line for line in lines if line.startswith("warning: ") and line not in base]
    if warnings:
        return "warning", warnings
    notes = [line for line in run(name, "explain", "--lint")[1] if line not in base]
    return ("note" if part and any(part in line for line in notes) else "silent"), notes


rows = [line.split("\t") for line in open(os.path.join(here, "mistakes/mistakes.tsv")).read().splitlines()]
counts = {}
agreed = failed = 0
with tempfile.TemporaryDirectory() as work:
    name = os.path.join(work, "site.toml")
    for number in ("2", "3"):
        right = os.path.join(here, f"mistakes/format{number}.toml")
        text = open(right, "rb").read()
        status, base = run(right, "explain", "--lint")
        assert status == 0 and not any(line.startswith("warning: ") for line in base), base
        for _, mistake, old, new, wanted, part in (row for row in rows if row[0] == number):
            with open(name, "wb") as file:
                file.write(edited(text, old, new))
            found, lines = told(name, base, part)
            right_kind = found == wanted or (found == "silent" and wanted == "legal")
            if right_kind and (found == "silent" or any(part in line for line in lines)):
                agreed += 1
            else:
                failed += 1
                print(f"format {number}: {mistake}: wanted {wanted}, found {found}")
                print("".join(f"    {line}\n" for line in lines), end="")
            counts[number, wanted] = counts.get((number, wanted), 0) + 1
        print(f"format {number}: " + ", ".join(f"{counts.get((number, kind), 0)} {kind}" for kind in KINDS))
print(f"{agreed} agreed, {failed} did not")
sys.exit(1 if failed else 0)
PYTHON
