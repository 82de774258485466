#!/usr/bin/env bash
# Runs the built `bacgw check` and `bacgwctl explain` on each wrong text of docs/spec/configuration.md and of wrong_texts.tsv, and compares
# the fault and the line that explains it. A row has what is in the text (base.toml, then wrong_texts.toml), what is written in its
# place, the fault and the line; `\n` is a line feed. It wants both programs built, as `./bacgw prove` leaves them, and python3; BACGW
# and BACGWCTL name others. The last line says how many agreed.
set -euo pipefail
exec python3 - "$(cd "$(dirname "$0")/.." && pwd)" "${BACGW:-}" "${BACGWCTL:-}" <<'END'
import os, re, subprocess, sys, tempfile

top = sys.argv[1]
CALLS = []
for caller, command, given in (("bacgw", "check", sys.argv[2]), ("bacgwctl", "explain", sys.argv[3])):
    program = given or os.path.join(top, "crates", caller, "out", caller)
    if not os.access(program, os.X_OK):
        sys.exit(f"build {caller} first: ./bacgw prove")
    CALLS.append((caller, program, command))
page = open(os.path.join(top, "docs/spec/configuration.md")).read()
section = page.split("## Wrong texts and their lines")[1].split("\n## ")[0]
rows = re.findall(r"^\| `(.*?)` \| `(.*?)` \| `(\w+)` \| `(.*)` \|$", section, re.M)
rows += [line.split("\t") for line in open(os.path.join(top, "examples/wrong_texts.tsv")).read().splitlines()]
text = "".join(open(os.path.join(top, "examples", part)).read() for part in ("base.toml", "wrong_texts.toml"))
passed = failed = 0
with tempfile.TemporaryDirectory() as work:
    name = os.path.join(work, "text.toml")
    for old, new, fault, line in rows:
        old, new = old.replace("\\n", "\n"), new.replace("\\n", "\n")
        assert old in text, old
        with open(name, "w") as file:
            file.write(text.replace(old, new, 1))
        for caller, program, command in CALLS:
            run = subprocess.run([program, command, "--config", name], capture_output=True, text=True)
            told = (run.returncode, run.stdout, run.stderr)
            if told == (2, line + "\n", f"{caller}: configuration: {fault}\n"):
                passed += 1
            else:
                failed += 1
                print(f"not as expected: {caller}: {old!r} as {new!r}: {told}")
print(f"{passed} passed, {failed} failed")
sys.exit(1 if failed or passed < 80 else 0)
END
