#!/usr/bin/env bash
# Opens the rule that stops each attack, and sees that an assertion of the policy is broken then.
#
#     examples/opened.sh [PROGRAM]
#
# Of each row of attacks/attacks.tsv that leaves lines in the log under attacks/format3.toml, it puts before the first rule one that
# allows just the ask of such a line, for each line, and checks that policy: an assertion must be broken by it. The policies as they are,
# those of dist/ and of the examples too, must hold, each with its assertions. PROGRAM is the built `bacgw` if none is given. The last
# line says how many agreed.
set -euo pipefail

here=$(cd "$(dirname "$0")" && pwd)
program=$(realpath -m "${1:-$here/../crates/bacgw/out/bacgw}")
[ -x "$program" ] || { echo "build bacgw first: ./bacgw prove" >&2; exit 1; }

exec python3 - "$here" "$program" <<'PYTHON'
import re
import subprocess
import sys
import tempfile
from pathlib import Path

here, program = Path(sys.argv[1]), sys.argv[2]
passed = failed = 0
LINE = re.compile(r"deny \d+ \d+ (\d+) (\d+):([0-9A-F]*) (\S+) dst=(\S+) svc=(\S+) obj=(\S+),(\S+) prop=(\S+) prio=(\S+) rule=(\S+) sender=(\S+) station=(\S+)")


def same(what, is_so, told=""):
    global passed, failed
    if is_so:
        passed += 1
    else:
        failed += 1
        print(f"not as expected: {what}\n{told}")


def check(text):
    with tempfile.NamedTemporaryFile("w", suffix=".toml") as file:
        file.write(text)
        file.flush()
        run = subprocess.run([program, "check", "--config", file.name], capture_output=True, text=True)
    return run.returncode, run.stdout + run.stderr


def station(digits):
    octets = bytes.fromhex(digits)
    if len(octets) != 6:
        return f'"mac:{digits}"'
    return f'"{".".join(map(str, octets[:4]))}:{int.from_bytes(octets[4:], "big")}"'


def rule(match):
    """the rule that allows the ask of this line alone"""
    port, network, source, operation, *others, _, sender, named = match.groups()
    keys = {"operation": f'"{operation}"', "port": port, "source_network": network, "source": station(source), "sender": station(sender)}
    keys.update((key, it) for key, it in zip(["destination", "service", "object_type", "instance", "property", "priority"], others) if it != "-")
    if named != "-":
        keys["station"] = station(named)
    return '[[rule]]\nname = "opened"\nallow = true\n' + "".join(f"{key} = [{it}]\n" for key, it in keys.items()) + "\n"


policy = (here / "attacks/format3.toml").read_text()
at = policy.index("[[rule]]")
for row in (here / "attacks/attacks.tsv").read_text().splitlines():
    kind, what, _, _, shown = row.split("\t")
    for match in map(LINE.match, shown.split(" | ")):
        if match:
            status, told = check(policy[:at] + rule(match) + policy[at:])
            same(f"{kind}: {what}: {match[0]}", status == 2 and re.search(r'broken: .* is allowed by opened$', told, re.M), told)
for path in [*here.glob("*.toml"), *here.glob("attacks/*.toml"), *here.glob("site/*.toml"), here.parent / "dist/site.toml"]:
    text = path.read_text()
    if "[[assert]]" in text:
        status, told = check(text)
        same(path.name, status == 0 and told.rstrip().endswith(f'{text.count("[[assert]]")} asserts'), told)
print(f"{passed} passed, {failed} failed")
sys.exit(failed > 0)
PYTHON
