#!/usr/bin/env bash
# How long `bacgw check` takes on the greatest configuration: every list is as long as it may be, and every rule names all that it may.
# Then on texts of 1 MiB, the most that is read, that are no configuration: each is answered within a second.
#
#     bench/check.sh [RUNS]      # the least time of 11 runs by default, and the peak memory
#
# It wants the program built, as `./bacgw prove` leaves it, and python3 and /usr/bin/time.
set -euo pipefail

top=$(cd "$(dirname "$0")/.." && pwd)
runs=${1:-11}
program=${BACGW:-$top/crates/bacgw/out/bacgw}
work=$(mktemp -d)
trap 'rm -rf "$work"' EXIT

[ -x "$program" ] || { echo "build bacgw first: ./bacgw prove" >&2; exit 1; }

python3 - > "$work/greatest.toml" <<'PYTHON'
def four(item):
    """Four ranges, as a rule's field has at most."""
    return "[" + ", ".join(f"[{item(2 * n)}, {item(2 * n + 1)}]" for n in range(4)) + "]"


print("""format = 1
[device]
network = 65534
instance = 1234
name = "gateway"
vendor = 999
vendor_name = "Example"
model = "gw-1"
firmware = "1"
software = "1"
revision = 12
database = 1""")
for port in range(1, 9):
    print(f'[[port]]\nnetwork = {port}\naddress = "10.{port}.0.2:47808"\nbroadcast = "10.{port}.0.255:47808"')
    for peer in range(64):
        print(f'[[port.peer]]\naddress = "10.{port}.1.{peer}:47808"\nmask = "255.255.255.255"')
for route in range(512):
    print(f'[[route]]\nnetwork = {1000 + route}\nport = {route % 8 + 1}\nnext = "10.1.0.3:47808"')
for point in range(256):
    print(f'[[object]]\ntype = 19\ninstance = {point}\nname = "object-{point}"\ndefault = 1\nstates = ["off", "on"]')
for rule in range(512):
    print(f"""[[rule]]
name = "rule-{rule}"
allow = true
operation = ["cast", "read", "write", "list"]
port = [1, 2, 3, [4, 8]]
source_network = {four(lambda n: 1000 + n)}
source = {four(lambda n: f'"10.0.{n}.1:47808"')}
destination = {four(lambda n: 1000 + n)}
service = {four(lambda n: n)}
object_type = {four(lambda n: n)}
instance = {four(lambda n: 1000 + n)}
property = {four(lambda n: n)}
priority = {four(lambda n: n + 1)}""")
PYTHON

echo "$(stat -c %s "$work/greatest.toml") octets: $("$program" check --config "$work/greatest.toml")"
for _ in $(seq "$runs"); do
    start=$(date +%s%N)
    "$program" check --config "$work/greatest.toml" > /dev/null
    echo "$((($(date +%s%N) - start) / 1000))"
done | sort -n | head -1 | sed 's/$/ microseconds at least/'
{ /usr/bin/time -f '%M KiB at most' "$program" check --config "$work/greatest.toml" > /dev/null; } 2>&1

# Texts of 1 MiB at most: many of one thing, one thing that is long, and what is deep in another.
python3 - "$work" <<'PYTHON'
import sys

MOST = 1 << 20
HEAD = """format = 1
[device]
network = 100
instance = 1
name = "gateway"
vendor = 999
vendor_name = "Example"
model = "gw-1"
firmware = "1"
software = "1"
revision = 12
database = 1
[[port]]
network = 1
address = "10.1.0.2:47808"
broadcast = "10.1.0.255:47808"
"""


def many(item, count):
    text = "".join(item(n) for n in range(count))
    return text[:MOST - len(HEAD)].rpartition("\n")[0] + "\n"


TEXTS = {
    "100,000 keys that nobody knows": "format = 1\n" + many(lambda n: f"k{n} = 1\n", 100_000),
    "20,000 rules": HEAD + many(lambda n: f'[[rule]]\nname = "rule-{n}"\nallow = true\n', 20_000),
    "14,000 objects": HEAD + many(lambda n: f'[[object]]\ntype = 5\ninstance = {n}\nname = "o{n}"\ndefault = 0\n', 14_000),
    "a value of 1 MB": HEAD.replace('"gateway"', '"' + "x" * 1_000_000 + '"'),
    "brackets alone": "[" * MOST,
    "braces alone": "a = " + "{" * 1_000_000,
    "100,000 arrays, each in another": "a = " + "[" * 100_000 + "]" * 100_000 + "\n",
    "100,000 inline tables, each in another": "a = " + "{a = " * 100_000 + "1" + "}" * 100_000 + "\n",
    "a table of a key of 100,000 dots": "[a" + ".a" * 100_000 + "]\n",
    "a key of 100,000 dots": "a" + ".a" * 100_000 + " = 1\n",
    "a line of quotation marks": '"' * 1_000_000,
    "line feeds alone": "\n" * MOST,
    "one octet more than 1 MiB": "#" * (MOST + 1),
}
for number, (name, text) in enumerate(TEXTS.items()):
    with open(f"{sys.argv[1]}/{number:02}.toml", "w") as file:
        file.write(text)
    with open(f"{sys.argv[1]}/{number:02}.name", "w") as file:
        file.write(name)
PYTHON

slow=0
for text in "$work"/[0-9]*.toml; do
    start=$(date +%s%N)
    status=0
    memory=$(/usr/bin/time -f %M "$program" check --config "$text" 2>&1 > /dev/null) || status=$?
    spent=$((($(date +%s%N) - start) / 1000))
    [ "$spent" -le 1000000 ] || slow=1
    printf '%s: %s, status %s, %s microseconds, %s KiB\n' "$(cat "${text%.toml}.name")" \
        "$(head -1 <<< "$memory" | sed 's/^bacgw: //')" "$status" "$spent" "$(tail -1 <<< "$memory")"
done
exit "$slow"
