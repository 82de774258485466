#!/usr/bin/env bash
# Plays each attack of attacks/attacks.tsv twice: under attacks/format2.toml, where it must succeed, and under attacks/format3.toml,
# the same policy in format 3, where it must not.
#
#     examples/attacks.sh [PROGRAM]
#
# A row has the kind of the attack, what is tried, the lines of a script, what the attack is after, and what is printed under format 3,
# with ` | ` between lines. The kinds are: 1 a forged claim, 2 another port's address, 3 a stranger, 4 a message to an address outside,
# 5 a point named in a broadcast, 6 a peer's or a router's word, 7 somebody else's registration, 8 two gateways that join two subnets
# twice. An attack succeeds if the last of its lines has what it is after among what is printed for it; of the last kind, if the two
# gateways send each other as many datagrams. PROGRAM is the built `bacgw` if none is given. The last line says how many agreed.
set -uo pipefail

here=$(cd "$(dirname "$0")" && pwd)/attacks
program=$(realpath -m "${1:-$here/../../crates/bacgw/out/bacgw}")
passed=0
failed=0

[ -x "$program" ] || { echo "build bacgw first: ./bacgw prove" >&2; exit 1; }

# same WHAT TEXT WANTED: the two are the same
same() {
    if [ "$2" = "$3" ]; then
        passed=$((passed + 1))
    else
        failed=$((failed + 1))
        printf 'not as expected: %s\n  wanted:\n%s\n  printed:\n%s\n' "$1" "$3" "$2"
    fi
}

# under FORMAT SCRIPT: what a new gateway prints
under() {
    printf '%s\n' "$2" | "$program" replay --config "$here/format$1.toml" 2>&1
}

# between FORMAT EVENT: what two gateways make of one broadcast
between() {
    python3 "$here/loop.py" "$program" "$here/loop_first.format$1.toml" "$here/loop_second.format$1.toml" "$2" 2>&1
}

# last: what is printed for the last event of what is on standard input
last() {
    awk '{ text = text $0 "\n" } $0 == "end" { kept = text; text = "" } END { printf "%s", kept }'
}

# succeeds TEXT WANTED: the last event printed this line
succeeds() {
    if last <<< "$1" | grep -qxF -- "$2"; then echo succeeds; else echo fails; fi
}

while IFS=$'\t' read -r kind what events wanted shown; do
    what="$kind: $what"
    if [ "$kind" = 8 ]; then
        same "$what, under format 2" "$(between 2 "$events")" "$wanted"
        same "$what, under format 3" "$(between 3 "$events")" "$shown"
        continue
    fi
    script=${events// | /$'\n'}
    same "$what, under format 2" "$(succeeds "$(under 2 "$script")" "$wanted")" succeeds
    printed=$(under 3 "$script")
    same "$what, under format 3" "$(succeeds "$printed" "$wanted")" fails
    same "$what, under format 3" "$printed" "${shown// | /$'\n'}"
done < "$here/attacks.tsv"

echo "$passed passed, $failed failed"
[ "$failed" = 0 ]
