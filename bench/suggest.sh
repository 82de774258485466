#!/bin/sh
# A day under a policy that denies all, the rules that `bacgwctl suggest` makes of it, and the day once more with them in front:
# bench/suggest.sh [BACGW BACGWCTL]. It prints how many asks and rules there were, and how many denials are left.
set -e
program=${1:-./bacgw}
tool=${2:-./bacgwctl}
here=$(dirname "$0")/../examples
work=$(mktemp -d)
trap 'rm -rf "$work"' EXIT
"$program" replay --config "$here/day.toml" < "$here/day.script" > "$work/day.out"
"$tool" suggest --config "$here/day.toml" < "$work/day.out" > "$work/added.toml"
awk -v added="$work/added.toml" '
    /^\[\[rule\]\]/ && !done { while ((getline line < added) > 0) print line; done = 1 }
    { print }
    END { if (!done) while ((getline line < added) > 0) print line }
' "$here/day.toml" > "$work/new.toml"
echo "asks denied: $(grep -c '^deny ' "$work/day.out")"
echo "rules suggested: $(grep -c '^\[\[rule\]\]' "$work/added.toml")"
"$program" replay --config "$work/new.toml" < "$here/day.script" > "$work/again.out"
echo "asks denied with them in front: $(grep -c '^deny ' "$work/again.out" || true)"
