#!/usr/bin/env bash
# Plays each recipe of docs/policy.md, and what each policy lets through and refuses, and compares what is printed.
#
#     examples/attempts.sh [PROGRAM [FOLDER]]
#
# A recipe's rules are put after examples/recipes.toml, and its lines, marked by `> `, print what follows them. A row of attempts.tsv,
# and of format2/attempts.tsv, has the policy (a file, or the heading of a recipe), what is tried, the lines of a script, and what a new
# gateway prints for them, with ` | ` between lines. Each policy must refuse three attempts at least. PROGRAM is the built `bacgw` if
# none is given; the recipes are left in FOLDER if one is given. The last line says how many agreed.
set -uo pipefail

here=$(cd "$(dirname "$0")" && pwd)
program=$(realpath -m "${1:-$here/../crates/bacgw/out/bacgw}")
work=$(mktemp -d)
trap 'rm -rf "$work"' EXIT
recipes=${2:-$work/recipes}
passed=0
failed=0

[ -x "$program" ] || { echo "build bacgw first: ./bacgw prove" >&2; exit 1; }
mkdir -p "$recipes"
: > "$work/refused"
: > "$work/policies"

# same WHAT TEXT WANTED: the two are the same
same() {
    if [ "$2" = "$3" ]; then
        passed=$((passed + 1))
    else
        failed=$((failed + 1))
        printf 'not as expected: %s\n  wanted:\n%s\n  printed:\n%s\n' "$1" "$3" "$2"
    fi
}

# played FILE: what a new gateway prints for the lines on standard input
played() {
    "$program" replay --config "$1" 2>&1
}

# recipe: the last rules are accepted, and the last lines print what follows each of them
recipe() {
    local file=$recipes/$wish
    [ ! -e "$file" ] || file="$recipes/$wish, otherwise"
    cat "$here/recipes.toml" "$work/rules" > "$file"
    same "recipe: $wish: check" "$("$program" check --config "$file" 2>&1 | cut -d' ' -f1)" ok
    same "recipe: $wish" "$(sed -n 's/^> //p' "$work/lines" | played "$file")" "$(sed '/^> /d' "$work/lines")"
}

to=
while IFS= read -r line; do
    case $line in
        '## '[0-9]*'. '*) wish=${line#\#\# } ;;
        '## '*) wish= ;;
        '```toml') to=rules; : > "$work/rules" ;;
        '```text') to=lines; : > "$work/lines" ;;
        '```') [ "$to" = lines ] && [ -n "$wish" ] && recipe; to= ;;
        *) [ -n "$to" ] && printf '%s\n' "$line" >> "$work/$to" ;;
    esac
done < "$here/../docs/policy.md"

for table in "$here/attempts.tsv" "$here/format2/attempts.tsv"; do
    while IFS=$'\t' read -r policy what events shown; do
        file=$here/../$policy
        [ -e "$file" ] || file=$recipes/$policy
        same "$policy: $what" "$(printf '%s\n' "${events// | /$'\n'}" | played "$file")" "${shown// | /$'\n'}"
        echo "$policy" >> "$work/policies"
        case $shown in
            *deny\ * | end | *'| end | end') echo "$policy" >> "$work/refused" ;;
        esac
    done < "$table"
done
{ sort -u "$work/policies"; ls "$recipes" | grep -v ', otherwise$'; } | sort -u > "$work/all"
while IFS= read -r policy; do
    case $policy in *_not.toml) continue ;; esac
    [ "$(grep -cxF "$policy" "$work/refused")" -ge 3 ]
    same "three attempts that $policy refuses" "$?" 0
done < "$work/all"

echo "$passed passed, $failed failed"
[ "$failed" = 0 ]
