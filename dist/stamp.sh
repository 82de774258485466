#!/usr/bin/env bash
# Says whether crates/bacgw/out/bacgw, or the other program, is the one that the gate built from these very sources.
#
#     dist/stamp.sh check [bacgwctl]    # ends with 0 exactly if it is
#     dist/stamp.sh write [bacgwctl]    # notes that it is: `./bacgw prove` calls this for both once the gate has passed
#
# The stamp is a file beside the program. It has two checksums: that of the program, and that of all files that it was proved from. It
# wants awk, find, sort and sha256sum.
set -euo pipefail

top=$(cd "$(dirname "$(readlink -f "$0")")/.." && pwd)
name=${2:-bacgw}
program=crates/$name/out/$name
stamp=$program.proved
cd "$top"

# The crates that the program is built from. (crates.txt has a crate after those that it needs.)
crates_below() {
    tac crates.txt | awk -v program="$name" '
        BEGIN { wanted[program] }
        { name = $1; sub(/:$/, "", name) }
        $1 ~ /:$/ && name in wanted { print name; for (i = 2; i <= NF; i++) wanted[$i] }'
}

sources() {
    local crate
    echo crates.txt
    echo HANDLES
    for crate in $(crates_below); do
        for part in src specs proofs; do
            [ ! -d "crates/$crate/$part" ] || find "crates/$crate/$part" -type f
        done
    done
}

# Both checksums, a line each.
sums() {
    sha256sum < "$program" | sed 's/ .*/ program/'
    sources | LC_ALL=C sort | tr '\n' '\0' | xargs -0 sha256sum | sha256sum | sed 's/ .*/ sources/'
}

case ${1:-} in
    check) [ -x "$program" ] && [ -f "$stamp" ] && [ "$(sums)" = "$(cat "$stamp")" ] ;;
    write) sums > "$stamp.new" && mv "$stamp.new" "$stamp" ;;
    *)
        echo "stamp.sh: check or write" >&2
        exit 2
        ;;
esac
