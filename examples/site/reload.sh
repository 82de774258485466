#!/usr/bin/env bash
# Makes two subnets on this machine, as network namespaces, with the gateway between them, and changes a rule while a client on either
# side reads the fan again and again: the one on the second subnet is denied from the answer line on, the other one goes on reading,
# and every read has an answer. Status 1 if anything isn't so.
#
#     sudo examples/site/reload.sh
#
# It wants root, for the namespaces, and ip, python3 and both programs built, as `./bacgw prove` leaves them; BACGW and BACGWCTL name
# others. Everything that it made is gone when it ends.
set -euo pipefail

here=$(cd "$(dirname "$0")" && pwd)
program=$(realpath -m "${BACGW:-$here/../../crates/bacgw/out/bacgw}")
tool=$(realpath -m "${BACGWCTL:-$here/../../crates/bacgwctl/out/bacgwctl}")
work=$(mktemp -d)
gateway=
wrong=0

[ "$(id -u)" = 0 ] || { echo "this wants root: it makes network namespaces" >&2; exit 1; }
for file in "$program" "$tool"; do
    [ -x "$file" ] || { echo "build ${file##*/} first: ./bacgw prove" >&2; exit 1; }
done

clean_up() {
    touch "$work/stop"
    [ -z "$gateway" ] || kill "$gateway" 2> /dev/null || true
    for name in bacgw-gateway bacgw-first bacgw-second; do
        ip netns del "$name" 2> /dev/null || true
    done
    rm -rf "$work"
}
trap clean_up EXIT

# subnet NAME NUMBER HOST: the subnet 10.NUMBER.0.0/24, with this host and the gateway as 10.NUMBER.0.2
subnet() {
    ip netns add "bacgw-$1"
    ip link add "bacgw-$2" netns bacgw-gateway type veth peer name eth0 netns "bacgw-$1"
    ip -n bacgw-gateway addr add "10.$2.0.2/24" broadcast + dev "bacgw-$2"
    ip -n "bacgw-$1" addr add "10.$2.0.$3/24" broadcast + dev eth0
    ip -n bacgw-gateway link set "bacgw-$2" up
    ip -n "bacgw-$1" link set eth0 up
}

# so WHAT TEST..: says that this is so, or isn't
so() {
    if "${@:2}"; then echo "so: $1"; else echo "not so: $1"; wrong=1; fi
}

# changed FILE: since when the last answer in a reader's lines is as it is
changed() { grep -E ' (read|denied)$' "$1" | tail -n 1 | cut -d ' ' -f 1; }

# last FILE: what that answer is
last() { grep -E ' (read|denied)$' "$1" | tail -n 1 | cut -d ' ' -f 2; }

# before A B: one moment is before another
before() { awk -v a="$1" -v b="$2" 'BEGIN { exit !(a < b) }'; }

now() { python3 -c 'import time; print(f"{time.monotonic():.6f}")'; }

ip netns add bacgw-gateway
subnet first 1 5
subnet second 2 9
cd "$work"
cp "$here/site.toml" site.toml
ip netns exec bacgw-gateway "$program" run --config site.toml --log denials.log --reload request --verbose 2> told &
gateway=$!
for _ in $(seq 50); do
    [ -s told ] && break
    sleep 0.1
done
ip netns exec bacgw-first python3 "$here/client.py" reader 10.1.0.2 > first &
first=$!
ip netns exec bacgw-second python3 "$here/client.py" reader 10.2.0.2 > second &
second=$!
sleep 2

# The rule that is put in front: the second subnet may not read the fan.
awk '/^\[\[rule\]\]$/ && !done { print "[[rule]]\nname = \"no-fan\"\nallow = false\noperation = [\"read\"]\nport = [2]\n"
    done = 1 } { print }' site.toml > next.toml
mv next.toml site.toml
asked=$(now)
"$tool" reload --config site.toml --reload request
answered=$(now)
sleep 2
touch stop
wait "$first" "$second"

so "every read of the first client was answered" grep -q ' unanswered 0$' first
so "every read of the second client was answered" grep -q ' unanswered 0$' second
so "the first client still reads" [ "$(last first)" = read ]
so "the second client is denied" [ "$(last second)" = denied ]
so "the second client is denied only after the request" before "$asked" "$(changed second)"
so "the second client is denied from the answer on" before "$(changed second)" "$answered"
grep -h '^reads' first second
exit "$wrong"
