#!/usr/bin/env bash
# Makes a site on this machine, as network namespaces, whose first subnet has a broadcast manager already, and counts by a capture on
# each subnet what is heard there:
#
# - a gateway is beside that manager (`bbmd`): every Who-Is, from whichever subnet, also of a peer of the manager and of a foreign
#   device registered there, is heard once on each subnet. Beside it, for comparison, the gateway as a second manager: there some are
#   heard twice;
# - two gateways that announce (`announce`) and an older router in a row: a host finds a network beyond the last one, at the start and
#   after a restart of each.
#
#     sudo examples/site/neighbours.sh
#
# It wants root, for the namespaces, and ip, python3 and the program built, as `./bacgw prove` leaves it; BACGW names another. The
# managers are gateways of one port. Everything that it made is gone when it ends. The last line says how many agreed.
set -euo pipefail

here=$(cd "$(dirname "$0")" && pwd)
program=$(realpath -m "${BACGW:-$here/../../crates/bacgw/out/bacgw}")
[ "$(id -u)" = 0 ] || { echo "this wants root: it makes network namespaces" >&2; exit 1; }
[ -x "$program" ] || { echo "build bacgw first: ./bacgw prove" >&2; exit 1; }
for tool in ip sysctl python3; do
    command -v "$tool" > /dev/null || { echo "this wants $tool" >&2; exit 1; }
done

work=$(mktemp -d)
declare -A running=() # the processes, by name
names=()
passed=0
failed=0

clean_up() {
    for name in "${!running[@]}"; do kill "${running[$name]}" 2> /dev/null || true; done
    wait || true
    for name in "${names[@]}"; do ip netns del "$name" 2> /dev/null || true; done
    rm -rf "$work"
}
trap clean_up EXIT

# ---- the site

# space NAME: a namespace
space() {
    names+=("near-$1")
    ip netns add "near-$1"
    ip -n "near-$1" link set lo up
}

# subnet NAME NUMBER: the subnet 10.NUMBER.0.0/24, a wire with a host as its fifth address
subnet() {
    space "$1"
    ip -n "near-$1" link add name wire type bridge
    ip -n "near-$1" addr add "10.$2.0.5/24" broadcast + dev wire
    ip -n "near-$1" link set wire up
}

# join NAME SUBNET NUMBER HOST: joins a machine to a subnet, as its address 10.NUMBER.0.HOST
join() {
    ip link add "to-$2" netns "near-$1" type veth peer name "$1" netns "near-$2"
    ip -n "near-$1" addr add "10.$3.0.$4/24" broadcast + dev "to-$2"
    ip -n "near-$1" link set "to-$2" up
    ip -n "near-$2" link set "$1" master wire up
}

for name in first:1 second:2 third:3 far:4 fifth:5 sixth:6; do subnet "${name%:*}" "${name#*:}"; done
for name in router gateway manager peer next last; do space "$name"; done
# The manager of the first subnet, its peer on the third, and the router of IP between these and the foreign device's.
join router first 1 1
join router third 3 1
join router far 4 1
ip netns exec near-router sysctl -qw net.ipv4.ip_forward=1
join manager first 1 3
join peer third 3 3
# The gateway, the next one, and the older router, in a row.
join gateway first 1 2
join gateway second 2 2
join next second 2 3
join next fifth 5 3
join last fifth 5 4
join last sixth 6 4
for name in first:1 manager:1 gateway:1 third:3 peer:3 far:4; do ip -n "near-${name%:*}" route add default via "10.${name#*:}.0.1"; done

# ---- what runs

# text NAME FORMAT..: begins a configuration, with these lines at its top
text() {
    local name=$1 number=$2
    shift 2
    {
        echo "format = 3"
        [ $# = 0 ] || printf '%s\n' "$@"
        printf '%s\n' "[device]" "network = $((100 + number))" "instance = $((1000 + number))" "name = \"$name\"" 'vendor = 999' \
            'vendor_name = "Example"' 'model = "gw-1"' 'firmware = "1"' 'software = "1"' 'revision = 12' 'database = 1'
    } > "$work/$name.toml"
}

# port NAME NETWORK SUBNET HOST LINE..: adds a port to it
port() {
    local name=$1 network=$2 subnet=$3 host=$4
    shift 4
    {
        printf '%s\n' "[[port]]" "network = $network" "address = \"10.$subnet.0.$host:47808\"" "broadcast = \"10.$subnet.0.255:47808\""
        [ $# = 0 ] || printf '%s\n' "$@"
    } >> "$work/$name.toml"
}

# rules NAME LINE..: ends it: what is in the lines is denied, and all else allowed
rules() {
    local name=$1
    shift
    {
        [ $# = 0 ] || printf '%s\n' "[[rule]]" 'name = "silent"' "allow = false" "$@"
        printf '%s\n' "[[rule]]" 'name = "all"' "allow = true"
    } >> "$work/$name.toml"
}

peer() { printf '[[port.peer]]\naddress = "%s:47808"\nmask = "255.255.255.255"' "$1"; }

# start NAME: its gateway, which begins anew
start() {
    stop "$1"
    : > "$work/$1.said"
    ip netns exec "near-$1" "$program" run --config "$work/$1.toml" --log "$work/$1.log" --verbose 2> "$work/$1.said" &
    running[$1]=$!
    for _ in $(seq 100); do
        ! grep -q '^bacgw: serving' "$work/$1.said" || return 0
        sleep 0.1
    done
    cat "$work/$1.said" >&2
    exit 1
}

stop() {
    [ -n "${running[$1]:-}" ] || return 0
    kill "${running[$1]}" 2> /dev/null || true
    wait "${running[$1]}" 2> /dev/null || true
    unset "running[$1]"
}

# host SUBNET WORD..: a host of this subnet does something
host() { ip netns exec "near-$1" python3 "$here/neighbours.py" "${@:2}"; }

# listen SUBNET: keeps what is on its wire
listen() {
    ip netns exec "near-$1" python3 "$here/neighbours.py" ear wire > "$work/$1.heard" &
    running[ear-$1]=$!
    until grep -q ready "$work/$1.heard" 2> /dev/null; do sleep 0.1; done
}

# ---- what is heard

# count SUBNET ADDRESS OCTETS: how many datagrams to this address on this wire have these octets, by an extended pattern
count() { grep -cE "^${2//./\\.} .*$3" "$work/$1.heard" || true; }

# heard OCTETS: how many broadcasts with them each subnet heard, and the foreign device
heard() {
    sleep 1
    echo "$(count first 10.1.0.255 "$1") $(count second 10.2.0.255 "$1") $(count third 10.3.0.255 "$1") $(count far 10.4.0.5 "$1")"
}

# same WHAT FOUND WANTED: says what was found
same() {
    if [ "$2" = "$3" ]; then
        passed=$((passed + 1))
        echo "  $1: $2"
    else
        failed=$((failed + 1))
        echo "  NOT AS EXPECTED: $1: $2, and not $3"
    fi
}

# who_is INSTANCE: a Who-Is for one device, of its own, on every network; so a capture tells each from the others
who_is() { printf '0120FFFF00FF10080A%04X1A%04X' "$1" "$1"; }

# asked INSTANCE: its octets in a capture
asked() { printf '10080A%04X1A%04X' "$1" "$1"; }

# everywhere INSTANCE: a Who-Is from each subnet and from the foreign device, for this device and the next three
everywhere() {
    host first say 10.1.0.5 10.1.0.255 "$(who_is "$1")"
    host second say 10.2.0.5 10.2.0.255 "$(who_is $(($1 + 1)))"
    host third say 10.3.0.5 10.3.0.255 "$(who_is $(($1 + 2)))"
    host far distribute 10.4.0.5 10.1.0.3 "$(who_is $(($1 + 3)))"
}

text manager 1
port manager 1 1 3 "$(peer 10.3.0.3)"
rules manager 'operation = ["list"]'
stations='stations = ["10.1.0.0/24", "10.3.0.0/24", "10.4.0.5/32"]'
text gateway 2
port gateway 1 1 2 "$stations" 'bbmd = "10.1.0.3:47808"'
port gateway 2 2 2 'stations = ["10.2.0.0/24"]'
rules gateway
text peer 3
port peer 1 3 3 "$(peer 10.1.0.3)"
rules peer 'operation = ["list"]'
for name in first second third far; do listen "$name"; done

echo "the gateway beside the manager of the first subnet (heard on the first, the second and the third subnet, by the foreign device):"
for name in manager peer gateway; do start "$name"; done
same "a registration with the manager" "$(host far register 10.4.0.5 10.1.0.3 600)" granted
same "a registration with the gateway" "$(host far register 10.4.0.5 10.1.0.2 600)" refused
everywhere 5001
same "a Who-Is of the first subnet" "$(heard "$(asked 5001)")" "1 1 1 1"
same "a Who-Is of the second subnet" "$(heard "$(asked 5002)")" "1 1 1 1"
same "a Who-Is of the third subnet" "$(heard "$(asked 5003)")" "1 1 1 1"
same "a Who-Is of the foreign device" "$(heard "$(asked 5004)")" "1 1 1 0"
host first say 10.1.0.5 10.1.0.255 "$(who_is 1002)"
same "the I-Am of the gateway's device that is asked on the first subnet" "$(heard 1000C4020003EA)" "1 0 1 1"
host third say 10.3.0.5 10.3.0.255 "$(who_is 1002)"
same "and on the third, beside the first" "$(heard 1000C4020003EA)" "2 0 2 2"

echo "the gateway as a second manager there:"
stop gateway
stop peer
text gateway 2
port gateway 1 1 2 "$stations" "$(peer 10.3.0.3)"
port gateway 2 2 2 'stations = ["10.2.0.0/24"]'
rules gateway
text peer 3
port peer 1 3 3 "$(peer 10.1.0.3)" "$(peer 10.1.0.2)"
rules peer 'operation = ["list"]'
start peer
start gateway
everywhere 6001
same "a Who-Is of the first subnet" "$(heard "$(asked 6001)")" "1 1 2 1"
same "a Who-Is of the third subnet" "$(heard "$(asked 6003)")" "2 1 1 1"

for name in gateway manager peer; do stop "$name"; done
text gateway 2 "announce = true"
port gateway 1 1 2 'bbmd = "10.1.0.3:47808"'
port gateway 2 2 2
rules gateway
text next 4 "announce = true"
port next 2 2 3
port next 5 5 3
rules next
text last 5
port last 5 5 4
port last 6 6 4
rules last
for name in fifth sixth; do listen "$name"; done

# finds: a Who-Is-Router-To-Network for network 6, and how often the first subnet then hears the way
finds() {
    local before
    before=$(count first 10.1.0.255 "018001(....)*0006")
    host first say 10.1.0.5 10.1.0.255 0180000006
    sleep 1
    echo $(($(count first 10.1.0.255 "018001(....)*0006") - before))
}

# reached INSTANCE: by which try a message that names this instance reaches a host of network 6
reached() {
    local try
    for try in 1 2 3; do
        host first pass 10.1.0.5 10.1.0.2 "$(printf '0120000606%sFF10080A%04X1A%04X' 0A060005BAC0 "$1" "$1")"
        sleep 1
        [ "$(count sixth 10.6.0.5 "$(asked "$1")")" = 0 ] || { echo "try $try"; return; }
    done
    echo never
}

echo "two gateways that announce, and an older router in a row; network 6 lies beyond it:"
for name in manager last next gateway; do start "$name"; done
sleep 1
same "the next gateway announces on network 2 the networks that it leads to" "$(count second 10.2.0.255 01800100050068)" 1
same "the gateway announces on network 1 those that it leads to" "$(count first 10.1.0.255 01800100020066)" 1
same "how often a host that asks for network 6 hears the way" "$(finds)" 1
same "a message to it arrives" "$(reached 7001)" "try 1"
for name in gateway next last; do
    start "$name"
    sleep 1
    same "after a restart of the $name: a host that asks hears it" "$(finds)" 1
    case $name in
        next) same "and a message arrives" "$(reached 7002)" "try 2" ;; # the first lets it look for the way
        *) same "and a message arrives" "$(reached "70$passed")" "try 1" ;;
    esac
done
for name in gateway next last; do start "$name"; done
sleep 1
same "after a restart of all three: a host that asks hears it" "$(finds)" 1
same "and a message arrives" "$(reached 7003)" "try 1"
before=$(cat "$work"/*.heard | wc -l)
sleep 3
same "then it is quiet: datagrams in three seconds" "$(($(cat "$work"/*.heard | wc -l) - before))" 0

echo "$passed agreed, $failed failed"
[ "$failed" = 0 ]
