#!/usr/bin/env bash
# Tries what the gateway wants of its host, dist/bacgw.sysctl and dist/bacgw.nft, on the two subnets of site.sh: each attack of a
# neighbour first without them, where it comes through, and then with them.
#
#     sudo examples/site/host.sh
#
# It wants root, for the namespaces, and ip, nft, sysctl, python3, cc and the program built, as `./bacgw prove` leaves it. It changes
# nothing of the machine: a namespace can't set net.core.wmem_default, so a library, made by cc, gives the sockets of the gateway that
# size. Everything that it made is gone when it ends. The last line says how many agreed.
set -euo pipefail

here=$(cd "$(dirname "$0")" && pwd)
dist=$here/../../dist
program=$(realpath -m "${BACGW:-$here/../../crates/bacgw/out/bacgw}")
[ "$(id -u)" = 0 ] || { echo "this wants root: it makes network namespaces" >&2; exit 1; }
[ -x "$program" ] || { echo "build bacgw first: ./bacgw prove" >&2; exit 1; }
for tool in ip nft sysctl python3 cc; do
    command -v "$tool" > /dev/null || { echo "this wants $tool" >&2; exit 1; }
done
work=$(mktemp -d)
gateway=
passed=0
failed=0
names=(host-gateway-$$ host-first-$$ host-second-$$)
clean_up() {
    [ -z "$gateway" ] || kill "$gateway" 2> /dev/null || true
    for name in "${names[@]}"; do ip netns del "$name" 2> /dev/null || true; done
    rm -rf "$work"
}
trap clean_up EXIT
in_gateway() { ip netns exec "${names[0]}" "$@"; }
first() { ip netns exec "${names[1]}" python3 "$here/host.py" "$@"; }
second() { ip netns exec "${names[2]}" python3 "$here/host.py" "$@"; }

# same WHAT TEXT WANTED: the two are the same
same() {
    if [ "$2" = "$3" ]; then
        passed=$((passed + 1))
        echo "  $1: $2"
    else
        failed=$((failed + 1))
        echo "  NOT AS EXPECTED: $1: $2, and not $3"
    fi
}

for name in "${names[@]}"; do ip netns add "$name"; ip -n "$name" link set lo up; done
for number in 1 2; do
    other=${names[$number]}
    ip link add "port$number" netns "${names[0]}" type veth peer name eth0 netns "$other"
    ip -n "${names[0]}" addr add "10.$number.0.2/24" broadcast + dev "port$number"
    ip -n "$other" addr add "10.$number.0.$((number * 4 + 1))/24" broadcast + dev eth0
    ip -n "${names[0]}" link set "port$number" up
    ip -n "$other" link set eth0 up
    ip -n "$other" route add default via "10.$number.0.2"
done

cat > "$work/buffer.c" <<'C'
#define _GNU_SOURCE
#include <dlfcn.h>
#include <sys/socket.h>

/* Half of 1 MiB, which the kernel doubles: as net.core.wmem_default = 1048576 gives it. */
int socket(int domain, int type, int protocol) {
    int (*real)(int, int, int) = dlsym(RTLD_NEXT, "socket");
    int made = real(domain, type, protocol), size = 524288;
    if (made >= 0 && domain == AF_INET) {
        setsockopt(made, SOL_SOCKET, SO_SNDBUFFORCE, &size, sizeof size);
        setsockopt(made, SOL_SOCKET, SO_RCVBUFFORCE, &size, sizeof size);
    }
    return made;
}
C
cc -shared -fPIC -O1 -o "$work/buffer.so" "$work/buffer.c" -ldl

# stop: the gateway is gone, and its port free
stop() {
    [ -z "$gateway" ] || { kill "$gateway" 2> /dev/null || true; wait "$gateway" || true; }
    gateway=
}

# serve [LIBRARY]: a gateway that begins anew
serve() {
    stop
    : > "$work/told"
    ip netns exec "${names[0]}" env LD_PRELOAD="${1:-}" "$program" run --config "$here/../format2/site.toml" --log "$work/log" --verbose --stats 1 2> "$work/told" &
    gateway=$!
    for _ in $(seq 50); do
        ! grep -q '^bacgw: ' "$work/told" || break
        sleep 0.1
    done
    if ! grep -q '^bacgw: serving' "$work/told"; then
        tail -1 "$work/told" >&2
        return 1
    fi
}

# heard ROLE PORT COMMAND...: whether a host hears something at this UDP port once this is done
heard() {
    local role=$1 port=$2
    shift 2
    "$role" hear "$port" > "$work/heard" &
    local ear=$!
    sleep 0.4
    "$@" > /dev/null
    wait "$ear"
    cat "$work/heard"
}

# flooded: how many reads of a present host are answered while 5,000 a second from absent ones are denied
flooded() {
    first flood 7 5000 > "$work/flood" &
    local flood=$!
    sleep 0.5
    first reads 60
    wait "$flood"
}

# dropped TEXT: whether a rule of the firewall with this text dropped anything
dropped() {
    if in_gateway nft list table ip bacgw | grep -F -- "$1" | grep -q 'packets [1-9]'; then echo yes; else echo no; fi
}

# warned: whether the gateway warned at its start that the machine routes
warned() {
    if grep -q '^bacgw: net\.ipv4\.ip_forward ' "$work/told"; then echo yes; else echo no; fi
}

echo "without:"
in_gateway sysctl -qw net.ipv4.conf.all.rp_filter=0 net.ipv4.conf.port1.rp_filter=0 net.ipv4.conf.port2.rp_filter=0
in_gateway sysctl -qw net.ipv4.ip_forward=0
serve
same "the gateway warns of a machine that doesn't route" "$(warned)" no
in_gateway sysctl -qw net.ipv4.ip_forward=1
serve
same "the gateway warns of a machine that routes" "$(warned)" yes
same "a host hears one of the other subnet past the gateway" "$(heard second 5000 first say 10.2.0.9 5000)" heard
in_gateway sysctl -qw net.ipv4.ip_forward=0
same "a read by the address of the other port" "$(first read 10.2.0.2)" answered
same "a read by the broadcast address of the other port" "$(first read 10.2.0.255)" answered
same "a message to UDP port 53 of a host" "$(heard second 53 first pass 10.2.0.9 53)" heard
same "a registration in the name of a host of the other subnet is granted" "$(heard second 47808 first forge 10.1.0.2 10.2.0.9)" heard
same "a message of port 2 to a host of the first subnet" "$(heard first 47809 first pass 10.1.0.5 47809)" heard
echo "  in a flood of 5,000 a second: $(flooded)"
sleep 1
echo "  $(grep '^stats seconds=' "$work/told" | tail -1)"

echo "with:"
# What a namespace has of the settings; those of net.core are the machine's.
in_gateway sysctl -qw net.ipv4.ip_forward=1
grep -oE '^net\.ipv4\.([a-z_]+|conf\.(all|default)\.rp_filter) = [0-9]+' "$dist/bacgw.sysctl" > "$work/sysctl"
size=$(grep -oE '^-net\.ipv4\.neigh\.\*\.unres_qlen_bytes = [0-9]+' "$dist/bacgw.sysctl" | sed 's/.* //')
for number in 1 2; do
    echo "net.ipv4.neigh.port$number.unres_qlen_bytes = $size"
    echo "net.ipv4.conf.port$number.rp_filter = 1"
done >> "$work/sysctl"
in_gateway sysctl -qp "$work/sysctl"
in_gateway nft -f "$dist/bacgw.nft"
in_gateway nft -f "$dist/bacgw.nft"
serve "$work/buffer.so"
same "a host hears one of the other subnet past the gateway" "$(heard second 5000 first say 10.2.0.9 5000)" nothing
in_gateway sysctl -qw net.ipv4.ip_forward=1
same "and BACnet/IP not even where the machine routes" "$(heard second 47808 first say 10.2.0.9 47808)" nothing
in_gateway sysctl -qw net.ipv4.ip_forward=0
same "a read by the address of the port" "$(first read 10.1.0.2)" answered
same "a read by its broadcast address" "$(first read 10.1.0.255)" answered
same "a read by the address of the other port" "$(first read 10.2.0.2)" "no answer"
same "a read by the broadcast address of the other port" "$(first read 10.2.0.255)" "no answer"
same "a message to a host of the other subnet" "$(heard second 47808 first pass 10.2.0.9 47808)" heard
same "a message to UDP port 53 of a host" "$(heard second 53 first pass 10.2.0.9 53)" nothing
same "a message of port 2 to a host of the first subnet" "$(heard first 47809 first pass 10.1.0.5 47809)" nothing
first pass 127.0.0.1 5140 > /dev/null
same "a message to 127.0.0.1 is dropped" "$(dropped 'daddr type { local, multicast }')" yes
first pass 255.255.255.255 47808 > /dev/null
same "a message to 255.255.255.255 is dropped" "$(dropped 'daddr 255.255.255.255')" yes
same "a foreign device of the other subnet" "$(second register 10.1.0.2)" "no answer"
in_gateway nft add element ip bacgw elsewhere '{ 10.2.0.9 . 10.1.0.2 }'
same "and once it is in the set" "$(second register 10.1.0.2)" granted
same "a registration in its name by another interface" "$(heard second 47808 first forge 10.1.0.2 10.2.0.9)" nothing
in_gateway sysctl -qw net.ipv4.conf.all.rp_filter=0 net.ipv4.conf.port1.rp_filter=0
same "and by the firewall alone" "$(heard second 47808 first forge 10.1.0.2 10.2.0.9)" nothing
in_gateway sysctl -qw net.ipv4.conf.all.rp_filter=1 net.ipv4.conf.port1.rp_filter=1
same "in a flood of 5,000 a second" "$(flooded)" "60 of 60 reads are answered"
sleep 1
echo "  $(grep '^stats seconds=' "$work/told" | tail -1)"

echo "where the address of port 2 isn't there at the start:"
stop
ip -n "${names[0]}" addr flush dev port2
same "a start" "$(serve 2>&1)" "bacgw: socket failed on port 2"
in_gateway sysctl -qw net.ipv4.ip_nonlocal_bind=1
serve
same "with ip_nonlocal_bind, a read by port 1" "$(first read 10.1.0.2)" answered
ip -n "${names[0]}" addr add 10.2.0.2/24 broadcast + dev port2
same "and by port 2 once the address is there" "$(second read 10.2.0.2)" answered

echo "$passed agreed, $failed failed"
[ "$failed" = 0 ]
