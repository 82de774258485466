#!/usr/bin/env bash
# Makes two subnets on this machine, as network namespaces, with the gateway between them, and lets a small client on either side use
# it: a panel on the first subnet finds the gateway's device and reads two points, of which the policy hides one, and a workstation on
# the second registers as a foreign device of the first.
#
#     sudo examples/site/site.sh
#     sudo CAPTURE=FILE examples/site/site.sh      # keeps a capture of what the gateway hears and sends, by tcpdump
#
# It wants root, for the namespaces, and ip, python3 and the program built, as `./bacgw prove` leaves it. Everything that it made is
# gone when it ends, but for the capture.
set -euo pipefail

here=$(cd "$(dirname "$0")" && pwd)
program=$(realpath -m "${BACGW:-$here/../../crates/bacgw/out/bacgw}")
work=$(mktemp -d)
start=$PWD
gateway=
sniffer=

[ "$(id -u)" = 0 ] || { echo "this wants root: it makes network namespaces" >&2; exit 1; }
[ -x "$program" ] || { echo "build bacgw first: ./bacgw prove" >&2; exit 1; }
for tool in ip python3; do
    command -v "$tool" > /dev/null || { echo "this wants $tool" >&2; exit 1; }
done

clean_up() {
    [ -z "$gateway" ] || kill "$gateway" 2> /dev/null || true
    [ -z "$sniffer" ] || kill "$sniffer" 2> /dev/null || true
    for name in bacgw-gateway bacgw-first bacgw-second; do
        ip netns del "$name" 2> /dev/null || true
    done
    rm -rf "$work"
}
trap clean_up EXIT

# subnet NAME NUMBER HOST: the subnet 10.NUMBER.0.0/24, with this host and the gateway as 10.NUMBER.0.2
subnet() {
    ip netns add "bacgw-$1"
    ip link add "bacgw-$2" netns bacgw-gateway type veth peer name eth0 netns "bacgw-$1"
    ip -n bacgw-gateway addr add "10.$2.0.2/24" broadcast + dev "bacgw-$2"
    ip -n "bacgw-$1" addr add "10.$2.0.$3/24" broadcast + dev eth0
    ip -n bacgw-gateway link set "bacgw-$2" up
    ip -n "bacgw-$1" link set eth0 up
    ip -n "bacgw-$1" route add default via "10.$2.0.2"
}

ip netns add bacgw-gateway
subnet first 1 5
subnet second 2 9

cd "$work"
if [ -n "${CAPTURE:-}" ]; then
    ip netns exec bacgw-gateway tcpdump -q -U -i any -w capture 'udp port 47808' 2> sniffer &
    sniffer=$!
    until grep -q listening sniffer 2> /dev/null; do sleep 0.1; done
fi
ip netns exec bacgw-gateway "$program" run --config "$here/site.toml" --log denials.log --verbose 2> told &
gateway=$!
for _ in $(seq 50); do
    [ -s told ] && break
    sleep 0.1
done
cat told

echo "the workstation, 10.2.0.9 on the second subnet:"
ip netns exec bacgw-second python3 "$here/client.py" workstation 10.1.0.2 > workstation.out &
workstation=$!
sleep 0.5
echo "the panel, 10.1.0.5 on the first subnet:" > panel.out
ip netns exec bacgw-first python3 "$here/client.py" panel 10.1.0.255 >> panel.out
wait "$workstation"
cat workstation.out panel.out

echo "the log:"
sed 's/^/  /' denials.log

if [ -n "$sniffer" ]; then
    sleep 1
    kill "$sniffer"
    wait "$sniffer" || true
    sniffer=
    (cd "$start" && cp "$work/capture" "$CAPTURE")
fi
