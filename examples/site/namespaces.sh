# Makes the namespaces of two subnets, each with a host's addresses, and of two gateways between them, until the script ends. It wants
# root, ip and sysctl. It sets names, which are those of the gateway, the other one, and the first and second subnet.
[ "$(id -u)" = 0 ] || { echo "this wants root: it makes network namespaces" >&2; exit 1; }
for tool in ip sysctl python3; do
    command -v "$tool" > /dev/null || { echo "this wants $tool" >&2; exit 1; }
done
names=(site-gateway-$$ site-other-$$ site-first-$$ site-second-$$)
clean_up() {
    for name in "${names[@]}"; do ip netns del "$name" 2> /dev/null || true; done
}
trap clean_up EXIT

for name in "${names[@]}"; do
    ip netns add "$name"
    ip netns exec "$name" sysctl -qw net.ipv4.conf.all.rp_filter=0 net.ipv4.conf.default.rp_filter=0
    ip -n "$name" link set lo up
done
first=${names[2]}
second=${names[3]}
for number in 1 2; do
    subnet=${names[$((number + 1))]}
    ip -n "$subnet" link add name wire type bridge
    ip -n "$subnet" link set wire up
    for gateway in 0 1; do
        ip link add "port$number" netns "${names[$gateway]}" type veth peer name "gateway$gateway" netns "$subnet"
        ip -n "${names[$gateway]}" addr add "10.$number.0.$((gateway + 2))/24" broadcast + dev "port$number"
        ip -n "${names[$gateway]}" link set "port$number" up
        ip -n "$subnet" link set "gateway$gateway" master wire up
    done
done

# The hosts of either side, also those of subnets that lie beyond the first.
for address in 10.1.0.{5,20,66}; do ip -n "$first" addr add "$address/24" broadcast + dev wire; done
for address in 10.3.0.{2,66} 10.9.0.{7,8} 203.0.113.66; do ip -n "$first" addr add "$address/32" dev wire; done
for address in 10.2.0.{9,20,21,66}; do ip -n "$second" addr add "$address/24" broadcast + dev wire; done
for subnet in 10.3.0.0/24 10.9.0.0/24 203.0.113.0/24; do ip -n "${names[0]}" route add "$subnet" dev port1; done
ip -n "${names[0]}" route add default via 10.2.0.66
ip -n "$first" route add default via 10.1.0.2
ip -n "$second" route add default via 10.2.0.2
