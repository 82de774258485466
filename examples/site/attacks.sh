#!/usr/bin/env bash
# Sends each attack of ../attacks/attacks.tsv over UDP to a running gateway between two subnets of this machine: under
# ../attacks/format2.toml, where what the attack is after must leave the gateway, and under ../attacks/format3.toml, where it must not,
# and where the log must have the denials of the table. For the last kind two gateways run, and send each other many datagrams under
# format 2, and none under format 3.
#
#     sudo examples/site/attacks.sh [PROGRAM]
#     sudo FIREWALL=yes examples/site/attacks.sh [PROGRAM]    # with dist/bacgw.nft in front of the gateway
#
# The firewall keeps some attacks out by itself, also under format 2. So with it no attack needs to succeed under format 2, and the log
# under format 3 may lack denials of the table, but has no other.
#
# It wants root, for the namespaces, and ip, sysctl, python3 and the program built, as `./bacgw prove` leaves it, if none is given.
# Everything that it made is gone when it ends. The last line says how many agreed.
set -euo pipefail

here=$(cd "$(dirname "$0")" && pwd)
program=$(realpath -m "${1:-${BACGW:-$here/../../crates/bacgw/out/bacgw}}")
[ -x "$program" ] || { echo "build bacgw first: ./bacgw prove" >&2; exit 1; }
source "$here/namespaces.sh"

firewall=${FIREWALL:-}
[ -z "$firewall" ] || for gateway in 0 1; do ip netns exec "${names[$gateway]}" nft -f "$here/../../dist/bacgw.nft"; done
FIREWALL=$firewall python3 -B "$here/attacks.py" "$program" "$here/../attacks" "${names[@]}"
