#!/usr/bin/env bash
# Tries what keeps forged datagrams from a port, each alone: dist/bacgw.nft, and rp_filter as dist/bacgw.sysctl sets it. In the place of the
# gateway are sockets at its addresses, which tell what reaches them. Every exchange that a site needs must arrive: a host and its
# broadcasts, a peer and a foreign device beyond a router, and with the set `elsewhere` one that comes by another port's interface. And
# what is forged must not: a foreign device, a peer or a host in whose name somebody on another subnet speaks.
#
#     sudo examples/site/firewall.sh
#
# It wants root, for the namespaces, and ip, sysctl, nft and python3. The last line says how many agreed.
set -euo pipefail

here=$(cd "$(dirname "$0")" && pwd)
command -v nft > /dev/null || { echo "this wants nft" >&2; exit 1; }
source "$here/namespaces.sh"
python3 -B "$here/firewall.py" "$here/../../dist" "${names[0]}" "$first" "$second"
