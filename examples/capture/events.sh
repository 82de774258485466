#!/usr/bin/env bash
# Writes the event lines of a capture, as `bacgw replay` reads them: what came to the gateway's ports, and a tick for each second.
#
#     examples/capture/events.sh CONFIG.toml FILE.pcapng | bacgw replay --config NEW.toml
#
# The ports are those of CONFIG.toml: a datagram comes on a port where it goes to its own or its broadcast address, and what the
# gateway sent itself is left out. Seconds count from the first frame of the capture. A configuration without ports is a fault, with
# status 1. It wants tshark, and python3 of 3.11 or later, which reads TOML.
set -euo pipefail

[ $# = 2 ] || { echo "usage: $0 CONFIG.toml FILE.pcapng" >&2; exit 2; }
fields=(frame.time_relative ip.src udp.srcport ip.dst udp.dstport udp.payload)

# In the order of the ports: its number, its own address, its broadcast address.
ports=$(python3 -c '
import sys, tomllib

try:
    with open(sys.argv[1], "rb") as file:
        ports = tomllib.load(file).get("port", [])
    rows = ["%d %s %s" % (number, port["address"], port["broadcast"]) for number, port in enumerate(ports, 1)]
except (OSError, ValueError, KeyError, TypeError, AttributeError) as fault:
    sys.exit(f"{sys.argv[1]}: no configuration: {fault!r}")
if not rows:
    sys.exit(f"{sys.argv[1]}: no port")
print("\n".join(rows))
' "$1")

tshark -r "$2" -Y 'udp && !icmp' -T fields -E separator=' ' "${fields[@]/#/-e}" | awk '
    FNR == NR { port_of[$2] = port_of[$3] = $1; own[$2] = 1; next }

    NF == 6 && !(($2 ":" $3) in own) && (($4 ":" $5) in port_of) {
        for (; seconds < int($1); seconds++) print "tick"
        gsub(":", "", $6)
        print port_of[$4 ":" $5], $2 ":" $3, toupper($6)
    }' <(printf '%s\n' "$ports") -
