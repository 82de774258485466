#!/usr/bin/env bash
# Plays the capture ../capture/site.script over UDP to a running gateway between two subnets of this machine, without and with a policy on
# trial that denies all: what leaves the gateway and the log must be the same, octet for octet.
#
#     sudo examples/site/trial.sh [PROGRAM]
#
# It wants root, for the namespaces, and ip, sysctl, python3 and the program built, as `./bacgw prove` leaves it, if none is given.
# Everything that it made is gone when it ends.
set -euo pipefail

here=$(cd "$(dirname "$0")" && pwd)
program=$(realpath -m "${1:-${BACGW:-$here/../../crates/bacgw/out/bacgw}}")
[ -x "$program" ] || { echo "build bacgw first: ./bacgw prove" >&2; exit 1; }
source "$here/namespaces.sh"

python3 -B "$here/trial.py" "$program" "$here/site.toml" "$here/../capture/site.script" "${names[@]}"
