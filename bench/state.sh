#!/usr/bin/env bash
# What a granted write costs that is kept in a state: its round trip over the loopback device without --state, with it where the value
# changes and where it doesn't, and beside them a bare loop that replaces a file of the same size (write, fsync, rename, fsync of the
# folder). Prints the median and the worst of each, in milliseconds.
#
#     bench/state.sh [WRITES [FOLDER]]      # 500 by default; FOLDER is where the state is, else a folder of /var/tmp
#
# It wants python3 and the built program: ./bacgw prove.
set -euo pipefail

top=$(cd "$(dirname "$0")/.." && pwd)
program=$(realpath -m "${BACGW:-$top/crates/bacgw/out/bacgw}")
work=$(mktemp -d -p "${2:-/var/tmp}")
trap 'rm -rf "$work"' EXIT

[ -x "$program" ] || { echo "build bacgw first: ./bacgw prove" >&2; exit 1; }

python3 - "$program" "$work" "${1:-500}" << 'PYTHON'
import os
import socket
import statistics
import subprocess
import sys
import time
from pathlib import Path

program, work, writes = sys.argv[1], Path(sys.argv[2]), int(sys.argv[3])
CLIENT, GATEWAY, UDP = "127.5.0.5", "127.5.0.10", 47808
config = work / "state.toml"
config.write_text("""format = 1
[device]
network = 100
instance = 1234
name = "gateway"
vendor = 999
vendor_name = "Example"
model = "gw-1"
firmware = "1"
software = "1"
revision = 12
database = 1
[[port]]
network = 1
address = "127.5.0.10:47808"
broadcast = "127.5.0.255:47808"
[[object]]
type = 48
instance = 1
name = "point"
default = 0
units = 95
[[rule]]
name = "all"
allow = true
""")
line = socket.socket(socket.AF_INET, socket.SOCK_DGRAM)
line.bind((CLIENT, UDP))
line.settimeout(2)


def write(number, value):
    """Writes the point at priority 8, and gives the milliseconds until that is acknowledged."""
    octets = bytes.fromhex("0124006401" "01FF" "0005") + bytes([number % 256, 0x0F]) + b"\x0c" + (48 << 22 | 1).to_bytes(4, "big") \
        + b"\x19\x55\x3e\x22" + value.to_bytes(2, "big") + b"\x3f\x49\x08"
    frame = b"\x81\x0a" + (len(octets) + 4).to_bytes(2, "big") + octets
    before = time.perf_counter()
    line.sendto(frame, (GATEWAY, UDP))
    while line.recv(1508)[-3:] != bytes([0x20, number % 256, 0x0F]):
        pass
    return (time.perf_counter() - before) * 1000


def served(more, values):
    """How long each of these writes takes, to a gateway with more words."""
    gateway = subprocess.Popen([program, "run", "--config", str(config), "--verbose", *more], stdin=subprocess.DEVNULL, stderr=subprocess.PIPE)
    try:
        for _ in range(100):
            try:
                line.settimeout(0.1)
                write(255, 256)
                break
            except OSError:
                pass
        line.settimeout(2)
        return [write(number, value) for number, value in enumerate(values)]
    finally:
        gateway.terminate()
        gateway.wait(timeout=10)


def replaced(octets):
    """How long a file takes to be replaced by these octets, each time."""
    taken = []
    folder = os.open(work, os.O_RDONLY)
    for _ in range(writes):
        before = time.perf_counter()
        with open(work / "bare.new", "wb") as file:
            file.write(octets)
            file.flush()
            os.fsync(file.fileno())
        os.rename(work / "bare.new", work / "bare")
        os.fsync(folder)
        taken.append((time.perf_counter() - before) * 1000)
    return taken


def tell(name, taken):
    print(f"{name}: median {statistics.median(taken):.2f} ms, worst {max(taken):.2f} ms, {len(taken)} writes")


state = ["--state", str(work / "state")]
changing = [256 + number % 60000 for number in range(writes)]
tell("without a state", served([], changing))
tell("with a state, another value each time", served(state, changing))
tell("with a state, the same value", served(state, [500] * writes))
octets = (work / "state").read_bytes()
tell(f"a bare replace of {len(octets)} octets", replaced(octets))
PYTHON
