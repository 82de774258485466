#!/usr/bin/env bash
# What a gateway does that is asked again and again to read its configuration, over the loopback device:
#
# - so many reloads in a row, each answered, and its resident memory after the first hundred and after the last;
# - a faulty file, a missing file and other ports: each refused with its line, and the point reads as before;
# - a file that is renamed over without end while it is read: each answer is of one whole policy, by which the point then reads;
# - kill -9 between a request and its answer: the next run takes the request, and the written value is there.
#
#     bench/reloads.sh [RELOADS [SWAPS]]      # 1000 and 60 by default; a reload takes a second, the gateway's tick
#
# It wants python3 and the built program: ./bacgw prove. Status 1 if anything isn't so.
set -euo pipefail

top=$(cd "$(dirname "$0")/.." && pwd)
program=$(realpath -m "${BACGW:-$top/crates/bacgw/out/bacgw}")
work=$(mktemp -d -p /var/tmp)
trap 'rm -rf "$work"' EXIT

[ -x "$program" ] || { echo "build bacgw first: ./bacgw prove" >&2; exit 1; }

python3 - "$program" "$work" "${1:-1000}" "${2:-60}" << 'PYTHON'
import os
import re
import signal
import socket
import subprocess
import sys
import threading
import time
from pathlib import Path

program, work, reloads, swaps = sys.argv[1], Path(sys.argv[2]), int(sys.argv[3]), int(sys.argv[4])
CLIENT, GATEWAY, UDP = "127.26.0.5", "127.26.0.10", 47808
config, request, answer = work / "site.toml", work / "request", work / "request.answer"
DEVICE = """format = 1
[device]
network = 100
instance = 1234
name = "gateway"
vendor = 999
vendor_name = "Example"
model = "gw-1"
firmware = "1"
software = "1"
revision = 12
database = 1
[[port]]
network = 1
address = "127.26.0.10:47808"
broadcast = "127.26.0.255:47808"
[[object]]
type = 48
instance = 1
name = "point"
default = 0
units = 95
"""
HIDE = '[[rule]]\nname = "hide"\nallow = false\noperation = ["read"]\n'
ALL = '[[rule]]\nname = "all"\nallow = true\n'
OPEN, CLOSED = DEVICE + ALL, DEVICE + HIDE + ALL
line = socket.socket(socket.AF_INET, socket.SOCK_DGRAM)
line.bind((CLIENT, UDP))
line.settimeout(2)
number = 0
wrong = 0


def ask(service, parameters):
    """A request to the device, and its answer's APDU."""
    global number
    number = (number + 1) % 256
    octets = bytes.fromhex("0124006401" "01FF" "0005") + bytes([number, service]) + parameters
    line.sendto(b"\x81\x0a" + (len(octets) + 4).to_bytes(2, "big") + octets, (GATEWAY, UDP))
    while True:
        apdu = line.recv(1508)[10:]
        if apdu[1] == number:
            return apdu


POINT = b"\x0c" + (48 << 22 | 1).to_bytes(4, "big") + b"\x19\x55"


def is_read():
    """Whether the point may be read."""
    return ask(12, POINT)[0] >> 4 == 3


def write(value):
    """Writes the point at priority 8."""
    return ask(15, POINT + b"\x3e\x22" + value.to_bytes(2, "big") + b"\x3f\x49\x08")[0] >> 4 == 2


def start(*more):
    """A gateway that serves."""
    words = [program, "run", "--config", str(config), "--reload", str(request), "--verbose", *more]
    gateway = subprocess.Popen(words, stdin=subprocess.DEVNULL, stdout=subprocess.DEVNULL, stderr=subprocess.PIPE)
    gateway.stderr.readline()
    threading.Thread(target=gateway.stderr.read, daemon=True).start()
    return gateway


def reload():
    """The answer to a request, and how long it took; the file that asks is whole at once."""
    answer.unlink(missing_ok=True)
    request.touch()
    until = time.monotonic() + 10
    while not answer.exists() and time.monotonic() < until:
        time.sleep(0.01)
    return answer.read_text() if answer.exists() else "no answer\n"


def put(text):
    """Gives the configuration another text at once."""
    (work / "next").write_text(text)
    os.replace(work / "next", config)


def expect(what, is_so, said=""):
    """Says what isn't so."""
    global wrong
    if not is_so:
        wrong += 1
        print(f"not so: {what}: {said}".rstrip())


def resident(gateway):
    """Its resident memory, in KiB."""
    return int(re.search(r"VmRSS:\s+(\d+)", Path(f"/proc/{gateway.pid}/status").read_text())[1])


put(OPEN)
gateway = start("--state", str(work / "state"), "--stats", "4294967295")
try:
    expect("the first read", is_read())
    expect("the write", write(2101))
    first = 0
    for turn in range(reloads):
        put(CLOSED if turn % 2 == 0 else OPEN)
        said = reload()
        expect(f"reload {turn + 1}", said.startswith("reload: "), said)
        expect(f"the read after reload {turn + 1}", is_read() == (turn % 2 == 1))
        if turn == min(99, reloads - 1):
            first = resident(gateway)
    print(f"{reloads} reloads in a row: {first} KiB after the first {min(100, reloads)}, {resident(gateway)} KiB at the end")
    expect("memory stays", resident(gateway) <= first + 512)

    put(OPEN)
    expect("the policy that stays", reload().startswith("reload: "))
    put(CLOSED.replace("allow = false", "allow = 7"))
    said = reload()
    place = subprocess.run([program, "check", "--config", str(config)], capture_output=True, text=True).stdout
    expect("a faulty file", said == "reload refused: configuration: Kind: " + place, said)
    config.unlink()
    said = reload()
    expect("a missing file", said == "reload refused: cannot read configuration: no such file\n", said)
    put(CLOSED.replace('"127.26.0.10:47808"', '"127.26.0.11:47808"'))
    said = reload()
    expect("other ports", said == "reload refused: the ports differ: restart for them\n", said)
    expect("the read after three refusals", is_read())
    print("a faulty file, a missing file, other ports: refused" if not wrong else "")

    stop = threading.Event()

    def swap():
        """Renames one policy and the other over the file until it is to stop."""
        (work / "open").write_text(OPEN)
        (work / "closed").write_text(CLOSED)
        while not stop.is_set():
            for name in ("open", "closed"):
                os.link(work / name, work / "swap")
                os.replace(work / "swap", config)

    swapper = threading.Thread(target=swap)
    put(OPEN)
    swapper.start()
    seen = {1: 0, 2: 0}
    for turn in range(swaps):
        said = reload()
        rules = re.match(r"reload: ([12]) rules \(", said)
        expect("an answer while the file is swapped", rules, said)
        if rules:
            seen[int(rules[1])] += 1
            expect("a read by the policy of the answer", is_read() == (rules[1] == "1"))
    stop.set()
    swapper.join()
    print(f"{swaps} reloads of a file that is swapped: {seen[1]} of the one policy, {seen[2]} of the other")

    put(CLOSED)
    answer.unlink(missing_ok=True)
    request.touch()
    gateway.send_signal(signal.SIGKILL)
    gateway.wait()
    expect("no answer of a killed gateway", not answer.exists())
    gateway = start("--state", str(work / "state"))
    expect("the new policy at once", not is_read())
    time.sleep(2.5)
    expect("the request is taken after the start", not request.exists() and answer.exists())
    put(OPEN)
    expect("a reload after the start", reload().startswith("reload: "))
    expect("the value that was written", ask(12, POINT)[-3:] == b"\x08\x35\x3f")
    print("killed between a request and its answer: the next run took it, and the value is there")
finally:
    gateway.kill()
sys.exit(1 if wrong else 0)
PYTHON
