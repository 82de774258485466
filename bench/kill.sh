#!/usr/bin/env bash
# Kills the gateway by SIGKILL at random moments, while it is written to, and starts it again on its state: no write that was
# acknowledged may be missing, and no state may be refused.
#
#     bench/kill.sh [TIMES]        # 1,000 by default
#
# A client writes eight points and a table of peers, registers foreign devices and says which networks it reaches, over the loopback
# device. Of each point and the table it keeps what was acknowledged last and what was sent after it; after the start the gateway must
# have one of these. Then each point's value, slots and default and the table are read, and each answer must be that of a gateway in
# memory (`bacgw replay`) after all acknowledged writes. If strace is there, the gateway is then killed at each of the first 60 calls of
# the system that a kept state takes (openat, write, fsync, rename). If a tmpfs can be mounted, the state is kept on one of 1 MiB that is
# then filled: a granted write gets no answer, a read does, and once there is room again all that was written outlives a kill. So it is on
# one that is read-only for a while, where a state that somebody removes is there again once a write is granted. If strace is there, each
# fsync then takes two seconds and fails: each read must be answered within three, also while the state is tried, and it is tried after 1,
# 2, 4, 8 and 16 seconds alone. Of 600 granted writes at once those beyond 64 in a second get no answer. A gateway that is stopped for
# FROZEN seconds, 10 by default, answers a read within the second after. The last line says how many starts there were, how many
# acknowledged writes, how many were missing, and how many reads were compared and differed; the status is 0 if none was missing, refused
# or other.
#
# It wants python3 and the built program: ./bacgw prove.
set -euo pipefail

top=$(cd "$(dirname "$0")/.." && pwd)
program=$(realpath -m "${BACGW:-$top/crates/bacgw/out/bacgw}")
work=$(mktemp -d)
trap 'rm -rf "$work"' EXIT

[ -x "$program" ] || { echo "build bacgw first: ./bacgw prove" >&2; exit 1; }

exec python3 - "$program" "$work" "${1:-1000}" << 'PYTHON'
import os
import random
import select
import shutil
import signal
import socket
import subprocess
import sys
import time
from pathlib import Path

program, work, times = sys.argv[1], Path(sys.argv[2]), int(sys.argv[3])
CLIENT, GATEWAY, UDP = "127.5.0.5", "127.5.0.10", 47808
POINTS = range(1, 9)
FROZEN = int(os.environ.get("FROZEN", "10"))  # for how many seconds it doesn't run
CALLS = int(os.environ.get("CALLS", "60"))  # at how many calls of each kind it is killed
chance = random.Random(1)

DEVICE = """format = 1
[device]
network = 100
instance = 1234
name = "gateway"
vendor = 999
vendor_name = "Example"
model = "gw-1"
firmware = "1"
software = "1"
revision = 12
database = 1
[[port]]
network = 1
address = "127.5.0.10:47808"
broadcast = "127.5.0.255:47808"
"""
POINT = '[[object]]\ntype = 48\ninstance = {0}\nname = "point-{0}"\ndefault = 0\nunits = 95\n'
RULE = '[[rule]]\nname = "all"\nallow = true\n'
config = work / "kill.toml"
config.write_text(DEVICE + "".join(POINT.format(n) for n in POINTS) + RULE)
state = work / "state"

line = socket.socket(socket.AF_INET, socket.SOCK_DGRAM)
line.bind((CLIENT, UDP))
counts = {"starts": 0, "acknowledged": 0, "missing": 0, "refused": 0, "compared": 0, "other": 0}
invoke_id = 0


def ask(octets, is_answer, seconds=0.5):
    """Sends these octets, and gives the answer to them if it comes in time."""
    line.sendto(octets, (GATEWAY, UDP))
    until = time.monotonic() + seconds
    while (left := until - time.monotonic()) > 0:
        line.settimeout(left)
        try:
            message = line.recv(1508)
        except OSError:
            return None
        if is_answer(message):
            return message
    return None


def request(service, body):
    """A confirmed request to the device, and its invoke id."""
    global invoke_id
    invoke_id = (invoke_id + 1) % 256
    octets = bytes.fromhex("0124006401" "01FF" "0005") + bytes([invoke_id, service]) + body
    return b"\x81\x0a" + (len(octets) + 4).to_bytes(2, "big") + octets, invoke_id


def point_of(instance):
    return b"\x0c" + (48 << 22 | instance).to_bytes(4, "big") + b"\x19\x55"


def write_of(instance, value):
    """A write of a point at priority 8, and what tells its acknowledgement."""
    octets, number = request(0x0F, point_of(instance) + b"\x3e\x22" + value.to_bytes(2, "big") + b"\x3f\x49\x08")
    return octets, lambda message: message[-3:] == bytes([0x20, number, 0x0F])


def write(instance, value):
    """Writes a point at priority 8: whether that was acknowledged."""
    return ask(*write_of(instance, value)) is not None


def read(instance, seconds=0.5):
    """What a point reads as."""
    octets, number = request(0x0C, point_of(instance))
    answer = ask(octets, lambda message: bytes([0x30, number, 0x0C]) in message, seconds)
    if answer is None:
        return None
    value = answer[answer.rindex(b"\x19\x55\x3e") + 3:-1]
    return int.from_bytes(value[1:], "big")


def entries(number):
    """A table of peers, of which no two numbers have the same."""
    return b"".join(bytes([10, 9, number >> 8, number & 255]) + UDP.to_bytes(2, "big") + b"\xff" * 4 for number in (number, number + 1))


def managed(octets):
    """Whether a frame that manages a table gets the Result 0000. A Result doesn't say of which frame it is, so none may be left unread."""
    if ask(octets, lambda message: message == bytes.fromhex("810000060000")) is not None:
        return True
    read(1)
    return False


def table_of(table):
    """A write of the table of peers."""
    return b"\x81\x01" + (len(table) + 4).to_bytes(2, "big") + table


def read_table():
    answer = ask(bytes.fromhex("81020004"), lambda message: message[:2] == b"\x81\x03")
    return None if answer is None else answer[4:]


def start(front=()):
    """A gateway that answers, or None if it doesn't start."""
    words = [*front, program, "run", "--config", str(config), "--log", str(work / "log"), "--state", str(state)]
    # Without a buffer of its own, so that a line that waits is seen.
    gateway = subprocess.Popen(words, bufsize=0, stdin=subprocess.DEVNULL, stderr=subprocess.PIPE, start_new_session=True)
    for _ in range(100):
        if read(1, 0.1) is not None:
            counts["starts"] += 1
            return gateway
        if gateway.poll() is not None:
            return gateway if front else refused(gateway)
    return gateway if front else refused(gateway)


def refused(gateway):
    counts["refused"] += 1
    kill(gateway)
    print("not started:", gateway.stderr.read().decode(errors="replace").strip(), file=sys.stderr)
    shutil.copyfile(state, f"refused-{counts['refused']}")
    return None


def kill(gateway):
    """Kills a gateway, and whatever traces it, and waits until both are gone: they hold its socket."""
    try:
        os.killpg(gateway.pid, signal.SIGKILL)
        gateway.wait()
        for _ in range(500):
            os.killpg(gateway.pid, 0)
            time.sleep(0.01)
    except ProcessLookupError:
        pass
    gateway.wait()


# Of each point and of the table what may be there, each with the datagram that wrote it: what was acknowledged last, and what was sent
# after it.
may_be = {n: [(0, None)] for n in POINTS}
may_be["table"] = [(b"", None)]
# What a gateway in memory gets: the last write of each point and of the table that is there.
there = {}


def sent(name, value, octets, is_answered):
    """Sends a write, and keeps what may be there then."""
    may_be[name].append((value, octets))
    if is_answered():
        may_be[name] = [(value, octets)]
        counts["acknowledged"] += 1


def look():
    """Compares what is there with what may be there, and then with a gateway in memory."""
    for name in may_be:
        found = read_table() if name == "table" else read(name)
        can_be = [(value, octets) for value, octets in may_be[name] if value == found]
        if not can_be:
            counts["missing"] += 1
            print("missing:", name, found, may_be[name], file=sys.stderr)
        else:
            may_be[name] = can_be[-1:]
            there[name] = can_be[-1][1]
    compare()


def reads():
    """A read of each point's value, slots and default and of the table, each with what tells its answer."""
    for instance in POINTS:
        for property_number in (0x55, 0x57, 0x68):
            octets, number = request(0x0C, point_of(instance)[:-1] + bytes([property_number]))
            yield octets, lambda message, number=number: bytes([0x30, number, 0x0C]) in message
    yield bytes.fromhex("81020004"), lambda message: message[:2] == b"\x81\x03"


def compare():
    """Compares the answer to each read with that of a gateway in memory after the writes that are there."""
    front = f"1 {CLIENT}:{UDP} "
    asked = [(octets, ask(octets, is_answer)) for octets, is_answer in reads()]
    script = [octets for octets in there.values() if octets is not None] + [octets for octets, _ in asked]
    text = "".join(front + octets.hex() + "\n" for octets in script)
    replay = subprocess.run([program, "replay", "--config", str(config)], input=text, capture_output=True, text=True, check=True)
    events = replay.stdout.split("end\n")[:-1][-len(asked):]
    for (octets, answer), event in zip(asked, events, strict=True):
        counts["compared"] += 1
        if answer is None or event != f"send {front}{answer.hex().upper()}\n":
            counts["other"] += 1
            print("other:", octets.hex(), answer and answer.hex(), event, file=sys.stderr)


def disturb(moment):
    """Writes, registers and tells of networks until a moment."""
    while time.monotonic() < moment:
        kind = chance.randrange(8)
        if kind == 0:
            table = entries(chance.randrange(60000))
            sent("table", table, table_of(table), lambda: managed(table_of(table)))
        elif kind == 1:
            managed(bytes.fromhex("81050006") + chance.randrange(1, 600).to_bytes(2, "big"))
        elif kind == 2:
            line.sendto(bytes.fromhex("810B0009018001") + chance.randrange(200, 900).to_bytes(2, "big"), (GATEWAY, UDP))
        else:
            n, value = chance.choice(POINTS), chance.randrange(256, 65536)
            octets, is_acknowledged = write_of(n, value)
            sent(n, value, octets, lambda: ask(octets, is_acknowledged) is not None)


# The first start makes the state; the table is then the configured one.
gateway = start()
if gateway is None:
    sys.exit("the gateway doesn't start")
may_be["table"] = [(read_table(), None)]
for _ in range(times):
    disturb(time.monotonic() + chance.uniform(0.001, 0.06))
    kill(gateway)
    gateway = start()
    if gateway is None:
        break
    look()

# Then at each call of the system that a kept state takes.
if gateway is not None and shutil.which("strace"):
    for name in ("openat", "write", "fsync", "rename"):
        for number in range(1, CALLS + 1):
            kill(gateway)
            front = ["strace", "-f", "-o", "/dev/null", "-e", f"trace={name}", "-e", f"inject={name}:signal=SIGKILL:when={number}"]
            gateway = start(front)
            disturb(time.monotonic() + 0.2)
            kill(gateway)
            gateway = start()
            if gateway is None:
                break
            look()
        if gateway is None:
            break
if gateway is not None:
    kill(gateway)


def told(gateway, line, seconds=5):
    """Whether the gateway says that within so many seconds."""
    until = time.monotonic() + seconds
    while (left := until - time.monotonic()) > 0:
        if select.select([gateway.stderr], [], [], left)[0] and gateway.stderr.readline().decode().rstrip("\n") == line:
            return True
    return False


def is_so(what, holds, disk="full"):
    counts[disk] += 1
    if not holds:
        counts["other"] += 1
        print(disk, "disk, not so:", what, file=sys.stderr)


def fill(folder):
    """A state on a disk that is full for a while."""
    global state
    state = folder / "state"
    gateway = start()
    if gateway is None:
        return
    is_so("a write is acknowledged", write(1, 1000))
    with open(folder / "filler", "wb", buffering=0) as filler:
        try:
            while filler.write(bytes(4096)):
                pass
        except OSError:
            pass
    kept = state.read_bytes()
    is_so("a write on a full disk gets no answer", not write(2, 2000))
    is_so("the gateway says so", told(gateway, "bacgw: state isn't kept: no space"))
    is_so("a read is answered", read(1) == 1000)
    is_so("the old state stays", state.read_bytes() == kept)
    (folder / "filler").unlink()
    is_so("the gateway says that it is kept again", told(gateway, "bacgw: state is kept again", 20))
    is_so("a write is acknowledged again", write(3, 3000))
    kill(gateway)
    gateway = start()
    if gateway is not None:
        is_so("what was written outlives a kill", [read(1), read(2), read(3)] == [1000, 2000, 3000])
        kill(gateway)


def forbid(folder):
    """A state on a disk that is read-only for a while, and a state that is removed."""
    global state
    state = folder / "state"
    gateway = start()
    if gateway is None:
        return
    is_so("a write is acknowledged", write(1, 1001), "forbidden")
    subprocess.run(["mount", "-o", "remount,ro", str(folder)], check=True)
    kept = state.read_bytes()
    is_so("a write on a read-only disk gets no answer", not write(2, 2001), "forbidden")
    is_so("the gateway says so", told(gateway, "bacgw: state isn't kept: read-only"), "forbidden")
    is_so("a read is answered", read(1) == 1001, "forbidden")
    is_so("the old state stays", state.read_bytes() == kept, "forbidden")
    subprocess.run(["mount", "-o", "remount,rw", str(folder)], check=True)
    is_so("the gateway says that it is kept again", told(gateway, "bacgw: state is kept again", 20), "forbidden")
    state.unlink()
    is_so("a write is acknowledged again", write(3, 3001), "forbidden")
    is_so("a removed state is there again", state.exists(), "forbidden")
    kill(gateway)
    gateway = start()
    if gateway is not None:
        is_so("what was written outlives a kill", [read(1), read(2), read(3)] == [1001, 2001, 3001], "forbidden")
        kill(gateway)


# Then on a disk that is full for a while, and on one that is read-only for a while.
for kind, tried in (("full", fill), ("forbidden", forbid)):
    folder = work / kind
    folder.mkdir()
    counts[kind] = 0
    if subprocess.run(["mount", "-t", "tmpfs", "-o", "size=1m", "none", str(folder)], capture_output=True).returncode == 0:
        try:
            tried(folder)
        finally:
            subprocess.run(["umount", str(folder)], check=True)
    else:
        print(f"no tmpfs can be mounted: a {kind} disk isn't tried")


def slow(folder):
    """A state on a disk whose fsync takes two seconds and fails, from the first write on: the start takes two calls."""
    global state
    state = folder / "state"
    calls = folder / "fsyncs"
    front = ["strace", "-f", "-o", str(calls), "-e", "trace=fsync", "-e", "inject=fsync:delay_enter=2000000:error=EIO:when=3+"]
    gateway = start(front)
    if gateway is None:
        return
    is_so("a write gets no answer", not write(1, 1500), "slow")
    until = time.monotonic() + 40
    while time.monotonic() < until:
        is_so("a read is answered", read(1, 3) is not None, "slow")
        time.sleep(0.5)
    # At the write, and then after 1, 2, 4, 8 and 16 seconds.
    is_so("the disk rests", calls.read_text().count("fsync(") <= 2 + 6, "slow")
    is_so("a write while it rests gets no answer at once", not write(2, 2000), "slow")
    kill(gateway)


def flood(folder):
    """Granted writes by the hundred: from one second to the next at most 64 are kept, and all else is answered."""
    global state
    state = folder / "state"
    gateway = start()
    if gateway is None:
        return
    writes = [write_of(1, value)[0] for value in range(2, 602)]
    for octets in writes:
        line.sendto(octets, (GATEWAY, UDP))
    # The system drops what its buffer has no room for, so also a read.
    is_so("a read is answered", any(read(2, 1) is not None for _ in range(5)), "flood")
    is_so("the gateway says so", told(gateway, "bacgw: state isn't kept: too many changes"), "flood")
    is_so("the gateway says that it is kept again", told(gateway, "bacgw: state is kept again", 20), "flood")
    line.settimeout(0.2)
    try:
        while True:
            line.recv(1508)
    except OSError:
        pass
    is_so("a write is acknowledged again", write(1, 1000), "flood")
    kill(gateway)


def freeze(folder):
    """A gateway that doesn't run for a while, as a machine that is suspended: the seconds that are due don't deafen it."""
    global state
    state = folder / "state"
    gateway = start()
    if gateway is None:
        return
    is_so("a write is acknowledged", write(1, 1002), "frozen")
    os.kill(gateway.pid, signal.SIGSTOP)
    time.sleep(FROZEN)
    is_so("a read gets no answer", read(1, 0.5) is None, "frozen")
    os.kill(gateway.pid, signal.SIGCONT)
    is_so("a read is answered within a second", read(1, 1) is not None, "frozen")
    is_so("a write within another", write(2, 2002), "frozen")
    kill(gateway)
    gateway = start()
    if gateway is not None:
        is_so("what was written outlives a kill", [read(1), read(2)] == [1002, 2002], "frozen")
        kill(gateway)


counts["flood"] = 0
flood(work)
counts["frozen"] = 0
freeze(work)
counts["slow"] = 0
if shutil.which("strace"):
    slow(work)
else:
    print("no strace: a slow disk isn't tried")
print(", ".join(f"{count} {name}" for name, count in counts.items()))
sys.exit(0 if counts["missing"] == counts["refused"] == counts["other"] == 0 else 1)
PYTHON
