#!/usr/bin/env bash
# Looks at when the log in a file is made to last, and at what comes of it if the system can't do so.
#
#     bench/synced.sh
#
# Of 20 denied reads, four in each of five seconds, fdatasync must be called after each of these seconds and in no other; with a log that
# is a pipe the gateway must go on although it fails there. If the second fdatasync fails (strace), the run must end with the name of the
# log and status 1, and the log must have the lines of the first two seconds. If a tmpfs can be mounted, the log is on one of 1 MiB that is
# full for a while, and the gateway is to hold: a denied read gets no answer, an allowed one does, and once there is room again the log
# has a whole line of each denial, numbered without a gap; also if the log is removed to make room while its last line is cut, with the
# new file of its name. The last line says how often it looked and how often something was not so; the status is 0 if that is never.
#
# It wants python3, strace and the built program: ./bacgw prove. It wants root for the tmpfs.
set -euo pipefail

top=$(cd "$(dirname "$0")/.." && pwd)
program=$(realpath -m "${BACGW:-$top/crates/bacgw/out/bacgw}")
work=$(mktemp -d)
trap 'rm -rf "$work"' EXIT

[ -x "$program" ] || { echo "build bacgw first: ./bacgw prove" >&2; exit 1; }
command -v strace > /dev/null || { echo "it wants strace" >&2; exit 1; }

exec python3 - "$program" "$work" << 'PYTHON'
import os
import signal
import socket
import subprocess
import sys
import time
from pathlib import Path

program, work = sys.argv[1], Path(sys.argv[2])
CLIENT, GATEWAY, UDP = "127.6.0.5", "127.6.0.10", 47808
config = work / "site.toml"
config.write_text(f"""format = 1
[device]
network = 100
instance = 1234
name = "gateway"
vendor = 999
vendor_name = "Example"
model = "gw-1"
firmware = "1"
software = "1"
revision = 12
database = 1
[[port]]
network = 1
address = "{GATEWAY}:{UDP}"
broadcast = "127.6.0.255:{UDP}"
""")
READ = bytes.fromhex("810a00160124006401" "01ff" "0005010c0c01400002" "1955")
NAME = bytes.fromhex("810a00160124006401" "01ff" "0005020c0c020004d2" "194d")
line = socket.socket(socket.AF_INET, socket.SOCK_DGRAM)
line.bind((CLIENT, UDP))
looked = wrong = 0


def is_so(what, holds):
    global looked, wrong
    looked += 1
    if not holds:
        wrong += 1
        print("not so:", what, file=sys.stderr)


def start(log, *inject):
    """The gateway under strace, which shows the syncs, with this log."""
    front = ["strace", "-f", "-o", str(work / "calls"), "-e", "trace=fdatasync", *inject]
    words = [*front, program, "run", "--config", str(config), "--log", str(log)]
    gateway = subprocess.Popen(words, stdin=subprocess.DEVNULL, stderr=subprocess.PIPE, text=True, start_new_session=True)
    time.sleep(2)
    return gateway


def seconds(count):
    """Four denied reads in each of so many seconds."""
    for _ in range(count):
        for _ in range(4):
            line.sendto(READ, (GATEWAY, UDP))
        time.sleep(1)


def syncs():
    return (work / "calls").read_text().count("fdatasync(")


def end(gateway):
    """Ends a gateway and what traces it."""
    os.killpg(gateway.pid, signal.SIGKILL)
    gateway.wait()


log = work / "denials.log"
gateway = start(log)
is_so("nothing was written, and nothing is synced", syncs() == 0)
seconds(5)
time.sleep(2)
is_so("each second after which lines were written", 4 <= syncs() <= 6)
is_so("each denial has a line", log.read_text().count("\n") == 20)
now = syncs()
time.sleep(3)
is_so("and no other", syncs() == now)
end(gateway)

pipe = work / "pipe"
os.mkfifo(pipe)
reader = os.open(pipe, os.O_RDONLY | os.O_NONBLOCK)
gateway = start(pipe)
seconds(3)
time.sleep(1.5)
is_so("a pipe can't be synced, and that is no fault", gateway.poll() is None and syncs() > 0)
is_so("it has the lines", os.read(reader, 65536).count(b"\n") == 12)
end(gateway)
os.close(reader)

log = work / "failing.log"
gateway = start(log, "-e", "inject=fdatasync:error=EIO:when=2+")
seconds(4)
try:
    status = gateway.wait(5)
except subprocess.TimeoutExpired:
    status = None
    end(gateway)
is_so("the run ends with status 1", status == 1)
is_so("the fault names the log", gateway.stderr.read().splitlines()[-1:] == [f"bacgw: log failed: {log}"])
is_so("the lines before are there", log.read_text().count("\n") in (8, 12))



def answer():
    """The first datagram that comes within a second and a half, if any."""
    line.settimeout(1.5)
    try:
        return line.recv(1508)
    except OSError:
        return None


def asked(octets):
    """The answer to this one, after all that came before it."""
    line.settimeout(0.1)
    try:
        while True:
            line.recv(1508)
    except OSError:
        pass
    line.sendto(octets, (GATEWAY, UDP))
    return answer()


def fill(file):
    """Leaves no room on the disk of this file."""
    with open(file, "wb", buffering=0) as filler:
        for size in (4096, 1):
            try:
                while filler.write(bytes(size)):
                    pass
            except OSError:
                pass


def start_holding(log):
    """A gateway with this log that holds if the log fails."""
    words = [program, "run", "--config", str(config), "--log", str(log), "--on-log-failure", "hold"]
    with open(work / "said", "w") as said:
        gateway = subprocess.Popen(words, stdin=subprocess.DEVNULL, stderr=said)
    time.sleep(2)
    return gateway


def numbers(text):
    """The numbers of the denials of a log."""
    return [entry.split()[0] for entry in text.splitlines()]


def removed(folder):
    """A log that is removed while its disk is full and its last line is cut: the rest goes to a new file of its name."""
    log = folder / "removed.log"
    gateway = start_holding(log)
    denied = 36
    is_so("each denied read is answered", all(asked(READ) is not None for _ in range(denied)))
    fill(folder / "filler")
    for _ in range(30):
        line.sendto(READ, (GATEWAY, UDP))
    denied += 30
    time.sleep(1)
    is_so("a denied read on a full disk gets no answer", asked(READ) is None)
    denied += 1
    old = log.read_text()
    is_so("the log's last line is cut", not old.endswith("\n"))
    log.unlink()
    time.sleep(4)
    new = log.read_text() if log.exists() else ""
    whole = numbers(old + new)
    is_so("the old and the new file have each line, in order", whole == [str(number) for number in range(1, denied + 1)])
    is_so("a denied read is answered again", asked(READ) is not None)
    gateway.kill()
    gateway.wait()
    (folder / "filler").unlink()


def hold(folder):
    """A log on a disk that is full for a while, of a gateway that holds."""
    log = folder / "held.log"
    gateway = start_holding(log)
    denied = 4
    is_so("a denied read is answered", all(asked(READ) is not None for _ in range(denied)))
    fill(folder / "filler")
    # A page of the log may have room still.
    for _ in range(60):
        line.sendto(READ, (GATEWAY, UDP))
    denied += 61
    time.sleep(1)
    is_so("a denied read on a full disk gets no answer", asked(READ) is None)
    is_so("an allowed one does", asked(NAME) is not None)
    is_so("not each denial has a line", log.read_text().count("\n") < denied)
    time.sleep(5)
    is_so("an allowed read is answered later too", asked(NAME) is not None)
    (folder / "filler").unlink()
    time.sleep(3)
    whole = numbers(log.read_text())
    is_so("each denial has its line, in order", whole == [str(number) for number in range(1, denied + 1)])
    is_so("a denied read is answered again", asked(READ) is not None)
    notes = ["bacgw: log failed, denied messages wait", "bacgw: log written again"]
    is_so("the gateway says both", (work / "said").read_text().splitlines() == notes)
    gateway.kill()
    gateway.wait()


folder = work / "full"
folder.mkdir()
if subprocess.run(["mount", "-t", "tmpfs", "-o", "size=1m", "none", str(folder)], capture_output=True).returncode == 0:
    config.write_text(config.read_text() + """[[rule]]
name = "hide"
allow = false
object_type = [5]
[[rule]]
name = "all"
allow = true
""")
    try:
        hold(folder)
        removed(folder)
    finally:
        subprocess.run(["umount", str(folder)], check=True)
else:
    print("no tmpfs can be mounted: a log that is held isn't tried")
print(f"{looked} looked at, {wrong} not so")
sys.exit(0 if wrong == 0 else 1)
PYTHON
