"""Tries `bacgw run` on the loopback device, by the standard library alone.

    loopback.py serve PROGRAM FILE LOG       reads points by each of its sockets, also behind a pause, and ends it by SIGTERM
    loopback.py taken PROGRAM FILE ADDRESS   runs it while a socket stands at this address
    loopback.py rotate PROGRAM FILE LOG      copies the log to LOG.1 and cuts it between two denied reads
    loopback.py ports PROGRAM FILE COUNT     reads a point by each socket of so many ports, while nothing else comes and in a flood
    loopback.py short PROGRAM FILE LIBRARY   runs it for four turns under this library, reads a point, and prints what of its counts
                                             says how many sends failed, in all and on port 1, and on which ports they fail
    loopback.py broadcast PROGRAM FILE       runs it for eight turns, has it send two broadcasts and prints what its counts of port 2 say
                                             of them
    loopback.py burst PROGRAM FILE           gives it 16 reads at once, and prints whether all were answered within a second
    loopback.py first PROGRAM FILE OCTETS    gives a run of eight turns these octets, and prints its answer
    loopback.py kept PROGRAM FILE LOG STATE  writes a point, and kills the gateway by SIGKILL once that is acknowledged, twice; and
                                             reads it after each start
    loopback.py reload PROGRAM TOOL FILE NEW REQUEST
                                             has a gateway take over another configuration, and then a faulty one, which it refuses;
                                             TOOL is `bacgwctl`
    loopback.py requests PROGRAM FILE REQUEST
                                             puts what is no request under the name of REQUEST, and then requests that name another text,
                                             the one that is there, and none; prints what became of each
    loopback.py noted PROGRAM TOOL FILE LOG REQUEST
                                             lets a read be denied by a gateway whose log has stamps and notes, has it read its
                                             configuration again, renames the log to LOG.1, and lets a read be denied again
    loopback.py watched PROGRAM FILE TRIAL LOG [OPTION..]
                                             reads two points of a gateway beside which TRIAL is on trial, with the log LOG.trial, and
                                             which audits to LOG.audit; ends it by SIGTERM; and all that again

It prints the answers in hexadecimal and the exit status; what the gateway tells goes to standard error.
"""

import hashlib
import os
import re
import shutil
import signal
import socket
import subprocess
import sys
import threading
import time

CLIENT, PORT_1, PORT_2, UDP = "127.3.0.5", "127.3.0.10", "127.4.0.10", 47808
BROADCAST_1, BROADCAST_2 = "127.3.0.255", "127.4.0.255"
FLOODER = "127.3.0.6"
READ_FAN = bytes.fromhex("810A0016012400640101FF00050D0C0C014000011955")
PAUSE = 2.5  # seconds without a datagram


def open_line(address):
    """A socket at this address, which waits two seconds at most."""
    line = socket.socket(socket.AF_INET, socket.SOCK_DGRAM)
    line.bind((address, UDP))
    line.settimeout(2)
    return line


def read(line, number, instance, to):
    """Reads Present_Value of a Binary Value of the device on network 100 by this socket, and prints the answer (clause 15.5)."""
    npdu = bytes.fromhex("0124006401" "01FF")
    apdu = bytes([0x00, 0x05, number, 0x0C, 0x0C]) + (5 << 22 | instance).to_bytes(4, "big") + b"\x19\x55"
    line.sendto(b"\x81\x0a" + (len(npdu + apdu) + 4).to_bytes(2, "big") + npdu + apdu, (to, UDP))
    message, sender = line.recvfrom(1508)
    print(sender[0], message.hex().upper())


def processor_time(process):
    """The seconds of a processor that a process has taken."""
    with open(f"/proc/{process}/stat", "rb") as file:
        fields = file.read().rpartition(b")")[2].split()
    return (int(fields[11]) + int(fields[12])) / os.sysconf("SC_CLK_TCK")


def serve(program, file, log):
    """Reads the fan and the door of a gateway that serves, the fan again by each socket behind a pause, and the door, and ends it."""
    words = [program, "run", "--config", file, "--log", log, "--verbose"]
    gateway = subprocess.Popen(words, stdin=subprocess.DEVNULL, stderr=subprocess.PIPE)
    try:
        sys.stderr.buffer.write(gateway.stderr.readline())
        line = open_line(CLIENT)
        read(line, 7, 1, PORT_1)
        read(line, 8, 2, PORT_1)
        before = processor_time(gateway.pid)
        time.sleep(PAUSE)
        print("idle" if processor_time(gateway.pid) - before < 0.1 else "busy", "without a datagram")
        for number, to in enumerate((BROADCAST_2, PORT_2, BROADCAST_1), 9):
            read(line, number, 1, to)
            time.sleep(1.2)
        read(line, 12, 2, PORT_1)
    finally:
        gateway.send_signal(signal.SIGTERM)
        print("status", gateway.wait(timeout=10))


def start(program, *words):
    """A gateway that serves."""
    gateway = subprocess.Popen([program, "run", "--verbose", *words], stdin=subprocess.DEVNULL, stderr=subprocess.PIPE)
    gateway.stderr.readline()
    return gateway


def write(line, number, instance, value, to):
    """Writes Present_Value of a Binary Value at priority 8, and prints the answer (clause 15.9)."""
    npdu = bytes.fromhex("0124006401" "01FF")
    point = (5 << 22 | instance).to_bytes(4, "big")
    apdu = bytes([0x00, 0x05, number, 0x0F, 0x0C]) + point + b"\x19\x55\x3e\x91" + bytes([value]) + b"\x3f\x49\x08"
    line.sendto(b"\x81\x0a" + (len(npdu + apdu) + 4).to_bytes(2, "big") + npdu + apdu, (to, UDP))
    print(line.recvfrom(1508)[0].hex().upper())


def kept(program, file, log, state):
    """Kills a gateway once a write is acknowledged, and reads what the next one makes of it."""
    line = open_line(CLIENT)
    for run, value in enumerate((0, 1, 0)):
        gateway = start(program, "--config", file, "--log", log, "--state", state)
        try:
            read(line, 20 + 3 * run, 1, PORT_1)
            read(line, 21 + 3 * run, 2, PORT_1)
            write(line, 22 + 3 * run, 1, value, PORT_1)
        finally:
            gateway.kill()
            gateway.wait(timeout=10)


def watched(program, file, trial, log, *more):
    """Reads the fan and the door of a gateway with a policy on trial and an audit, and of the next one."""
    line = open_line(CLIENT)
    words = ["--config", file, "--log", log, "--trial", trial, "--trial-log", log + ".trial", "--audit", log + ".audit", *more]
    for run in range(2):
        gateway = start(program, *words)
        try:
            read(line, 40 + 2 * run, 1, PORT_1)
            read(line, 41 + 2 * run, 2, PORT_1)
        finally:
            gateway.send_signal(signal.SIGTERM)
            print("status", gateway.wait(timeout=10))


def reload(program, tool, file, new, request):
    """Reads the door of a gateway before and after it takes over a configuration under which it may be read, and after a faulty one."""
    line = open_line(CLIENT)
    gateway = start(program, "--config", file, "--reload", request)
    again = [tool, "reload", "--config", file, "--reload", request]
    try:
        read(line, 30, 2, PORT_1)
        shutil.copyfile(new, file)
        print("status", subprocess.run(again, timeout=20).returncode, flush=True)
        read(line, 31, 2, PORT_1)
        with open(file, "w", encoding="utf-8") as text:
            text.write("no configuration")
        print("status", subprocess.run(again, timeout=20).returncode, flush=True)
        open(request, "w", encoding="utf-8").close()
        until = time.monotonic() + 5
        while not os.path.exists(request + ".answer") and time.monotonic() < until:
            time.sleep(0.05)
        with open(request + ".answer", encoding="utf-8") as answer:
            print(answer.read(), end="", flush=True)
        read(line, 32, 2, PORT_1)
    finally:
        gateway.kill()
        gateway.wait(timeout=10)


def named(text):
    """A request to read a configuration of this text again, and no other."""
    return b"reload %d %s\n" % (len(text), hashlib.sha256(text).hexdigest().encode())


def put(file, text):
    """Gives a file this text, whole at once."""
    with open(file + ".made", "wb") as made:
        made.write(text)
    os.replace(file + ".made", file)


def asked(request, text):
    """The answer to a request of this text."""
    put(request, text)
    until = time.monotonic() + 5
    while not os.path.exists(request + ".answer") and time.monotonic() < until:
        time.sleep(0.05)
    with open(request + ".answer", "rb") as answer:
        told = answer.read().decode()
    os.remove(request + ".answer")
    return told


def requests(program, file, request):
    """Puts no requests under the name of a request, and then requests."""
    gateway = start(program, "--config", file, "--reload", request)
    empty = request + ".empty"
    open(empty, "wb").close()
    with open(file, "rb") as text:
        config = text.read()
    try:
        for name, make in (
            ("a text", lambda: put(request, b"format = 1\n")),
            ("two lines", lambda: put(request, named(config) + b"\n")),
            ("a link", lambda: os.symlink(empty, request)),
            ("a folder", lambda: os.mkdir(request)),
        ):
            make()
            time.sleep(2.2)
            print(name, "stays" if os.path.lexists(request) else "is gone", flush=True)
            (os.rmdir if os.path.isdir(request) else os.remove)(request)
            time.sleep(1.1)
        print(asked(request, named(b"another text")), end="", flush=True)
        print(asked(request, named(config)).split(" (")[0], flush=True)
        print(asked(request, b"").split(" (")[0], flush=True)
    finally:
        gateway.kill()
        gateway.wait(timeout=10)


def noted(program, tool, file, log, request):
    """Reads the door of a gateway whose log has stamps and notes, has it reload, renames the log, and reads the door again."""
    line = open_line(CLIENT)
    gateway = start(program, "--config", file, "--log", log, "--stamp", "--reload", request)
    try:
        read(line, 50, 2, PORT_1)
        again = [tool, "reload", "--config", file, "--reload", request]
        print("status", subprocess.run(again, stdout=subprocess.DEVNULL, timeout=20).returncode, flush=True)
        os.rename(log, log + ".1")
        time.sleep(1.1)
        read(line, 51, 2, PORT_1)
    finally:
        gateway.kill()
        gateway.wait(timeout=10)


def taken(program, file, address):
    """Runs a gateway of which one socket can't be opened."""
    line = open_line(address)
    words = [program, "run", "--config", file, "--turns", "1", "--verbose"]
    print("status", subprocess.run(words, stdin=subprocess.DEVNULL, timeout=10).returncode)
    line.close()


def rotate(program, file, log):
    """Lets a read be denied before and after what logrotate does, by renaming and under `copytruncate`, and after the file is removed."""
    gateway = subprocess.Popen([program, "run", "--config", file, "--log", log, "--verbose"], stdin=subprocess.DEVNULL, stderr=subprocess.PIPE)
    try:
        gateway.stderr.readline()
        line = open_line(CLIENT)
        read(line, 11, 2, PORT_1)
        shutil.copyfile(log, log + ".1")
        os.truncate(log, 0)
        read(line, 12, 2, PORT_1)
        for number, change in ((13, lambda: os.rename(log, log + ".2")), (14, lambda: os.remove(log))):
            change()
            time.sleep(1.1)
            read(line, number, 2, PORT_1)
            print(open(log).read(), end="")
    finally:
        gateway.terminate()
        gateway.wait(timeout=10)


def short(program, file, library):
    """Reads the fan of a gateway whose sends go through a library, and prints how many of them it counts as failed, also by port."""
    words = [program, "run", "--config", file, "--turns", "4", "--stats", "60", "--verbose"]
    loaded = {**os.environ, "LD_PRELOAD": library}
    gateway = subprocess.Popen(words, stdin=subprocess.DEVNULL, stderr=subprocess.PIPE, env=loaded)
    line = open_line(CLIENT)
    gateway.stderr.readline()
    read(line, 13, 1, PORT_1)
    _, told = gateway.communicate(timeout=20)
    told = told.decode()
    print(*re.findall(r"^stats seconds=.*\b(send_failures=\d+)", told, re.M)[-1:])
    print(*re.findall(r"^stats port=1 .*", told, re.M)[-1:])
    print("".join(line + "\n" for line in re.findall(r"^port \d: sends .*", told, re.M)[-1:]), end="")


def broadcast(program, file):
    """Gives a gateway two messages for all of network 2, and prints what it counts of them on port 2."""
    words = [program, "run", "--config", file, "--turns", "8", "--stats", "60", "--verbose"]
    gateway = subprocess.Popen(words, stdin=subprocess.DEVNULL, stderr=subprocess.PIPE)
    line = open_line(CLIENT)
    gateway.stderr.readline()
    for _ in range(2):
        line.sendto(bytes.fromhex("810A000C0120000200FF1008"), (PORT_1, UDP))
    _, told = gateway.communicate(timeout=20)
    print(*re.findall(r"^stats port=2 .*\b(sends=\d+ send_failures=\d+)$", told.decode(), re.M)[-1:])


def first(program, file, octets):
    """Gives a gateway that takes eight turns one datagram, and prints its answer."""
    gateway = subprocess.Popen([program, "run", "--config", file, "--turns", "8", "--verbose"], stdin=subprocess.DEVNULL, stderr=subprocess.PIPE)
    line = open_line(CLIENT)
    gateway.stderr.readline()
    line.sendto(bytes.fromhex(octets), (PORT_1, UDP))
    print(line.recvfrom(1508)[0].hex().upper())
    gateway.communicate(timeout=20)


def burst(program, file):
    """Gives 16 reads at once to each socket of port 1, and prints how many of them were answered, and whether within a second."""
    gateway = subprocess.Popen([program, "run", "--config", file, "--verbose"], stdin=subprocess.DEVNULL, stderr=subprocess.PIPE)
    try:
        gateway.stderr.readline()
        line = open_line(CLIENT)
        for to in (PORT_1, BROADCAST_1):
            start = time.monotonic()
            for _ in range(16):
                line.sendto(READ_FAN, (to, UDP))
            answers = [line.recvfrom(1508) for _ in range(16)]
            print(len(answers), "answers", "within a second" if time.monotonic() - start < 1 else "too late")
    finally:
        gateway.terminate()
        gateway.wait(timeout=10)


def flood(to, is_over):
    """Keeps 64 reads in flight at a socket, until it is over."""
    line = socket.socket(socket.AF_INET, socket.SOCK_DGRAM)
    line.bind((FLOODER, UDP))
    line.settimeout(0.2)
    for _ in range(64):
        line.sendto(READ_FAN, (to, UDP))
    while not is_over.is_set():
        try:
            line.recvfrom(1508)
        except socket.timeout:
            pass
        line.sendto(READ_FAN, (to, UDP))
    line.close()


def answered(line, address):
    """Whether a read by the socket at this address is answered."""
    line.sendto(READ_FAN, (address, UDP))
    try:
        return line.recvfrom(1508)[0][:2] == b"\x81\x0a"
    except socket.timeout:
        return False


def ports(program, file, count):
    """Reads the fan by each socket of so many ports, each of which was empty a moment ago: three times while nothing else comes, and
    three times while another socket is flooded."""
    sockets = [f"127.{number}.0.{host}" for number in range(3, 3 + int(count)) for host in (10, 255)]
    gateway = subprocess.Popen([program, "run", "--config", file, "--verbose"], stdin=subprocess.DEVNULL, stderr=subprocess.PIPE)
    try:
        gateway.stderr.readline()
        line = open_line(CLIENT)
        quiet = sum(answered(line, address) for _ in range(3) for address in sockets)
        print(f"{quiet} of {3 * len(sockets)} reads are answered")
        for flooded in (PORT_1, BROADCAST_2):
            is_over = threading.Event()
            flooder = threading.Thread(target=flood, args=(flooded, is_over))
            flooder.start()
            loud = sum(answered(line, address) for _ in range(3) for address in sockets)
            is_over.set()
            flooder.join()
            print(f"{loud} of {3 * len(sockets)} in a flood at {flooded}")
    finally:
        gateway.terminate()
        gateway.wait(timeout=10)


{
    "serve": serve,
    "taken": taken,
    "rotate": rotate,
    "ports": ports,
    "short": short,
    "broadcast": broadcast,
    "burst": burst,
    "first": first,
    "kept": kept,
    "reload": reload,
    "requests": requests,
    "noted": noted,
    "watched": watched,
}[sys.argv[1]](*sys.argv[2:])
