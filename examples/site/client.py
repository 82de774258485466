"""A small client of BACnet/IP, by the standard library alone: it finds a device, reads two of its points, and registers as a foreign
device. It prints what it sends and what comes back.

    client.py panel BROADCAST       finds the device, and reads the fan and the door
    client.py workstation MANAGER   registers with the broadcast manager, and waits for a broadcast of its subnet
    client.py reader GATEWAY        reads the fan again and again until a file `stop` is there, and prints when which answers came
"""

import os
import socket
import sys
import time

PORT = 47808
ERROR, COMPLEX_ACK = 5, 3
NAMES = {(2, 27): "read-access-denied", (2, 32): "unknown-property", (1, 31): "unknown-object"}


def open_line():
    """A socket that hears and may send broadcasts, and waits two seconds at most."""
    line = socket.socket(socket.AF_INET, socket.SOCK_DGRAM)
    line.setsockopt(socket.SOL_SOCKET, socket.SO_BROADCAST, 1)
    line.bind(("", PORT))
    line.settimeout(2)
    return line


def frame(function, content):
    """A BVLL message of this function (Annex J.2)."""
    return bytes([0x81, function]) + (len(content) + 4).to_bytes(2, "big") + content


def receive(line):
    """What comes next, and from where; nothing after two seconds."""
    try:
        return line.recvfrom(1508)
    except socket.timeout:
        return None, None


def who_is(line, broadcast):
    """A Who-Is to every network (clause 16.10), and the device that answers: its instance, network, station and router."""
    line.sendto(frame(0x0B, bytes.fromhex("0120FFFF00FF1008")), (broadcast, PORT))
    print(f"  Who-Is to every network, by broadcast to {broadcast}")
    while True:
        message, sender = receive(line)
        if message is None:
            sys.exit("  nobody answered")
        # Original-Broadcast, an NPDU with SNET of one octet, and I-Am with an object identifier of type Device.
        if message[:2] == b"\x81\x0b" and message[5] & 0x08 and message[10:13] == b"\x10\x00\xc4":
            instance = int.from_bytes(message[13:17], "big") & 0x3FFFFF
            network = int.from_bytes(message[6:8], "big")
            print(f"  I-Am of device {instance}, station {message[9]:02X} of network {network}, by {sender[0]}")
            return network, message[9], sender


def read(line, device, name, instance):
    """Reads Present_Value of a Binary Value of the device (clause 15.5)."""
    network, station, router = device
    npdu = b"\x01\x24" + network.to_bytes(2, "big") + bytes([1, station, 0xFF])
    apdu = bytes([0x00, 0x05, instance, 0x0C, 0x0C]) + (5 << 22 | instance).to_bytes(4, "big") + b"\x19\x55"
    line.sendto(frame(0x0A, npdu + apdu), router)
    message, _ = receive(line)
    if message is None:
        sys.exit("  no answer")
    answer = message[10:]
    if answer[0] >> 4 == COMPLEX_ACK:
        print(f"  {name} (Binary Value {instance}) is {'active' if answer[-2] else 'inactive'}")
    elif answer[0] >> 4 == ERROR:
        error = (answer[4], answer[6])
        print(f"  {name} (Binary Value {instance}): {NAMES.get(error, error)}")


def register(line, manager, seconds):
    """Registers as a foreign device (Annex J.5.2)."""
    line.sendto(frame(0x05, seconds.to_bytes(2, "big")), (manager, PORT))
    message, _ = receive(line)
    answer = "granted" if message == frame(0x00, b"\x00\x00") else "refused"
    print(f"  registration with {manager} for {seconds} seconds: {answer}")


def wait(line):
    """Waits for a broadcast that is passed on as a Forwarded-NPDU, and says whose it is."""
    for _ in range(5):
        message, sender = receive(line)
        if message is not None and message[:2] == b"\x81\x04":
            origin = socket.inet_ntoa(message[4:8])
            print(f"  a broadcast of {origin}, passed on by {sender[0]}: {message[10:].hex().upper()}")
            return
    print("  no broadcast came")


def read_on(line, gateway):
    """Reads the fan of the device on network 100 again and again; prints each change of the answer with the time at which the read
    was sent, by the clock of the machine, and at the end how many reads there were and how many had no answer."""
    reads, unanswered, last = 0, 0, None
    while not os.path.exists("stop"):
        reads += 1
        npdu = b"\x01\x24\x00\x64\x01\x01\xFF"
        apdu = bytes([0x00, 0x05, reads % 256, 0x0C, 0x0C]) + (5 << 22 | 1).to_bytes(4, "big") + b"\x19\x55"
        sent = time.monotonic()
        line.sendto(frame(0x0A, npdu + apdu), (gateway, PORT))
        message, _ = receive(line)
        if message is None:
            unanswered += 1
        elif (what := "read" if message[10:][0] >> 4 == COMPLEX_ACK else "denied") != last:
            print(f"{sent:.6f} {what}", flush=True)
            last = what
    print(f"reads {reads} unanswered {unanswered}")


def main():
    role, other = sys.argv[1:]
    with open_line() as line:
        if role == "panel":
            device = who_is(line, other)
            read(line, device, "the fan", 1)
            read(line, device, "the door", 2)
        elif role == "reader":
            read_on(line, other)
        else:
            register(line, other, 60)
            sys.stdout.flush()
            wait(line)


main()
