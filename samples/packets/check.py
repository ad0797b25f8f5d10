#!/usr/bin/python3
"""Checks crates/translate/stdout against scapy's own sums (Debian: python3-scapy).

Run from the repository's root: /usr/bin/python3 samples/packets/check.py
Each packet that was written is worked out here once more: the fields are replaced, and every sum is scapy's.
"""
import sys

from scapy.layers.inet import IP, in4_chksum
from scapy.utils import checksum

PORTS = {"udp": (0, 2), "tcp": (0, 2), "echo": (4, 4)}
SUMS = {"udp": 6, "tcp": 16, "echo": 2}
NUMBERS = {"udp": 17, "tcp": 6}


def put(data, at, value):
    data[at:at + len(value)] = value


def body_sum(name, header, body):
    if name == "echo":
        return checksum(bytes(body))
    # for UDP scapy sends 65,535 for 0 in its layer, not in this function
    value = in4_chksum(NUMBERS[name], IP(bytes(header)), bytes(body))
    return 65535 if name == "udp" and value == 0 else value


def expected(name, packet, end, address_at, which):
    header, body = bytearray(packet[:20]), bytearray(packet[20:])
    put(header, address_at, end[:4])
    header[8] -= 1
    put(header, 10, b"\0\0")
    put(header, 10, checksum(bytes(header)).to_bytes(2, "big"))
    put(body, PORTS[name][which], end[4:])
    at = SUMS[name]
    if not (name == "udp" and body[at:at + 2] == b"\0\0"):
        put(body, at, b"\0\0")
        put(body, at, body_sum(name, header, body).to_bytes(2, "big"))
    return bytes(header + body)


def main():
    given = open("crates/translate/stdin").read().splitlines()
    printed = open("crates/translate/stdout").read().splitlines()
    at = cases = packets = 0
    for title, line in zip(given[::2], given[1::2]):
        external, internal, *rest = line.split(" ")
        packet = bytes.fromhex(rest[0]) if rest else b""
        wanted = title.split(" expects ")[1]
        assert printed[at] == title, title
        reading = printed[at + 1]
        at += 2
        assert reading == wanted or reading.startswith(wanted + " "), (title, reading)
        cases += 1
        # a packet whose time to live is used up is still shown as it would be written
        name = {17: "udp", 6: "tcp", 1: "echo"}.get(packet[9] if len(packet) > 9 else 0, "")
        for word, end, address_at, which in (("out", external, 12, 0), ("in", internal, 16, 1)):
            if at < len(printed) and printed[at].startswith(word + " "):
                if packet[8] > 0:
                    want = expected(name, packet, bytes.fromhex(end), address_at, which)
                    assert bytes.fromhex(printed[at].split(" ")[1]) == want, (title, word)
                packets += 1
                at += 1
            else:
                assert wanted not in PORTS, (title, word)
    assert at == len(printed)
    print(f"{cases} cases and {packets} written packets agree with scapy")


sys.exit(main())
