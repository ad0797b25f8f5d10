#!/usr/bin/python3
"""Opens every packet in crates/gateway/stdout with scapy, and compares its sums with those that scapy works out.

Run from the repository's root: /usr/bin/python3 samples/run/check.py
"""
import collections

from scapy.all import ICMP, IP, TCP, UDP, raw

counts = collections.Counter()
wrong = []
for line in open("crates/gateway/stdout"):
    words = line.split()
    if words[0] == "events":
        continue
    counts[" ".join(words[1:3]) if words[1] == "refused" else words[1]] += 1
    if words[1] not in ("out", "in", "turned"):
        continue
    data = bytes.fromhex(words[2])
    packet = IP(data)
    without = bool(packet.haslayer(UDP)) and packet[UDP].chksum == 0
    for layer in (IP, UDP, TCP, ICMP):
        if packet.haslayer(layer) and not (layer is UDP and without):
            del packet[layer].chksum
    if raw(packet) != data:
        wrong.append(line)

for what, count in sorted(counts.items()):
    print(what, count)
print("packets with a wrong sum:", len(wrong))
for line in wrong[:5]:
    print(line, end="")
