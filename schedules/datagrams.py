"""Datagrams as bytes, spelled by hand as docs/FORMATS.md says, for the scripts that send to a node what no node sends. No
command.

A process is made by `process`; a body is the bytes after the receiver; `datagram` puts them together. `kinds` has one body of
each kind.
"""
import socket
from struct import pack

TO_ADDRESS = (1, 23, 24, 25)  # these are for whoever is at the address: the receiver's uid is 0
MOST_COUNT = 2**62


def process(host, port, uid):
    """A host in bytes, a port and a uid."""
    return bytes([len(host)]) + host + pack(">HQ", port, uid)


def at_uid(one, uid):
    """The same address, with another uid."""
    return one[:-8] + pack(">Q", uid)


def datagram(kind, sender, receiver, body=b"", version=2):
    return b"AKC" + bytes([version, kind]) + sender + (at_uid(receiver, 0) if kind in TO_ADDRESS else receiver) + body


def part(who, count, state=2, up_number=1, seen=1, row_number=0, subjects=b""):
    """A part of a gossip; its row where it has a number."""
    row = bytes([len(subjects)]) + subjects if row_number else b""
    return who + pack(">QBQBQ", count, state, up_number, seen, row_number) + row


def gossip(parts):
    return bytes([len(parts)]) + b"".join(parts)


def ballot(term, who):
    return pack(">Q", term) + who


def version(counts):
    return bytes([len(counts)]) + b"".join(who + pack(">Q", count) for who, count in counts)


def reports(items):
    return pack(">H", len(items)) + b"".join(pack(">HQB", *it) for it in items)


def payload(name, number):
    return bytes([len(name)]) + name + pack(">Q", number)


def kinds(stranger, node, term=9):
    """One body of each kind, by its number, that a stranger sends to the node; of gossips one that does not name the node."""
    own, shard, number = ballot(term, stranger), pack(">H", 7), pack(">Q", 5)
    known = gossip([part(stranger, 3)])
    covers = version([(stranger, 3)])
    bodies = {1: b"", 2: known, 3: known, 4: b"", 5: b"", 6: b"", 7: own, 8: own + covers + reports([(7, 5, 1)])}
    bodies.update({9: own + own, 10: own + own, 11: own, 12: own + covers, 13: own + covers})
    bodies.update({14: own + shard, 15: own + shard + stranger})
    bodies.update({kind: own + shard + number for kind in range(16, 22)})
    bodies.update({22: payload(b"cart", 1), 23: stranger, 24: stranger, 25: payload(b"cart", 1)})
    return bodies


def long_host(number):
    """A host of 64 bytes; those of greater numbers come later in the order."""
    return b"%03d-" % number + b"x" * 60


def longest_gossip(node=None, count=3):
    """The longest body of a gossip: 128 processes with hosts of 64 bytes, each of whom has all in its row. With a node the first
    of them is that one, which is known to have made so many updates."""
    everybody = bytes(range(128))
    others = [process(long_host(one), 2551, 1) for one in range(127 if node else 128)]
    names = sorted([*others, node] if node else others, key=order)
    return gossip([part(who, count, row_number=min(count, 1), subjects=everybody if count else b"") for who in names])


def order(one):
    """By which processes ascend: the host's bytes, the port, the uid."""
    return one[1:-10], one[-10:]


def free_port():
    """A port of 127.0.0.1 that nobody has now."""
    with socket.socket(socket.AF_INET, socket.SOCK_DGRAM) as one:
        one.bind(("127.0.0.1", 0))
        return one.getsockname()[1]
