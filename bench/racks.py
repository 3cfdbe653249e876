#!/usr/bin/env python3
"""Writes rack files of the largest racks into a folder: racks.py FOLDER."""

import itertools
import os
import sys

SWITCH_PORTS = 36


class Rack:
    """Hosts come first, then switches; ports are given out in the order of the cables."""

    def __init__(self, host_counts, joins):
        self.joins = list(joins)
        self.homes = [s for s, count in enumerate(host_counts) for _ in range(count)]
        self.switches = len(host_counts)
        self.used = [0] * self.switches

    def port(self, switch):
        self.used[switch] += 1
        assert self.used[switch] <= SWITCH_PORTS
        return self.used[switch]

    def records(self):
        hosts = len(self.homes)
        for v in range(hosts):
            yield node(b'H', v)
        for s in range(self.switches):
            yield node(b'S', hosts + s)
        for v, s in enumerate(self.homes):
            yield cable(v, 1, hosts + s, self.port(s))
        for s, t in self.joins:
            yield cable(hosts + s, self.port(s), hosts + t, self.port(t))

    def write(self, path):
        assert len(self.homes) + self.switches <= 128
        assert len(self.homes) + len(self.joins) <= 256
        with open(path, 'wb') as file:
            file.write(b''.join(self.records()))


def node(kind, number):
    return kind + number.to_bytes(2, 'big') + bytes(5)


def cable(v, p, w, q):
    return b'C' + v.to_bytes(2, 'big') + bytes([p]) + w.to_bytes(2, 'big') + bytes([q, 0])


def five_cube():
    """32 switches with three hosts each."""
    joins = [(s, s ^ (1 << d)) for s in range(32) for d in range(5) if not s >> d & 1]
    return Rack([3] * 32, joins)


def slim_fly():
    """50 switches of degree 7, two steps apart at most: 28 with two hosts, 22 with one."""
    def left(x, y):
        return 5 * x + y

    def right(m, c):
        return 25 + 5 * m + c

    fives = range(5)
    joins = [(left(x, y), left(x, (y + 1) % 5)) for x in fives for y in fives]
    joins += [(right(m, c), right(m, (c + 2) % 5)) for m in fives for c in fives]
    joins += [(left(x, (m * x + c) % 5), right(m, c)) for x in fives for m in fives for c in fives]
    return Rack([2] * 28 + [1] * 22, joins)


def dragonfly():
    """Nine groups of four switches, each with two hosts and two cables to other groups."""
    joins = [(4 * g + i, 4 * g + j) for g in range(9) for i, j in itertools.combinations(range(4), 2)]
    # cable k of a group, 0 to 7, goes to the group k + 1 further on, at the switch k // 2
    joins += [(4 * g + (h - g - 1) // 2, 4 * h + (g - h + 8) // 2) for g, h in itertools.combinations(range(9), 2)]
    return Rack([2] * 36, joins)


def full_mesh():
    """16 switches, each joined to all others, with seven hosts each."""
    return Rack([7] * 16, itertools.combinations(range(16), 2))


RACKS = {'five_cube': five_cube, 'slim_fly': slim_fly, 'dragonfly': dragonfly, 'full_mesh': full_mesh}


def main(folder):
    os.makedirs(folder, exist_ok=True)
    for name, make in RACKS.items():
        make().write(os.path.join(folder, name + '.rack'))


if __name__ == '__main__':
    main(sys.argv[1])
