#!/usr/bin/env python3
"""Write the example jobs and traces beside this file.

    python3 make.py

The same bytes are written each time.

pair.job, pair.trace
    The smallest fork: two leaves of one frame each.
    Fronts 5 and 7, rears 8 and 2, so slips -3 and 5.
turned.trace
    The pair's frames as a recorder with start 1 holds them (7, then 5),
    followed by three surplus bytes.
refused.job
    Refused with number 4 at 3: the fork, node 3, names node 1 twice.
grouping-left.job, grouping-right.job, grouping.trace
    Fronts 4096, 1 and 1, grouped ((0 1) 2) and (0 (1 2)).
    The two float outcomes differ.
lopsided.job, lopsided.trace
    Fifteen nodes, 21 frames, all forks nested along the left side.
    Node numbers do not follow left-to-right order, the records are stored
    out of chain order, and two records lie off the chain.
lopsided-bad.trace
    The same with a wrong check in frame 12 (node 8) and a front speed too
    high, rightly checked, in frame 17 (node 6). Node 8 lies further left,
    so its fault is the outcome.
ride.job, ride.trace
    A real-sized ride: 512 leaves of 256 frames under a balanced tree,
    1,023 nodes and 131,072 frames. The summary does not overflow.
deep.job
    The deepest job: 512 leaves of one frame, 511 forks nested along the
    right side. It goes with ride.trace.
"""

import os
import struct

LEVER, PEDAL, ANTILOCK = 1, 2, 4


def check(data):
    """CRC-8: polynomial 1D hex, start FF, final xor FF."""
    crc = 0xFF
    for byte in data:
        crc ^= byte
        for _ in range(8):
            crc = (crc << 1) ^ 0x11D if crc & 0x80 else crc << 1
    return crc ^ 0xFF


def frame(front, rear, flags=0):
    """One frame with a right check. The values are not judged."""
    data = struct.pack(">HHB2x", front, rear, flags)
    return data + bytes([check(data)])


def leaf(first, count):
    """A leaf over count frames: its kind and the record's last eight bytes."""
    return 1, struct.pack(">IH2x", first, count)


def fork(left, right):
    """A fork of two lower nodes: its kind and the record's last eight bytes."""
    return 2, struct.pack(">HH4x", left, right)


def job(nodes, order=None, spare=()):
    """A job file.

    nodes: leaves and forks, node 1 first.
    order: the record index (from 1) of each node; by default 1, 2, 3...
    spare: whole 12-byte records off the chain, for the indexes left over.
    """
    order = list(order or range(1, len(nodes) + 1))
    size = len(nodes) + len(spare)
    left_over = [index for index in range(1, size + 1) if index not in order]
    records = dict(zip(left_over, spare))
    for (kind, body), index, link in zip(nodes, order, order[1:] + [0]):
        records[index] = struct.pack(">BxH", kind, link) + body
    header = struct.pack(">HH", size, order[0])
    return header + b"".join(records[i] for i in range(1, size + 1))


def noise(seed):
    """A fixed generator of numbers from 0 to 65,535."""
    while True:
        seed = (seed * 1664525 + 1013904223) % 2**32
        yield seed >> 16


def ride(count, seed):
    """Frames that rise to a speed, cruise and brake, again and again."""
    dice = noise(seed)

    def roll(low, high):
        return low + next(dice) % (high - low + 1)

    frames = []
    front = 0
    while len(frames) < count:
        target = roll(3000, 14000)
        # Rise: the driven rear wheel runs a little ahead.
        while front < target:
            front += roll(4, 18)
            frames.append(frame(front, front + roll(0, 60)))
        # Cruise: both wheels waver, now and then a touch of the pedal.
        for _ in range(roll(300, 4000)):
            front += roll(-6, 6)
            touch = PEDAL if roll(1, 200) == 1 else 0
            frames.append(frame(front, front + roll(-25, 25), touch))
        # Brake: the rear wheel drags; anti-lock steps in when it slips far.
        controls = (LEVER, PEDAL, LEVER | PEDAL)[roll(0, 2)]
        floor = roll(0, 2500)
        while front > floor:
            front = max(front - roll(10, 34), 0)
            slip = front * roll(0, 160) // 1000
            antilock = ANTILOCK if slip * 8 > front else 0
            frames.append(frame(front, front - slip, controls | antilock))
    return frames[:count]


def pair():
    five, seven = frame(5, 8), frame(7, 2)
    leaves = [leaf(0, 1), leaf(1, 1)]
    return {
        "pair.job": job(leaves + [fork(1, 2)]),
        "pair.trace": five + seven,
        "turned.trace": seven + five + b"\x01\x02\x03",
        "refused.job": job(leaves + [fork(1, 1)]),
    }


def grouping():
    leaves = [leaf(0, 1), leaf(1, 1), leaf(2, 1)]
    return {
        "grouping-left.job": job(leaves + [fork(1, 2), fork(4, 3)]),
        "grouping-right.job": job(leaves + [fork(2, 3), fork(1, 4)]),
        "grouping.trace": frame(4096, 4096) + 2 * frame(1, 1),
    }


def lopsided():
    # From left to right the leaves are nodes 4, 3, 2, 9, 8, 12, 6 and 1.
    nodes = [
        leaf(19, 2),   # 1
        leaf(4, 4),    # 2
        leaf(3, 1),    # 3
        leaf(0, 3),    # 4
        fork(4, 3),    # 5
        leaf(16, 3),   # 6
        fork(5, 2),    # 7
        leaf(10, 5),   # 8
        leaf(8, 2),    # 9
        fork(7, 9),    # 10
        fork(10, 8),   # 11
        leaf(15, 1),   # 12
        fork(11, 12),  # 13
        fork(13, 6),   # 14
        fork(14, 1),   # 15
    ]
    order = [9, 3, 14, 1, 17, 6, 12, 4, 15, 8, 2, 11, 16, 5, 10]
    # One stray record would pass for a leaf, the other for nothing.
    spare = [struct.pack(">BxHIH2x", 1, 9, 0, 1), b"\xff" * 12]

    dice = noise(7)
    frames = []
    for number in range(21):
        front = 5000 + 40 * number + next(dice) % 50
        rear = front - 60 + next(dice) % 120
        flags = (0, 0, LEVER, PEDAL, LEVER | PEDAL | ANTILOCK)[next(dice) % 5]
        frames.append(frame(front, rear, flags))

    bad = list(frames)
    bad[12] = bad[12][:7] + bytes([bad[12][7] ^ 0x10])
    bad[17] = frame(40001, 39990)
    return {
        "lopsided.job": job(nodes, order, spare),
        "lopsided.trace": b"".join(frames),
        "lopsided-bad.trace": b"".join(bad),
    }


def long_ride():
    nodes = [leaf(256 * number, 256) for number in range(512)]
    # Node 513 forks 1 and 2, node 514 forks 3 and 4, and so on to the root.
    nodes += [fork(left, left + 1) for left in range(1, 1022, 2)]
    return {
        "ride.job": job(nodes),
        "ride.trace": b"".join(ride(512 * 256, 1)),
    }


def deep():
    nodes = [leaf(number, 1) for number in range(512)]
    # Node 513 forks the last two leaves, each later fork one leaf more.
    nodes += [fork(511, 512)]
    nodes += [fork(511 - above, 512 + above) for above in range(1, 511)]
    return {"deep.job": job(nodes)}


def main():
    here = os.path.dirname(os.path.abspath(__file__))
    for part in (pair, grouping, lopsided, long_ride, deep):
        for name, data in part().items():
            with open(os.path.join(here, name), "wb") as file:
                file.write(data)


if __name__ == "__main__":
    main()
