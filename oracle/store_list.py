#!/usr/bin/env python3
"""The stores (docs/RULES.md, section 8), by a plain list of what is held. Writes crates/store_test/stdin and stdout.

A list entry is (number, width, height, words). There are no slots here: when a digest of slots is printed,
the slots are made up from the list, in its order, with their areas back to back.
"""
import os
import random
import struct

FILL = 3735928559
TEXTURE, MODEL = 0, 1


def takes(kind, width, height):
    return (width * height + 1) // 2 if kind == TEXTURE else 28 * width


class Store:
    def __init__(self, size):
        self.size = size
        self.held = []
        self.memory = [FILL] * size

    def upload(self, number, width, height, words):
        """0 taken, 1 no slot, 2 no words."""
        used = sum(len(entry[3]) for entry in self.held)
        others = [entry for entry in self.held if entry[0] != number]
        if len(others) == 64:
            return 1
        if sum(len(entry[3]) for entry in others) + len(words) > self.size:
            return 2
        self.held = others + [(number, width, height, words)]
        flat = [word for entry in self.held for word in entry[3]]
        self.memory[:len(flat)] = flat
        for i in range(len(flat), used):
            self.memory[i] = 0
        return 0

    def slots(self):
        out, start = [], 0
        for number, width, height, words in self.held:
            out += [1, number, width, height, start]
            start += len(words)
        return out + [0] * (5 * (64 - len(self.held)))


def digest(words):
    """FNV-1a of 64 bits, over each word's four bytes, the lowest first."""
    h = 14695981039346656037
    for byte in struct.pack('<%dI' % len(words), *words):
        h = (h ^ byte) * 1099511628211 % 2**64
    return h


class Log:
    def __init__(self, seed):
        self.random = random.Random(seed)
        self.sent = []
        self.lines = []
        self.seen = set()

    def begin(self, kind, size):
        self.kind = kind
        self.store = Store(size)
        self.sent += [2, size, 0, 0, 0]

    def send(self, number, width, height=0):
        words = [self.random.getrandbits(32) for _ in range(takes(self.kind, width, height))]
        self.sent += [self.kind, number, width, height, len(words)] + words
        answer = self.store.upload(number, width, height, words)
        self.seen.add(answer)
        self.lines.append('%d %016x %016x' % (answer, digest(self.store.slots()), digest(self.store.memory)))
        return answer


def sequences(log):
    # case 12: stores of 3 to 6 words, two 2 x 2 textures, the first sent again
    for size in (3, 4, 5, 6):
        log.begin(TEXTURE, size)
        for number in (1, 2, 1):
            log.send(number, 2, 2)
    # a store of no words, and one of one
    for size in (0, 1):
        log.begin(TEXTURE, size)
        log.send(1, 1, 1)
        log.send(1, 1, 1)
    # numbers that agree in low bits, in high bits, and 0
    log.begin(TEXTURE, 40)
    for number in (1, 0x80000001, 0x101, 0x10001, 0x01000001, 0, 0xFFFFFFFF, 0xFFFFFF00, 1, 0x80000001):
        log.send(number, 2, 2)
    # 64 held; a new number has no slot, with room for its words and without; an old number is still taken
    log.begin(TEXTURE, 70)
    for number in range(64):
        log.send(1000 + number, 1, 1)
    log.send(5, 1, 1)
    log.send(5, 4, 4)
    log.send(1000, 1, 2)
    log.send(1063, 2, 2)
    log.send(1031, 9, 9)
    log.send(1031, 2, 6)
    log.send(1031, 2, 7)
    log.send(1063, 1, 1)
    # 64 held and the store exactly full
    log.begin(TEXTURE, 64)
    for number in range(64):
        log.send(number, 1, 1)
    log.send(64, 1, 1)
    log.send(63, 1, 1)
    # exactly full, and one word short
    for size in (29, 28):
        log.begin(TEXTURE, size)
        log.send(7, 5, 5)
        log.send(8, 4, 8)
    # sent again smaller, equal and larger: first, in the middle and last
    for target in (1, 2, 3):
        for width, height in ((3, 3), (4, 4), (5, 5)):
            log.begin(TEXTURE, 64)
            for number in (1, 2, 3):
                log.send(number, 4, 4)
            log.send(target, width, height)
            log.send(target, 1, 1)
    # a full store: sent again as large as there is room, one word larger, smaller, and larger again
    for target in (1, 2, 3):
        log.begin(TEXTURE, 24)
        for number in (1, 2, 3):
            log.send(number, 4, 4)
        for height in (8, 9, 3, 8, 9):
            log.send(target, 2, height)
        log.send(4, 1, 1)
    log.begin(MODEL, 84)
    for number, count in ((1, 1), (2, 2), (1, 1), (1, 2), (2, 1), (1, 2), (1, 3), (3, 1), (2, 2), (2, 1)):
        log.send(number, count)
    # models
    log.begin(MODEL, 140)
    for number, count in ((1, 1), (2, 2), (1, 2), (3, 1), (2, 1), (3, 2), (4, 1), (2, 1)):
        log.send(number, count)
    # at random, over few numbers, in stores of many sizes
    for turn in range(40):
        log.begin(TEXTURE, log.random.choice((8, 16, 31, 64, 100)))
        numbers = [log.random.getrandbits(32) for _ in range(log.random.randint(2, 6))]
        for _ in range(log.random.randint(5, 15)):
            log.send(log.random.choice(numbers), log.random.randint(1, 6), log.random.randint(1, 6))


def main():
    log = Log(12)
    sequences(log)
    assert log.seen == {0, 1, 2}
    assert len(log.sent) <= 32768
    folder = os.path.join(os.path.dirname(os.path.abspath(__file__)), '..', 'crates', 'store_test')
    with open(os.path.join(folder, 'stdin'), 'wb') as f:
        f.write(struct.pack('<%dI' % len(log.sent), *log.sent))
    with open(os.path.join(folder, 'stdout'), 'w') as f:
        f.write(''.join(line + '\n' for line in log.lines))
    print('%d uploads, %d words' % (len(log.lines), len(log.sent)))


main()
