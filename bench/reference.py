#!/usr/bin/env python3
"""A reference account of the controller's cycle, written for clarity: whole numbers of any size, one rule at a time.

    reference.py PARCEL COUNT

reads the parcel into a new controller, recalls once, runs COUNT cycles on generated inputs, and prints a checksum of
the outputs of every cycle and of what all lines hold at the end.
"""
import math
import sys

UNIT = 16000      # 100.0 %
LIMIT = 31984     # 199.9 %
FIRST_ANALOG = 0x40
FIRST_TIMED = 0x80

RATES = [2, 4, 8, 16, 50, 100, 200, 400, 1000, 2000, 4000, 8000]
DIVISORS = [10, 40, 100, 250, 1200, 4800, 12000, 30000]
FACTORS = [(1, 10), (1, 8), (1, 5), (1, 4), (1, 3), (1, 2),
           (2, 1), (3, 1), (4, 1), (5, 1), (8, 1), (10, 1), (20, 1), (40, 1), (50, 1), (100, 1)]

# code: name, for each side
BINARY = dict(enumerate(
    'NOP BTN BTI ANN ANI AIN AII ONN ONI OIN OII XNN XNI FRS'.split()))
BINARY.update({0xC0: 'CGT', 0xC1: 'CGH'})

ANALOG = {0x00: 'NOP', 0x11: 'SOL', 0x50: 'TA0', 0xA4: 'FIX', 0xA5: 'FLX'}
for first, names in [
    (0x13, 'SIH SIL SZL SZH'),
    (0x3B, 'ABS INV DIR MA0 MA1 MA2 MA3'),
    (0x46, 'MAX MIN ADD SUB MUL DIV REZ QUA RAD'),
    (0x58, 'K.1 K/8 K/5 K/4 K/3 K/2 K02 K03 K04 K05 K08 K10 K20 K40 K50 KHU'),
    (0x68, 'RL1 RL2 RL3 RL4 RL5 RL6 RL7 RL8 RL9 RLA RLB RLC'),
    (0x74, 'IG1 IG2 IG3 IG4 IG5 IG6 IG7 IG8'),
    (0xA7, 'VZ1 VZ2 VZ3 VZ4 VZ5 VZ6 VZ7 VZ8'),
]:
    ANALOG.update(enumerate(names.split(), first))

RATE = {ANALOG[0x68 + n]: t for n, t in enumerate(RATES)}
INTEGRATOR = {ANALOG[0x74 + n]: d for n, d in enumerate(DIVISORS)}
DELAY = {ANALOG[0xA7 + n]: d for n, d in enumerate(DIVISORS)}
FACTOR = {ANALOG[0x58 + n]: f for n, f in enumerate(FACTORS)}
TIMED = {**RATE, **INTEGRATOR, **DELAY}


# Numbers

def cut(n, d):
    """The quotient n / d, cut toward zero."""
    q = abs(n) // abs(d)
    return q if (n < 0) == (d < 0) else -q


def sign(n):
    return (n > 0) - (n < 0)


def limited(n):
    return max(-LIMIT, min(LIMIT, n))


def word(low, high):
    """The reading of a word: bit 15 is 1 for plus, the other bits are the magnitude."""
    n = low + 256 * high
    return n - 0x8000 if n >= 0x8000 else -n


def constant(low, high):
    """The reading of a FIX or FLX word, whose bits 0 and 1 count as 0."""
    return word(low - low % 4, high)


# Commands of analog lines

def divided(a, b):
    return limited(cut(a * UNIT, b)) if b != 0 else LIMIT * sign(a)


def multiplied(a, b):
    return limited(cut(a * b, UNIT))


def root(a):
    return sign(a) * math.isqrt(abs(a) * UNIT)


def interpolated(points, a):
    p, r = divmod(max(0, min(16384, a)), 1024)
    if r == 0:
        return points[p]
    return points[p] + cut((points[p + 1] - points[p]) * r, 1024)


def rate_limited(t, phase, a, b):
    allowance = (phase + 1) * 1600 // t - phase * 1600 // t
    if abs(a - b) <= allowance:
        return a
    return b + sign(a - b) * allowance


def integrated(d, a, b, m):
    """The result and the new remainder."""
    s = a + m
    q = cut(s, d)
    result = limited(b + q)
    return result, (s - q * d if result == b + q else 0)


def delayed(d, a, b, m):
    """The result and the new remainder."""
    s = a - b + m
    q = cut(s, d)
    return b + q, s - q * d


# Of the commands with one source a, and of those with two, both readings: the result
ONE = {
    'ABS': lambda a: abs(a),
    'INV': lambda a: -a,
    'DIR': lambda a: a,
    'MA0': lambda a: a,
    'MA1': lambda a: a,
    'MA2': lambda a: a,
    'MA3': lambda a: a,
    'REZ': lambda a: divided(UNIT, a),
    'QUA': lambda a: multiplied(a, a),
    'RAD': root,
}
TWO = {
    'MAX': lambda a, b: max(a, b),
    'MIN': lambda a, b: min(a, b),
    'ADD': lambda a, b: limited(a + b),
    'SUB': lambda a, b: limited(a - b),
    'MUL': multiplied,
    'DIV': divided,
}
# Of the switches, whose b is a bit: the result, from the line's own reading too
SWITCH = {
    'SOL': lambda a, b, own: a if b == 1 else own,
    'SIH': lambda a, b, own: -a if b == 1 else a,
    'SIL': lambda a, b, own: -a if b == 0 else a,
    'SZL': lambda a, b, own: 0 if b == 0 else a,
    'SZH': lambda a, b, own: 0 if b == 1 else a,
}

# Commands of binary lines, bits as 0 and 1: the result, from the line's own bit too
GATE = {
    'BTN': lambda a, b, own: a,
    'BTI': lambda a, b, own: 1 - a,
    'ANN': lambda a, b, own: a & b,
    'AIN': lambda a, b, own: (1 - a) & b,
    'ONN': lambda a, b, own: a | b,
    'OIN': lambda a, b, own: (1 - a) | b,
    'XNN': lambda a, b, own: a ^ b,
    'ANI': lambda a, b, own: 1 - (a & b),
    'AII': lambda a, b, own: 1 - ((1 - a) & b),
    'ONI': lambda a, b, own: 1 - (a | b),
    'OII': lambda a, b, own: 1 - ((1 - a) | b),
    'XNI': lambda a, b, own: 1 - (a ^ b),
    'FRS': lambda a, b, own: 0 if b == 1 else 1 if a == 1 else own,
}
# Both compare readings
COMPARATOR = {
    'CGT': lambda a, b, own: 1 if a > b else 0,
    'CGH': lambda a, b, own: 1 if a > b else 0 if a < b - 80 else own,
}


# Parcels

class Refused(Exception):
    """Load's number, with the line's address where it names one."""


def ask(answer, *refusal):
    if not answer:
        raise Refused(*refusal)


def bodies(parcel):
    """The bodies by kind."""
    ask(len(parcel) > 0 and parcel[0] in (3, 4), 11)
    count = parcel[0]
    at = 1 + 3 * count
    ask(len(parcel) >= at, 12)
    listed = [(parcel[p], parcel[p + 1] + 256 * parcel[p + 2]) for p in range(1, at, 3)]
    ask(sorted(kind for kind, _ in listed) == list(range(1, count + 1)), 13)
    ask(all(length == (34 if kind == 4 else 256) for kind, length in listed), 14)
    found = {}
    for kind, length in listed:
        found[kind] = parcel[at:at + length]
        at += length
    ask(at == len(parcel), 15)
    return found


def configuration(parcel):
    """The lines by address, each a name and its two bytes, and the table's points or None."""
    found = bodies(parcel)
    points = None
    if 4 in found:
        points = [word(found[4][2 * p], found[4][2 * p + 1]) for p in range(17)]
    lines = []
    for address in range(256):
        code, sr1, sr2 = (found[kind][address] for kind in (1, 2, 3))
        side = ANALOG if address >= FIRST_ANALOG else BINARY
        ask(code in side, 21, address)
        name = side[code]
        ask(name not in TIMED or address >= FIRST_TIMED, 22, address)
        ask(name != 'TA0' or points is not None, 23, address)
        ask(name not in ('FIX', 'FLX') or abs(constant(sr1, sr2)) <= LIMIT, 24, address)
        lines.append((name, sr1, sr2))
    return lines, points


# The controller

class Controller:
    """Line bits, as 0 and 1, and readings stand together by address."""

    def __init__(self):
        self.lines = None
        self.points = None
        self.value = [0] * 256
        self.remainder = [0] * 256
        self.phase = 0
        self.inputs = [0] * 8    # E1 to E8
        self.switches = [0] * 9  # D00 to D08

    def load(self, parcel):
        self.lines, self.points = configuration(parcel)
        self.remainder = [0] * 256

    def recall(self):
        for address, (name, sr1, sr2) in enumerate(self.lines):
            if name == 'FLX':
                self.value[address] = constant(sr1, sr2)

    def reading(self, address):
        """What an address is as an analog source."""
        if address >= 0x40:
            return self.value[address]
        if address >= 0x38:
            return self.inputs[0x3F - address]
        return UNIT if address == 0x20 else 0

    def bit(self, address):
        """What an address is as a bit source."""
        if address <= 0x3F:
            return self.value[address]
        if address == 0xA0:
            return self.switches[0]
        if address >= 0xF8:
            return self.switches[address - 0xF7]
        return 1 if address == 0xBD else 0

    def work_analog(self, address):
        name, sr1, sr2 = self.lines[address]
        own = self.value[address]
        if name in ('NOP', 'FLX'):
            return own
        if name == 'FIX':
            return constant(sr1, sr2)
        a = self.reading(sr1)
        if name in ONE:
            return ONE[name](a)
        if name in FACTOR:
            times, over = FACTOR[name]
            return limited(cut(a * times, over))
        if name == 'TA0':
            return interpolated(self.points, a)
        if name in SWITCH:
            return SWITCH[name](a, self.bit(sr2), own)
        b = self.reading(sr2)
        if name in TWO:
            return TWO[name](a, b)
        if name in RATE:
            return rate_limited(RATE[name], self.phase, a, b)
        if name in INTEGRATOR:
            result, m = integrated(INTEGRATOR[name], a, b, self.remainder[address])
        else:
            result, m = delayed(DELAY[name], a, b, self.remainder[address])
        self.remainder[address] = m
        return result

    def work_binary(self, address):
        name, sr1, sr2 = self.lines[address]
        own = self.value[address]
        if name == 'NOP':
            return own
        if name in COMPARATOR:
            return COMPARATOR[name](self.reading(sr1), self.reading(sr2), own)
        return GATE[name](self.bit(sr1), self.bit(sr2), own)

    def cycle(self, inputs, switches):
        self.inputs = inputs
        self.switches = switches
        for address in range(0xFF, 0x3F, -1):
            self.value[address] = self.work_analog(address)
        self.value[0x00:0x40] = [self.work_binary(address) for address in range(0x40)]
        self.phase = (self.phase + 1) % 5

    def outputs(self):
        """A1, A2, and Q00 to Q12 as a number with Q00 lowest."""
        places = [0x17, *range(0x24, 0x28), *range(0x18, 0x20)]
        bits = sum(self.value[address] << n for n, address in enumerate(places))
        return self.value[0x40], self.value[0x41], bits


# The run

class Generator:
    def __init__(self):
        self.x = 0

    def draw(self):
        self.x = (1664525 * self.x + 1013904223) % 2**32
        return self.x >> 16

    def frame(self):
        """Eight inputs and nine D bits."""
        inputs = [self.draw() % 32001 - 16000 for _ in range(8)]
        number = self.draw() % 512
        return inputs, [number >> n & 1 for n in range(9)]


def folded(total, number):
    return (total * 31 + number) % 2**64


def run(parcel, count):
    """The checksum after this many cycles."""
    controller = Controller()
    controller.load(parcel)
    controller.recall()
    generator = Generator()
    total = 0
    for _ in range(count):
        controller.cycle(*generator.frame())
        a1, a2, bits = controller.outputs()
        for number in (a1 + 32768, a2 + 32768, bits):
            total = folded(total, number)
    for address, value in enumerate(controller.value):
        total = folded(total, value + 32768 if address >= FIRST_ANALOG else value)
    return total


def main():
    if len(sys.argv) != 3:
        sys.exit('usage: reference.py PARCEL COUNT')
    with open(sys.argv[1], 'rb') as file:
        parcel = file.read()
    count = int(sys.argv[2])
    try:
        total = run(parcel, count)
    except Refused as refusal:
        number, *line = refusal.args
        sys.exit(f'refused: {number}' + ''.join(f' at {address:02X}H' for address in line))
    print(f'{count} cycles, sum {total}')


if __name__ == '__main__':
    main()
