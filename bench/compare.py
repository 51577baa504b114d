#!/usr/bin/env python3
"""Compares the plain interpreter with the reference on random valid parcels.

    compare.py PROGRAM COUNT CYCLES SEED
"""
import os
import random
import subprocess
import sys
import tempfile

import reference

READINGS = [*range(0x38, 0x40), 0x20, 0x00, 0x3F]
BITS = [0xA0, *range(0xF8, 0x100), 0xBD, 0xB8]


def word(reading):
    n = abs(reading) + (0x8000 if reading >= 0 else 0)
    return n % 256, n // 256


def source(r, address):
    n = r.random()
    if n < 0.15:
        return address
    if n < 0.35:
        return r.choice(READINGS)
    if n < 0.50:
        return r.choice(BITS)
    return r.randrange(256)


def parcel(r):
    with_table = r.random() < 0.7
    rows = []
    few = r.random() < 0.3
    binary = sorted(reference.BINARY)
    analog = sorted(reference.ANALOG)
    if few:
        analog = r.sample(analog, 12)
    for address in range(256):
        while True:
            code = r.choice(binary if address < 0x40 else analog + [0x3D])
            name = reference.BINARY[code] if address < 0x40 else reference.ANALOG[code]
            if name in reference.TIMED and address < 0x80:
                continue
            if name == 'TA0' and not with_table:
                continue
            break
        sr1, sr2 = source(r, address), source(r, address)
        if name in ('FIX', 'FLX'):
            n = r.choice([31984, -31984, 0, r.randint(-31984, 31984), r.randint(-500, 500)])
            sr1, sr2 = word(n)
            if n % 4 == 0:
                sr1 |= r.randrange(4)
            if n == 0 and r.random() < 0.5:
                sr2 = 0
        rows.append((code, sr1, sr2))
    bodies = {k: bytes(row[k - 1] for row in rows) for k in (1, 2, 3)}
    if with_table:
        points = [r.choice([r.randint(-32767, 32767), r.randint(-16000, 16000), 32767, -32767]) for _ in range(17)]
        bodies[4] = bytes(b for y in points for b in word(y))
    order = list(bodies)
    r.shuffle(order)
    listed = b''.join(bytes([k, len(bodies[k]) % 256, len(bodies[k]) // 256]) for k in order)
    return bytes([len(order)]) + listed + b''.join(bodies[k] for k in order)


def main():
    program, count, cycles, seed = sys.argv[1], int(sys.argv[2]), int(sys.argv[3]), int(sys.argv[4])
    r = random.Random(seed)
    equal = sizes = 0
    sums = set()
    with tempfile.TemporaryDirectory() as folder:
        path = os.path.join(folder, 'random.parcel')
        for n in range(count):
            made = parcel(r)
            sizes += len(made) == 815
            with open(path, 'wb') as file:
                file.write(made)
            told = subprocess.run([program, path, str(cycles)], capture_output=True, text=True)
            want = f'{cycles} cycles, sum {reference.run(made, cycles)}\n'
            sums.add(want)
            if told.stdout != want:
                print(f'parcel {n}: {told.stdout!r} {told.stderr!r}, not {want!r}')
                with open(f'different-{n}.parcel', 'wb') as file:
                    file.write(made)
            else:
                equal += 1
    print(f'{equal} of {count} equal over {cycles} cycles, {sizes} with a table, {len(sums)} different sums, seed {seed}')


if __name__ == '__main__':
    main()
