#!/usr/bin/env python3
"""Products and inverses in the fields, by other means than the library's.

The library multiplies by shifting and reducing one bit at a time, and inverts by a power. Here a
product is the whole carry-less product, divided by f(z) with a remainder, and an inverse comes from
Euclid's algorithm on polynomials. Writes crates/field_checks/stdin (questions) and
crates/field_checks/stdout (answers): all products and inverses of the fields of width 1, 4 and 5, and
300 of each at the widths 12 and 13, the operands from a fixed sequence, numbers above the field among them.
"""
import os

FIELDS = {1: 0b11, 4: 0b10011, 5: 0b100101, 12: 0b1000000001001, 13: 0b10000000011011}


def degree(a):
    return a.bit_length() - 1


def divide(a, b):
    """Quotient and remainder of polynomials over the bits."""
    q = 0
    while a and degree(a) >= degree(b):
        s = degree(a) - degree(b)
        q ^= 1 << s
        a ^= b << s
    return q, a


def carryless(a, b):
    r = 0
    for i in range(b.bit_length()):
        if b >> i & 1:
            r ^= a << i
    return r


def product(m, a, b):
    low = (1 << m) - 1
    return divide(carryless(a & low, b & low), FIELDS[m])[1]


def inverse(m, a):
    a &= (1 << m) - 1
    if a == 0:
        return 0
    r0, r1, s0, s1 = FIELDS[m], a, 0, 1
    while r1:
        q, r = divide(r0, r1)
        r0, r1 = r1, r
        s0, s1 = s1, s0 ^ carryless(q, s1)
    return divide(s0, FIELDS[m])[1]


def questions():
    for m in (1, 4, 5):
        for a in range(1 << m):
            yield m, "inverse", a, 0
            for b in range(1 << m):
                yield m, "times", a, b
    x = 1
    for m in (12, 13):
        for _ in range(300):
            x = x * 6364136223846793005 + 1442695040888963407 & (1 << 64) - 1
            a, b = x >> 48, x >> 32 & 0xFFFF
            yield m, "times", a, b
            yield m, "inverse", a, 0


def main():
    here = os.path.join(os.path.dirname(os.path.abspath(__file__)), "..", "crates", "field_checks")
    with open(os.path.join(here, "stdin"), "w") as asked, open(os.path.join(here, "stdout"), "w") as told:
        for m, what, a, b in questions():
            asked.write(f"{m} {what} {a} {b}\n")
            told.write(f"{product(m, a, b) if what == 'times' else inverse(m, a)}\n")


if __name__ == "__main__":
    main()
