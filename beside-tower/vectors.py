#!/usr/bin/env python3
"""Writes crates/vectors/stdin and stdout: published vectors of FNV-1a, and values worked out here in exact fractions.

Each float is made from a fraction by rounding once to the nearest, ties to even, as IEEE 754 asks, and not by the
arithmetic of this machine.
"""
import os
import struct
from fractions import Fraction

HERE = os.path.dirname(os.path.abspath(__file__))
# Landon Curt Noll's list of test vectors, FNV-1a of 64 bits.
FNV = {
    "": 0xCBF29CE484222325, "a": 0xAF63DC4C8601EC8C, "b": 0xAF63DF4C8601F1A5, "c": 0xAF63DE4C8601EFF2,
    "d": 0xAF63D94C8601E773, "e": 0xAF63D84C8601E5C0, "f": 0xAF63DB4C8601EAD9, "fo": 0x08985907B541D342,
    "foo": 0xDCB27518FED9D577, "foob": 0xDD120E790C2512AF, "fooba": 0xCAC165AFA2FEF40A, "foobar": 0x85944171F73967E8,
}


def rounded(x):
    """The nearest number of 64 bits to a fraction from 0 up, as a fraction; ties go to the even one."""
    if x == 0:
        return x
    e = 0
    while Fraction(2) ** (e + 1) <= x:
        e += 1
    while Fraction(2) ** e > x:
        e -= 1
    unit = Fraction(2) ** max(e - 52, -1074)
    whole, rest = divmod(x / unit, 1)
    up = rest > Fraction(1, 2) or (rest == Fraction(1, 2) and whole % 2 == 1)
    return (whole + up) * unit


def bits(x):
    value = struct.unpack("<Q", struct.pack("<d", x.numerator / x.denominator if x else 0.0))[0]
    assert Fraction(struct.unpack("<d", struct.pack("<Q", value))[0]) == x
    return f"{value:016x}"


def nanos(d):
    below = d % 10**9
    return rounded(rounded(Fraction(below)) + rounded(Fraction(d - below)))


def halving(periods):
    k = int(periods)
    return Fraction(1, 2**k) if k < 1075 else Fraction(0)


def squaring(periods):
    if periods == 0:
        return Fraction(1)
    if periods >= 1024:
        return Fraction(0)
    # 1 - periods / 1024: the quotient is exact, but for numbers below the normal ones, which do not come up here.
    share = rounded(1 - periods / 1024)
    for _ in range(10):
        share = rounded(share * share)
    return share


def updated(decay, default, period, sent, at):
    estimate, rtt = nanos(default), nanos(max(at - sent, 0))
    if estimate < rtt:
        return rtt
    share = decay(rounded(nanos(at) / nanos(period)))
    return rounded(rounded(estimate * share) + rounded(rtt * rounded(1 - share)))


def fnv(data):
    value = 14695981039346656037
    for byte in data:
        value = (value ^ byte) * 1099511628211 % 2**64
    return value


lines = []
for text, value in FNV.items():
    assert fnv(text.encode()) == value
    lines.append((f"fnv {text}".rstrip(), f"{value:016x}"))
for n in [0, 1, 2, 255, 256, 257, 65536]:
    lines.append((f"word {n}", f"{fnv(n.to_bytes(8, 'little')):016x}"))
for start, end, word in [(0, 4, 7), (3, 10, 2**64 - 1), (5, 5, 9), (9, 2, 1), (0, 2**64 - 1, 2**64 - 1)]:
    lines.append((f"range {start} {end} {word}", str(start + word % (end - start) if start < end else start)))
for n, v, w in [(5, 7, 9), (5, 3, 8), (2, 0, 0), (2, 9, 1), (1, 4, 4), (0, 4, 4), (4096, 2**64 - 1, 2**64 - 1)]:
    if n < 2:
        pair = (0, 0)
    else:
        a, b = v % (n - 1), w % n
        pair = (n - 1 if a == b else a, b)
    lines.append((f"sample {n} {v} {w}", f"{pair[0]} {pair[1]}"))
for d in [0, 1, 999_999_999, 10**9, 9_007_199_254_740_992, 9_007_199_254_740_993, 9_007_199_254_740_995, 2**63, 2**64 - 1]:
    lines.append((f"nanos {d}", bits(nanos(d))))
times = [(0, 1), (1, 1), (10**9 - 1, 10**9), (10**9, 10**9), (5 * 10**9, 2 * 10**9), (1022, 1), (1023, 1), (1024, 1),
         (1074, 1), (1075, 1), (2**64 - 1, 1), (1, 3), (2, 3), (1, 2**64 - 1), (1023999, 1000), (512, 1)]
for elapsed, period in times:
    periods = rounded(nanos(elapsed) / nanos(period))
    lines.append((f"halving {elapsed} {period}", bits(halving(periods))))
    lines.append((f"squaring {elapsed} {period}", bits(squaring(periods))))
for default, period, sent, at in [(10**9, 10**9, 16 * 10**8, 2 * 10**9), (10**9, 10**9, 2 * 10**9, 2 * 10**9), (1, 10**9, 5, 9),
                                  (10**9, 3, 7, 1), (2**64 - 1, 10**9, 0, 999_999_999), (10**9, 7 * 10**9, 10**8, 3 * 10**9 + 1)]:
    lines.append((f"halved {default} {period} {sent} {at}", bits(updated(halving, default, period, sent, at))))
    lines.append((f"squared {default} {period} {sent} {at}", bits(updated(squaring, default, period, sent, at))))

folder = os.path.join(HERE, "..", "crates", "vectors")
with open(os.path.join(folder, "stdin"), "w") as questions, open(os.path.join(folder, "stdout"), "w") as answers:
    for question, value in lines:
        questions.write(question + "\n")
        answers.write(f"{question}: {value}\n")
print(len(lines), "vectors")
