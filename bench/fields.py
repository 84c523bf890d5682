#!/usr/bin/env python3
"""An independent implementation of the three fields, by polynomials: prints what the program field_run prints.

    bench/fields.py [STEPS]
"""
import sys


def product(a, b, modulus, bits):
    """The product of polynomials over the bits, reduced by long division."""
    whole = 0
    for i in range(bits):
        if a >> i & 1:
            whole ^= b << i
    for i in range(2 * bits - 2, bits - 1, -1):
        if whole >> i & 1:
            whole ^= modulus << (i - bits)
    return whole


def hex_product(a, b):
    return product(a, b, 0b10011, 4)


def nibble_product(a, b):
    """The product of polynomials over the hex digits, with z^7 = z + 1."""
    x = [a >> 4 * i & 15 for i in range(7)]
    y = [b >> 4 * i & 15 for i in range(7)]
    whole = [0] * 13
    for i in range(7):
        for j in range(7):
            whole[i + j] ^= hex_product(x[i], y[j])
    for i in range(12, 6, -1):
        whole[i - 7] ^= whole[i]
        whole[i - 6] ^= whole[i]
    return sum(whole[i] << 4 * i for i in range(7))


def power(mul, a, n):
    result = 1
    while n:
        if n & 1:
            result = mul(result, a)
        a = mul(a, a)
        n >>= 1
    return result


FIELDS = [
    ("octet", 2, 8, lambda a, b: product(a, b, 0x11B, 8)),
    ("word", 2, 16, lambda a, b: product(a, b, 0x1100B, 16)),
    ("nibble", 16, 7, nibble_product),
]

steps = int(sys.argv[1]) if len(sys.argv) > 1 else 1000
for name, q, m, mul in FIELDS:
    size = q**m
    x, seed = 1, 1
    for _ in range(steps):
        seed = (seed * 1103515245 + 12345) % 2**32
        y = (seed >> 4) % size
        x = power(mul, mul(x, y) ^ y, q)
    print(name, x, power(mul, x, size - 2))
