#!/usr/bin/env python3
"""Checks decoder.py by itself: fields, worked cases, and one way of solving
against the other.  Exits with a status other than 0 if anything is wrong."""

import random
import sys
import time

sys.dont_write_bytecode = True

import decoder
import logs
from decoder import (Field, extended_scalars, get_field, prime_scalars, sheet, solve,
                     solve_by_search, solve_by_system, span_of)

failures = []
checks = 0


def check(what, got, want):
    global checks
    checks += 1
    if got != want:
        failures.append(what)
        print("WRONG %s: got %r, want %r" % (what, got, want))


# ---------------------------------------------------------------- fields

def toy_fields():
    """Small fields over several kinds of scalars, also where 1 + 1 is not 0."""
    two, three = prime_scalars(2), prime_scalars(3)
    four = extended_scalars(two, [1, 1])
    nine = extended_scalars(three, [1, 0])
    sixteen = extended_scalars(two, [1, 1, 0, 0])
    return [
        Field("2^4", two, [1, 1, 0, 0], 1),         # x^4 + x + 1
        Field("3^2", three, [1, 0], 1),             # x^2 + 1
        Field("3^3", three, [1, 2, 0], 2),          # x^3 + 2x + 1
        Field("3^5", three, [1, 2, 0, 0, 0], 2),    # x^5 + 2x + 1
        Field("4^3", four, [2, 0, 0], 2),           # x^3 + (scalar 2)
        Field("5^2", prime_scalars(5), [3, 0], 2),  # x^2 + 3
        Field("9^2", nine, [8, 0], 2),              # x^2 + (scalar 8)
        Field("16^2", sixteen, [8, 1], 2),          # x^2 + x + (scalar 8)
    ]


def check_field_facts():
    octet, word, nibble = (get_field(name) for name in logs.NAMES)
    check("octet 57 * 83", octet.mul(0x57, 0x83), 0xC1)
    check("octet raise of 80", octet.raised(0x80), 0x9A)
    check("word 8000 * 0002", word.mul(0x8000, 0x0002), 0x100B)
    check("nibble 1000000 * 0000010", nibble.mul(0x1000000, 0x0000010), 0x0000011)
    check("nibble raise of 0000010", nibble.raised(0x0000010), 0x0010100)
    check("no such field", get_field("byte"), None)


def check_field_laws(rng, field):
    """The laws of a field, and each quick way against a slow one, on random symbols."""
    f = field
    for _ in range(30):
        a, b, c = (rng.randrange(f.size) for _ in range(3))
        s = rng.randrange(f.q)
        name = "%s at %d %d %d: " % (f.name, a, b, c)
        check(name + "digits", f.code(f.digits(a)), a)
        check(name + "a + b by digits", f.add(a, b), Field.add(f, a, b))
        check(name + "a + b = b + a", f.add(a, b), f.add(b, a))
        check(name + "a - a = 0", f.add(a, f.neg(a)), 0)
        check(name + "a b by digits", f.mul(a, b), f.long_product(a, b))
        check(name + "a b = b a", f.mul(a, b), f.mul(b, a))
        check(name + "(a b) c", f.mul(f.mul(a, b), c), f.mul(a, f.mul(b, c)))
        check(name + "a (b + c)", f.mul(a, f.add(b, c)), f.add(f.mul(a, b), f.mul(a, c)))
        check(name + "1 a = a", f.mul(1, a), a)
        if a:
            check(name + "a / a = 1", f.mul(a, f.inverse(a)), 1)
            check(name + "a^(size - 1) = 1", f.power(a, f.size - 1), 1)
        check(name + "raise", f.raised(a), f.power(a, f.q))
        check(name + "root of raise", f.rooted(f.raised(a)), a)
        check(name + "raise of root", f.raised(f.rooted(a)), a)
        check(name + "raise of a sum", f.raised(f.add(a, b)), f.add(f.raised(a), f.raised(b)))
        check(name + "raise of a scalar", f.raised(s), s)
        check(name + "scalar multiple", f.digits(f.mul(s, a)),
              [f.scalars.mul[s][t] for t in f.digits(a)])


# ---------------------------------------------------------------- sheets

SHEETS = (
    (logs.WHOLE_CASE, b"S,0,3,3,1,1,2,02\nS,5,1,1,2,0,2,07\nN,6,2,2,12\nT,6,1,1,1\n"),
    (logs.WORKED[0], b"S,0,3,3,0,0,0,01,01\nT,3,0,0,0\n"),
    (logs.WORKED[1], b"S,1,1,1,2,0,2,02\nT,1,0,0,0\n"),
    (logs.WORKED[2], b"N,2,2,2,12\nT,2,0,0,0\n"),
    (logs.WORKED[3], b"S,3,3,3,1,1,2,02\nT,3,0,0,0\n"),
    (logs.WORKED[4], b"S,4,5,5,0,2,2,02\nT,5,0,0,0\n"),
    (logs.WORKED[5], b"N,5,6,6,11\nT,6,0,0,0\n"),
    (b"", b"X,15\n"),
    (b"\n", b"X,15\n"),
    (b"L,octet,3,1", b"T,0,0,0,0\n"),
    (b"L,octet,3,1\n", b"T,0,0,0,0\n"),
    (b"L,octet,3,1\n\n", b"T,0,0,0,1\n"),
    (b"L,octet,3,1\r\n", b"X,15\n"),
    (b"\nL,octet,3,1\n", b"X,15\n"),
    (b"L,octet,3,1\nL,octet,3,1\n", b"T,0,0,0,1\n"),
    (b"L,octet,9,1\n", b"X,1\n"),
    (b"L,octet,3,0\n", b"X,1\n"),
    (b"L,octet,0,0\n", b"X,1\n"),
    (b"L,octet,1,2\n", b"X,1\n"),
    (b"L,word,16,16\nE,,,", b"T,0,0,1,0\n"),
    (b"L,word,17,1\n", b"X,1\n"),
    (b"L,nibble,7,7\nE,,,\nE,,\n", b"T,0,0,1,1\n"),
    (b"L,nibble,8,1\n", b"X,1\n"),
    (b"L,octet,2,1\nP,3,00,00\nP,3,00,00\n", b"N,3,2,0,10\nT,2,0,0,0\n"),
    (b"L,octet,2,1\nP,3,03,00\nP,4,04,00\n", b"S,3,1,1,1,0,1,00\nT,1,1,0,0\n"),
    (b"L,octet,2,1\n".ljust(65536, b"\n"), b"T,0,0,0,65524\n"),
    (b"L,octet,2,1\n".ljust(65537, b"\n"), b"X,14\n"),
    (b"L,octet,0,1\n".ljust(65537, b"\n"), b"X,14\n"),
    (b"\n" * 65537, b"X,14\n"),
    (b"\n" * 65536, b"X,15\n"),
)


def check_sheets():
    for log, want in SHEETS:
        check("sheet of %r" % log[:60], sheet(log), want)
    for line in logs.BAD_FIRST_LINES:
        check("first line %r" % line, sheet(line + b"\nE,,,\n"), b"X,15\n")
    for name, l, k in logs.SIZES_OUT_OF_RANGE:
        check("sizes %s %d %d" % (name, l, k), sheet(logs.first_line(name, l, k)), b"X,1\n")
    for name in logs.NAMES:
        field = get_field(name)
        for line in logs.unreadable_lines(field, field.m, 1):
            log = b"L,%s,%d,1\n%s\n" % (name.encode(), field.m, line)
            check("line %r" % line[:60], sheet(log), b"T,0,0,0,1\n")


# ---------------------------------------------------------------- solving

def random_spaces(source):
    """Spaces with k <= r <= 2l - k, of nothing right and of every shift of faults."""
    for block in (logs.noise_of_bearable_size, logs.longer_message, logs.two_senders,
                  logs.inside, logs.at_radius, logs.one_past, logs.far_past):
        span = span_of(source.field, block(source))
        if source.k <= span.rank <= 2 * source.l - source.k:
            yield block.__name__, span


def check_ways_agree(rng, field, most_messages, rounds):
    """The system and the search must give the same; returns (found, not found)."""
    found = missed = 0
    for l, k in logs.pairs(field):
        if field.size ** k > most_messages:
            continue
        for _ in range(rounds):
            for kind, span in random_spaces(logs.Source(rng, field, l, k)):
                want = solve_by_search(span, l, k)
                check("%s %d %d %s %r" % (field.name, l, k, kind, span.basis),
                      solve_by_system(span, l, k), want)
                found += want is not None
                missed += want is None
    return found, missed


def check_big_search(rng, name, l, k, block):
    """One search over all 65536 messages."""
    field = get_field(name)
    span = span_of(field, [])
    while not k <= span.rank <= 2 * l - k:
        span = span_of(field, block(logs.Source(rng, field, l, k)))
    check("%s %d %d %s %r" % (name, l, k, block.__name__, span.basis),
          solve_by_system(span, l, k), solve_by_search(span, l, k))


def check_known_faults(rng, field):
    """Where the faults are known, so is the answer: for every size of the field."""
    for l, k in logs.pairs(field):
        source = logs.Source(rng, field, l, k)
        for faults in (l - k, l - k + 1):
            message = source.message()
            lost, foreign = logs.split_faults(source, faults)
            span = span_of(field, source.received(message, lost, foreign))
            name = "%s %d %d, %d lost, %d foreign, %r" % (field.name, l, k, lost, foreign, message)
            check(name + " r", span.rank, l - lost + foreign)
            check(name + " shared", decoder.shared_dimensions(span, l, message), l - lost)
            if faults <= l - k:
                check(name, solve(span, l, k), (message, None))
                check(name + " by the system", solve_by_system(span, l, k), message)
                check(name + " by any solution",
                      [each for each in decoder.candidates(span, k) if each != message], [])
            else:
                check(name, solve(span, l, k)[0], None)


def check_logs_reach_everything():
    """The special logs meet every kind of line, and a seed gives the same logs again."""
    kinds = set()
    made = list(logs.logs(150, 5))
    for _, log in made:
        for line in sheet(log).splitlines():
            parts = line.split(b",")
            kinds.add(parts[0] + {b"X": parts[1], b"N": parts[-1]}.get(parts[0], b""))
    check("kinds of lines", sorted(kinds),
          sorted([b"S", b"T", b"N10", b"N11", b"N12", b"X1", b"X14", b"X15"]))
    check("same seed, same logs", list(logs.logs(150, 5)), made)


def main():
    start = time.time()
    rng = random.Random("selftest")
    check_field_facts()
    toys = toy_fields()
    real = [get_field(name) for name in logs.NAMES]
    for field in toys + real:
        check_field_laws(rng, field)
    check_sheets()
    for field in toys:
        tally = check_ways_agree(rng, field, 4096, 2)
        print("search and system, %s: %d solved, %d not" % ((field.name,) + tally))
    tally = check_ways_agree(rng, get_field("octet"), 256, 2)
    print("search and system, octet: %d solved, %d not" % tally)
    check_big_search(rng, "octet", 4, 2, logs.at_radius)
    check_big_search(rng, "octet", 3, 2, logs.one_past)
    check_big_search(rng, "word", 2, 1, logs.at_radius)
    for field in toys + real:
        check_known_faults(rng, field)
    check_logs_reach_everything()
    print("selftest: %d checks, %d wrong, %.1f seconds"
          % (checks, len(failures), time.time() - start))
    return 1 if failures else 0


if __name__ == "__main__":
    sys.exit(main())
