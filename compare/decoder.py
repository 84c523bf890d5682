#!/usr/bin/env python3
"""An independent `collect`: reads a log of packets and writes its sheet.

    decoder.py < log > sheet

A packet is a pair (x, y) of symbols.  A sender with the message
u_0 .. u_{k-1} stands for the space V(u) of all pairs (x, f(x)), where
f(x) = u_0 x + u_1 x^q + ... + u_{k-1} x^(q^(k-1)) and the code of x is below
q^l.  The packets kept for one number span a space U.  The answer is the one
message whose V(u) lies within distance l - k of U, if there is one.

Two ways of finding it are here, and both end in the same measurement: the
distance is worked out from the rank of U stacked with V(u), over the scalars
and on all 2m coordinates.

Search: where there are few messages, every one of them is measured.

Linear system: let r = dim U and tau = ceil((r + k) / 2).  Look for
    Qx(x) = a_0 x + a_1 x^q + ...   with tau coefficients and
    Qy(y) = c_0 y + c_1 y^q + ...   with tau - k + 1 coefficients,
not all zero, so that Qx(x) + Qy(y) = 0 on a basis of U, hence on all of U.
That is r equations in 2 tau - k + 1 > r unknowns, so there is a solution.
If V(u) is within l - k of U then r + l - 2 dim(U n V(u)) <= l - k, so the two
share at least tau dimensions.  At every shared point y = f(x), so Qx + Qy(f)
vanishes at tau or more independent values of x.  But it has only tau
coefficients, and such a polynomial other than zero has at most tau - 1
independent zeros.  So Qx + Qy(f) is zero as a polynomial; Qy is not zero (or
Qx would be zero too); and u_0, u_1, ... follow one by one from the
coefficients, upward from the lowest nonzero coefficient of Qy.  Any nonzero
solution will do, and no message within reach can be missed.  Whatever comes
out is measured before it is believed, so nothing else can be accepted.
"""

import functools
import itertools
import operator
import re
import sys

LONGEST_LOG = 65536
SEARCH_AT_MOST = 256    # messages to measure one by one
TABLES_AT_MOST = 65536  # symbols to keep logarithms of

BAD_PARAMETERS = 1
TOO_FEW_DIMENSIONS = 10
TOO_MANY_DIMENSIONS = 11
OUT_OF_REACH = 12
LOG_TOO_LONG = 14
BAD_FIRST_LINE = 15


# ---------------------------------------------------------------- scalars

class Scalars:
    """A field of q elements, the codes 0 .. q-1, by its whole tables."""

    def __init__(self, add, mul):
        self.q = len(add)
        self.add = add
        self.mul = mul
        self.neg = [row.index(0) for row in add]
        self.inverse = [None] + [row.index(1) for row in mul[1:]]


def prime_scalars(p):
    """The whole numbers modulo the prime p."""
    return Scalars([[(a + b) % p for b in range(p)] for a in range(p)],
                   [[a * b % p for b in range(p)] for a in range(p)])


def extended_scalars(base, low):
    """Polynomials over `base`, modulo the monic one whose lower part is `low`."""
    degree = len(low)
    codes = range(base.q ** degree)
    lists = [to_digits(code, base.q, degree) for code in codes]

    def sum_code(a, b):
        return from_digits([base.add[s][t] for s, t in zip(a, b)], base.q)

    def product_code(a, b):
        return from_digits(product(a, b, low, base), base.q)

    return Scalars([[sum_code(a, b) for b in lists] for a in lists],
                   [[product_code(a, b) for b in lists] for a in lists])


def to_digits(code, q, count):
    """The `count` digits of a code in base q, lowest first."""
    digits = []
    for _ in range(count):
        code, digit = divmod(code, q)
        digits.append(digit)
    return digits


def from_digits(digits, q):
    """The code that has these digits in base q, lowest first."""
    code = 0
    for digit in reversed(digits):
        code = code * q + digit
    return code


def product(a, b, low, scalars):
    """The product of two digit lists modulo z^m + (the lower part `low`)."""
    m = len(low)
    add, mul = scalars.add, scalars.mul
    whole = [0] * (2 * m - 1)
    for i, s in enumerate(a):
        if s:
            times = mul[s]
            for j, t in enumerate(b):
                whole[i + j] = add[whole[i + j]][times[t]]
    for top in range(2 * m - 2, m - 1, -1):
        if whole[top]:
            times = mul[scalars.neg[whole[top]]]
            for i, t in enumerate(low):
                if t:
                    at = top - m + i
                    whole[at] = add[whole[at]][times[t]]
    return whole[:m]


# ---------------------------------------------------------------- symbols

class Field:
    """A field of q^m symbols over the scalars, modulo z^m + (lower part `low`).

    A symbol is held as its code.  `width` is the number of hex digits a code
    is written with.
    """

    def __init__(self, name, scalars, low, width):
        self.name = name
        self.scalars = scalars
        self.low = low
        self.width = width
        self.q = scalars.q
        self.m = len(low)
        self.size = self.q ** self.m
        if self._adds_like_xor():
            self.add = operator.xor
            self.neg = lambda a: a
        self._logs = None
        if self.size <= TABLES_AT_MOST:
            self._make_tables()
        basis = [self.q ** i for i in range(self.m)]
        self._raise_table = self._linear_table([self.power(b, self.q) for b in basis])
        for _ in range(self.m - 1):    # one raise more would undo them all
            basis = [self.raised(b) for b in basis]
        self._root_table = self._linear_table(basis)

    # Codes and digits.

    def digits(self, a):
        return to_digits(a, self.q, self.m)

    def code(self, digits):
        return from_digits(digits, self.q)

    def text(self, a):
        return b"%0*X" % (self.width, a)

    # Sums.

    def _adds_like_xor(self):
        """Whether adding digit by digit is the same as XOR of the codes."""
        q, table = self.q, self.scalars.add
        return q & (q - 1) == 0 and all(
            table[a][b] == a ^ b for a in range(q) for b in range(q))

    def add(self, a, b):
        table = self.scalars.add
        return self.code([table[s][t] for s, t in zip(self.digits(a), self.digits(b))])

    def neg(self, a):
        return self.code([self.scalars.neg[s] for s in self.digits(a)])

    # Products.

    def long_product(self, a, b):
        """The product straight from the digits."""
        return self.code(product(self.digits(a), self.digits(b), self.low, self.scalars))

    def mul(self, a, b):
        if a == 0 or b == 0:
            return 0
        if self._logs is None:
            return self.long_product(a, b)
        return self._powers[self._logs[a] + self._logs[b]]

    def _make_tables(self):
        """Logarithms to the first base whose powers are all symbols but zero."""
        for base in range(1, self.size):
            powers = self._powers_of(base)
            if len(powers) == self.size - 1:
                break
        else:
            raise ValueError("no field: the modulus can be factored")
        logs = [None] * self.size
        for exponent, a in enumerate(powers):
            logs[a] = exponent
        self._powers = powers + powers
        self._logs = logs

    def _powers_of(self, base):
        """1, base, base^2, ... until 1 or 0 comes."""
        table = self._linear_table([self.long_product(base, self.q ** i) for i in range(self.m)])
        powers = [1]
        while len(powers) < self.size:
            a = self._apply(table, powers[-1])
            if a in (0, 1):
                break
            powers.append(a)
        return powers

    def power(self, a, exponent):
        result = 1
        while exponent:
            if exponent & 1:
                result = self.mul(result, a)
            a = self.mul(a, a)
            exponent >>= 1
        return result

    def inverse(self, a):
        if a == 0:
            raise ZeroDivisionError("zero has no inverse")
        if self._logs is not None:
            return self._powers[self.size - 1 - self._logs[a]]
        # The product of all m raises of a is a scalar, the norm of a.
        others, each = 1, a
        for _ in range(self.m - 1):
            each = self.raised(each)
            others = self.mul(others, each)
        norm = self.mul(others, a)
        return self.mul(others, self.scalars.inverse[norm])

    # Maps that are linear over the scalars.

    def _linear_table(self, images):
        """For each place, all scalar multiples of the image of b_place."""
        return [[self.code([self.scalars.mul[s][t] for t in self.digits(image)])
                 for s in range(self.q)] for image in images]

    def _apply(self, table, a):
        total, place = 0, 0
        while a:
            a, digit = divmod(a, self.q)
            if digit:
                total = self.add(total, table[place][digit])
            place += 1
        return total

    def raised(self, a):
        """The q-th power."""
        return self._apply(self._raise_table, a)

    def rooted(self, a):
        """The q-th root."""
        return self._apply(self._root_table, a)


@functools.cache
def get_field(name):
    """The field of this name, or None."""
    two = prime_scalars(2)
    if name == "octet":    # x^8 + x^4 + x^3 + x + 1
        return Field(name, two, [1, 1, 0, 1, 1, 0, 0, 0], 2)
    if name == "word":     # x^16 + x^12 + x^3 + x + 1
        return Field(name, two, [1, 1, 0, 1] + [0] * 8 + [1, 0, 0, 0], 4)
    if name == "nibble":   # z^7 + z + 1, over x^4 + x + 1
        sixteen = extended_scalars(two, [1, 1, 0, 0])
        return Field(name, sixteen, [1, 1, 0, 0, 0, 0, 0], 7)
    return None


# ---------------------------------------------------------------- spaces

class Span:
    """The span of packets over the scalars, on all 2m coordinates."""

    def __init__(self, field):
        self.field = field
        self.rows = []     # pairs (pivot place, row with 1 at that place)
        self.basis = []    # the packets that made the span grow

    def copy(self):
        other = Span(self.field)
        other.rows = list(self.rows)
        other.basis = list(self.basis)
        return other

    @property
    def rank(self):
        return len(self.rows)

    def put(self, packet):
        """Takes a packet in; True if the span grew."""
        x, y = packet
        scalars = self.field.scalars
        row = self.field.digits(x) + self.field.digits(y)
        for place, pivot_row in self.rows:
            if row[place]:
                row = add_multiple(scalars, row, scalars.neg[row[place]], pivot_row)
        if not any(row):
            return False
        place = next(i for i, s in enumerate(row) if s)
        times = scalars.mul[scalars.inverse[row[place]]]
        self.rows.append((place, [times[s] for s in row]))
        self.basis.append(packet)
        return True


def add_multiple(scalars, row, factor, other):
    """row + factor * other, over the scalars."""
    add, times = scalars.add, scalars.mul[factor]
    return [add[s][times[t]] for s, t in zip(row, other)]


def span_of(field, packets):
    span = Span(field)
    for packet in packets:
        span.put(packet)
    return span


def evaluate(field, message, x):
    """f(x) for the message u_0, u_1, ..."""
    total = 0
    for u in message:
        total = field.add(total, field.mul(u, x))
        x = field.raised(x)
    return total


def sender_packets(field, message, l):
    """The l packets (b_i, f(b_i))."""
    return [(field.q ** i, evaluate(field, message, field.q ** i)) for i in range(l)]


def shared_dimensions(span, l, message):
    """dim(U n V) = dim U + dim V - dim(U + V), where V = V(message)."""
    both = span.copy()
    for packet in sender_packets(span.field, message, l):
        both.put(packet)
    return span.rank + l - both.rank


def within_reach(span, l, k, message):
    """Whether the distance from U to V(message) is at most l - k."""
    return span.rank + l - 2 * shared_dimensions(span, l, message) <= l - k


# ---------------------------------------------------------------- solving

def solve_by_search(span, l, k):
    """The message within reach, or None, by measuring every message."""
    found = None
    for message in itertools.product(range(span.field.size), repeat=k):
        if within_reach(span, l, k, message):
            if found is not None:
                raise AssertionError("two messages within reach")
            found = list(message)
    return found


def solve_by_system(span, l, k):
    """The message within reach, or None, by the linear system.

    For k <= r <= 2l - k only.  Of the solutions the last is taken; it often
    has a Qy that begins with zeros.
    """
    message = candidates(span, k)[-1]
    if message is None or not within_reach(span, l, k, message):
        return None
    return message


def candidates(span, k):
    """The one possible message (or None) from each solution of a basis of them."""
    field = span.field
    tau = (span.rank + k + 1) // 2
    in_y = tau - k + 1
    rows = [raises(field, x, tau) + raises(field, y, in_y) for x, y in span.basis]
    return [recover(field, solution[:tau], solution[tau:], k)
            for solution in kernel(field, rows, tau + in_y)]


def raises(field, a, count):
    """a, a^q, a^(q^2), ...: `count` of them."""
    result = []
    for _ in range(count):
        result.append(a)
        a = field.raised(a)
    return result


def kernel(field, rows, columns):
    """A basis of all v with (row times v) = 0 for every row."""
    reduced = []   # pairs (pivot column, row with 1 there and 0 at other pivots)
    for row in rows:
        for column, pivot_row in reduced:
            row = cleared(field, row, column, pivot_row)
        column = next((i for i, a in enumerate(row) if a), None)
        if column is None:
            continue
        scale = field.inverse(row[column])
        row = [field.mul(scale, a) for a in row]
        reduced = [(c, cleared(field, r, column, row)) for c, r in reduced]
        reduced.append((column, row))
    pivots = {column for column, _ in reduced}
    basis = []
    for free in range(columns):
        if free not in pivots:
            vector = [0] * columns
            vector[free] = 1
            for column, row in reduced:
                vector[column] = field.neg(row[free])
            basis.append(vector)
    return basis


def cleared(field, row, column, pivot_row):
    """The row made zero at the column by a multiple of the pivot row."""
    if row[column] == 0:
        return row
    factor = field.neg(row[column])
    add, mul = field.add, field.mul
    return [add(a, mul(factor, b)) if b else a for a, b in zip(row, pivot_row)]


def recover(field, qx, qy, k):
    """The only u_0 .. u_{k-1} that Qx + Qy(f) = 0 leaves possible.

    With t the lowest place where Qy is not zero, the coefficient at t + j is
        a_{t+j} + c_t u_j^(q^t) + (terms c_i u_n^(q^i) with i > t, i + n = t + j).
    Each such equation gives u_j from the symbols before it.
    """
    t = next((i for i, c in enumerate(qy) if c), None)
    if t is None:
        return None
    scale = field.inverse(qy[t])
    message = []
    for j in range(k):
        rest = qx[t + j]
        for n in range(j):
            i = t + j - n
            if i < len(qy):
                raised = raises(field, message[n], i + 1)[i]
                rest = field.add(rest, field.mul(qy[i], raised))
        u = field.mul(scale, field.neg(rest))
        for _ in range(t):
            u = field.rooted(u)
        message.append(u)
    return message


def solve(span, l, k):
    """(message, None), or (None, the refusal)."""
    if span.rank < k:
        return None, TOO_FEW_DIMENSIONS
    if span.rank > 2 * l - k:
        return None, TOO_MANY_DIMENSIONS
    if span.field.size ** k <= SEARCH_AT_MOST:
        message = solve_by_search(span, l, k)
    else:
        message = solve_by_system(span, l, k)
    if message is None:
        return None, OUT_OF_REACH
    return message, None


# ---------------------------------------------------------------- the log

DECIMAL = rb"(0|[1-9][0-9]?)"
FIRST_LINE = re.compile(rb"L,([a-z]+)," + DECIMAL + rb"," + DECIMAL)


def split_lines(log):
    """The lines without their LF; a last part without LF is a line if not empty."""
    lines = log.split(b"\n")
    if lines[-1] == b"":
        lines.pop()
    return lines


def read_first_line(lines):
    """(field, l, k), or None if the line is missing or not of its shape."""
    shape = FIRST_LINE.fullmatch(lines[0]) if lines else None
    if shape is None:
        return None
    field = get_field(shape[1].decode("ascii"))
    if field is None:
        return None
    return field, int(shape[2]), int(shape[3])


def packet_pattern(field):
    code = rb"([0-9A-F]{%d})" % field.width
    return re.compile(rb"P,([0-7])," + code + rb"," + code)


class Counts:
    """What the lines after the first one came to."""

    def __init__(self):
        self.kept = {}     # number -> packets kept
        self.passed_over = 0
        self.erased = 0
        self.unreadable = 0

    @property
    def taken(self):
        return sum(len(packets) for packets in self.kept.values())


def read_lines(field, l, lines):
    """Sorts all lines after the first one."""
    counts = Counts()
    pattern = packet_pattern(field)
    for line in lines:
        shape = pattern.fullmatch(line)
        if line == b"E,,,":
            counts.erased += 1
        elif shape is None:
            counts.unreadable += 1
        else:
            number, x, y = int(shape[1]), int(shape[2], 16), int(shape[3], 16)
            if x >= field.size or y >= field.size:
                counts.unreadable += 1
            elif x >= field.q ** l:
                counts.passed_over += 1
            else:
                counts.kept.setdefault(number, []).append((x, y))
    return counts


# ---------------------------------------------------------------- the sheet

def sheet(log):
    """The whole sheet for a log, as bytes."""
    return b"".join(line + b"\n" for line in sheet_lines(log))


def sheet_lines(log):
    if len(log) > LONGEST_LOG:
        return [b"X,%d" % LOG_TOO_LONG]
    lines = split_lines(log)
    first = read_first_line(lines)
    if first is None:
        return [b"X,%d" % BAD_FIRST_LINE]
    field, l, k = first
    if not 1 <= k <= l <= field.m:
        return [b"X,%d" % BAD_PARAMETERS]
    counts = read_lines(field, l, lines[1:])
    answers = [number_line(field, l, k, number, counts.kept[number])
               for number in sorted(counts.kept)]
    totals = (counts.taken, counts.passed_over, counts.erased, counts.unreadable)
    return answers + [b"T,%d,%d,%d,%d" % totals]


def number_line(field, l, k, number, packets):
    """The S or N line of one number."""
    span = span_of(field, dict.fromkeys(packets))   # the same packet twice adds nothing
    taken, r = len(packets), span.rank
    message, refusal = solve(span, l, k)
    if message is None:
        return b"N,%d,%d,%d,%d" % (number, taken, r, refusal)
    shared = shared_dimensions(span, l, message)
    lost, foreign = l - shared, r - shared
    numbers = b"S,%d,%d,%d,%d,%d,%d" % (number, taken, r, lost, foreign, lost + foreign)
    return b",".join([numbers] + [field.text(u) for u in message])


if __name__ == "__main__":
    sys.stdout.buffer.write(sheet(sys.stdin.buffer.read()))
