#!/usr/bin/env python3
"""Makes logs to try `collect` with.

make(seed) gives one random log; logs(count, seed) gives `count` of them, each
with a name: first the special cases, then random ones that go round all
fields and all sizes k <= l <= m.  The same seed always gives the same logs.

    logs.py SEED > log

The logs are only input.  What is right for them is not known here.
"""

import random
import sys

from decoder import Span, evaluate, get_field, sender_packets, span_of

NAMES = ("octet", "word", "nibble")
LONGEST_LOG = 65536


def pairs(field):
    """All sizes (l, k) with 1 <= k <= l <= m."""
    return [(l, k) for l in range(1, field.m + 1) for k in range(1, l + 1)]


# ---------------------------------------------------------------- packets

class Source:
    """Draws messages and packets for one field, l and k."""

    def __init__(self, rng, field, l, k):
        self.rng = rng
        self.field = field
        self.l = l
        self.k = k
        self.headers = field.q ** l    # codes of x below this are kept

    def message(self, count=None):
        """A message, at times a poor one: zero, few symbols, small symbols."""
        count = self.k if count is None else count
        style = self.rng.randrange(10)
        if style == 0:
            return [0] * count
        if style == 1:
            message = [0] * count
            message[self.rng.randrange(count)] = self.rng.randrange(1, self.field.size)
            return message
        if style == 2:
            return [self.rng.randrange(self.field.q) for _ in range(count)]
        return [self.rng.randrange(self.field.size) for _ in range(count)]

    def combination(self, packets):
        """A random sum of scalar multiples of the packets."""
        field = self.field
        x, y = 0, 0
        for other_x, other_y in packets:
            s = self.rng.randrange(field.q)
            x = field.add(x, field.mul(s, other_x))
            y = field.add(y, field.mul(s, other_y))
        return x, y

    def independent(self, packets, count):
        """`count` independent combinations of independent packets."""
        span = Span(self.field)
        while span.rank < count:
            span.put(self.combination(packets))
        return span.basis

    def mixed(self, packets):
        """The same span by other packets: a random invertible mixing."""
        return self.independent(packets, len(packets))

    def foreign_packet(self, message):
        """A packet that most likely fits no message."""
        x = self.rng.randrange(self.headers)
        y = self.rng.randrange(self.field.size)
        style = self.rng.randrange(6)
        if style == 0:
            return 0, y
        if style == 1:
            return x, 0
        if style == 2:    # the right y with one coordinate wrong
            wrong = self.field.q ** self.rng.randrange(self.field.m)
            return x, self.field.add(evaluate(self.field, message, x), wrong)
        if style == 3:    # a header the sender used, with another y
            return self.field.q ** self.rng.randrange(self.l), y
        return x, y

    def foreign(self, message, count):
        """`count` packets, independent of each other and of V(message)."""
        span = span_of(self.field, sender_packets(self.field, message, self.l))
        found = []
        while len(found) < count:
            packet = self.foreign_packet(message)
            if span.put(packet):
                found.append(packet)
        return found

    def received(self, message, lost, foreign):
        """A basis of a space with exactly these losses and foreign dimensions."""
        sent = sender_packets(self.field, message, self.l)
        if self.rng.random() < 0.3:    # plain losses, packets as sent
            packets = self.rng.sample(sent, self.l - lost)
        else:
            packets = list(self.independent(sent, self.l - lost))
        packets += self.foreign(message, foreign)
        if packets and self.rng.random() < 0.6:
            packets = list(self.mixed(packets))
        self.rng.shuffle(packets)
        return packets

    def padded(self, packets):
        """Dependent packets mixed in: repeats, combinations, the zero packet."""
        result = list(packets)
        for _ in range(self.rng.choice((0, 0, 1, 2, 5))):
            if not packets or self.rng.random() < 0.1:
                extra = (0, 0)
            elif self.rng.random() < 0.4:
                extra = self.rng.choice(packets)
            else:
                extra = self.combination(packets)
            result.insert(self.rng.randrange(len(result) + 1), extra)
        return result

    def beyond_headers(self):
        """A packet whose header is at or above q^l; only if l < m."""
        x = self.rng.choice((self.headers, self.field.size - 1,
                             self.rng.randrange(self.headers, self.field.size)))
        return x, self.rng.randrange(self.field.size)


# ---------------------------------------------------------------- blocks

def split_faults(source, faults):
    """(lost, foreign) with this sum, in the bounds of the field."""
    least = max(0, faults - source.field.m)
    most = min(faults, source.l)
    lost = source.rng.choice((least, most, source.rng.randint(least, most)))
    return lost, faults - lost


def clean(source):
    return sender_packets(source.field, source.message(), source.l)


def mixed(source):
    return source.mixed(clean(source))


def loosely_mixed(source):
    """Random combinations: as many as sent, or some more or fewer."""
    count = max(1, source.l + source.rng.randint(-2, 3))
    sent = clean(source)
    return [source.combination(sent) for _ in range(count)]


def lossy(source):
    lost = source.rng.randint(0, source.l - source.k)
    return source.received(source.message(), lost, 0)


def with_foreign(source):
    foreign = source.rng.randint(0, source.l - source.k)
    return source.received(source.message(), 0, foreign)


def inside(source):
    faults = source.rng.randint(0, source.l - source.k)
    return source.received(source.message(), *split_faults(source, faults))


def at_radius(source):
    return source.received(source.message(), *split_faults(source, source.l - source.k))


def one_past_of(source, message):
    """One fault too many; mostly so that the dimension alone does not tell."""
    lost, foreign = split_faults(source, source.l - source.k + 1)
    if source.l > source.k and source.rng.random() < 0.8:
        lost = source.rng.randint(1, source.l - source.k)
        foreign = source.l - source.k + 1 - lost
    return source.received(message, lost, foreign)


def one_past(source):
    return one_past_of(source, source.message())


def one_past_short(source):
    """One fault too many, and a last symbol of zero.

    Here a polynomial of low degree fits the packets, and by it the message
    that is one fault too far comes out whole: only measuring refuses it.
    """
    return one_past_of(source, source.message(source.k)[:-1] + [0])


def far_past(source):
    faults = source.l - source.k + source.rng.randint(2, 4)
    faults = min(faults, source.l + source.field.m)
    return source.received(source.message(), *split_faults(source, faults))


def least_received(source):
    """Just k dimensions, all of them right."""
    return source.received(source.message(), source.l - source.k, 0)


def most_received(source):
    """All that was sent and as many foreign dimensions as can be borne."""
    return source.received(source.message(), 0, source.l - source.k)


def too_few(source):
    """Fewer than k dimensions; for k = 1 the zero packet alone."""
    r = source.rng.randrange(source.k)
    packets = source.received(source.message(), source.l - r, 0)
    return packets or [(0, 0)] * source.rng.randint(1, 3)


def too_many(source):
    """More than 2l - k dimensions."""
    most = source.field.m
    least = source.l - source.k + 1
    foreign = source.rng.choice((least, least, source.rng.randint(least, most)))
    return source.received(source.message(), 0, foreign)


def noise(source):
    """Nothing right at all, of any dimension."""
    message = source.message()
    count = source.rng.randint(1, 2 * source.l + 1)
    return [source.foreign_packet(message) for _ in range(count)]


def noise_of_bearable_size(source):
    """Random packets with k <= r <= 2l - k where they can be had."""
    span = Span(source.field)
    target = source.rng.randint(source.k, 2 * source.l - source.k)
    while span.rank < target:
        span.put((source.rng.randrange(source.headers), source.rng.randrange(source.field.size)))
    return span.basis


def only_y(source):
    """Only packets (0, y): no header at all."""
    count = source.rng.randint(1, source.l + 1)
    return [(0, source.rng.randrange(source.field.size)) for _ in range(count)]


def longer_message(source):
    """A faultless block of a sender with more symbols than k."""
    count = source.rng.randint(source.k, source.field.m)
    message = source.message(count)
    sent = sender_packets(source.field, message, source.l)
    return source.independent(sent, source.rng.randint(source.k, source.l))


def shorter_message(source):
    """A block of a sender whose last symbols are zero."""
    count = source.rng.randint(1, source.k)
    message = source.message(count) + [0] * (source.k - count)
    return source.received(message, *split_faults(source, source.l - source.k))


def two_senders(source):
    """Packets of two messages under one number."""
    one, other = clean(source), clean(source)
    count = source.rng.randint(1, source.l)
    return source.independent(one, count) + source.independent(other, source.l - count)


BLOCKS = (clean, mixed, loosely_mixed, lossy, with_foreign, inside, at_radius, at_radius,
          at_radius, one_past, one_past_short, far_past, least_received, most_received, too_few,
          too_many, noise, noise_of_bearable_size, only_y, longer_message, shorter_message,
          two_senders)


# ---------------------------------------------------------------- lines

def packet_line(field, number, packet):
    x, y = packet
    return b"P,%d,%s,%s" % (number, field.text(x), field.text(y))


def first_line(name, l, k):
    return b"L,%s,%d,%d" % (name.encode("ascii"), l, k)


def unreadable_lines(field, l, k):
    """Lines that are not of any shape, each near to one that is."""
    w = field.width
    zero, one, letters = b"0" * w, b"0" * (w - 1) + b"1", b"A" * w
    good = b"P,0," + one + b"," + letters
    return [
        b"",
        b"\r",
        b" ",
        good + b"\r",
        b"E,,,\r",
        good.lower(),
        b"p" + good[1:],
        b"P,0," + one + b"," + letters.lower(),
        b"P,0," + letters.lower() + b"," + one,
        b"P,0," + b"0" * (w - 1) + b"f," + one,
        b"P,8," + one + b"," + one,
        b"P,9," + one + b"," + one,
        b"P,," + one + b"," + one,
        b"P,00," + one + b"," + one,
        b"P,07," + one + b"," + one,
        b"P,10," + one + b"," + one,
        b"P,-1," + one + b"," + one,
        b"P,A," + one + b"," + one,
        b"P,0," + one[1:] + b"," + one,
        b"P,0," + one + b"," + one[1:],
        b"P,0,0" + one + b"," + one,
        b"P,0," + one + b",0" + one,
        b"P,0,," + one,
        b"P,0," + one + b",",
        b"P,0,,",
        b"P,,,",
        b"P,0," + one,
        b"P,0",
        b"P",
        good + b",",
        good + b"," + one,
        good + b" ",
        good + b"\t",
        good + b"\x00",
        b" " + good,
        b"\x00" + good,
        b"\xef\xbb\xbf" + good,
        b"P, 0," + one + b"," + one,
        b"P,0, " + one[1:] + b"," + one,
        b"P,0," + one + b", " + one[1:],
        b"P,0,+" + one[1:] + b"," + one,
        b"P,0,-" + one[1:] + b"," + one,
        b"P,0,0x" + one + b"," + one,
        b"P,0,_" + one[1:] + b"," + one,
        b"P,0," + b"G" * w + b"," + one,
        b"P,0," + one + b"," + b"0" * (w - 1) + b"G",
        b"P,0," + b"/" * w + b"," + one,
        b"P,0," + b":" * w + b"," + one,
        b"P,0," + b"@" * w + b"," + one,
        b"P,/," + one + b"," + one,
        b"P,0," + zero + b";" + one,
        b"P;0;" + one + b";" + one,
        b'"P",0,' + one + b"," + one,
        good.replace(b",", b"\xac"),
        good.replace(b",", b"\x0b"),
        good.replace(b"A", b"\xc1"),
        "P,\u0660,".encode() + one + b"," + one,
        "P,0,".encode() + "\uff11".encode() * w + b"," + one,
        b"P,\xb0," + one + b"," + one,
        good + b"\x85" + good,
        good + b"\x0c",
        good + b"\x1c" + good,
        good + b"\r" + good,
        good + good,
        b"E",
        b"E,",
        b"E,,",
        b"E,,,,",
        b"E,,, ",
        b" E,,,",
        b"e,,,",
        b"E,0,,",
        b"E,,,0",
        b"E,0," + one + b"," + one,
        b"E,,,E,,,",
        b"EE,,,",
        first_line(field.name, l, k),
        first_line(field.name, field.m, 1),
        b"L,octet,3",
        b"L,,,",
        b"S,0,1,1,0,0,0," + one,
        b"N,0,1,0,10",
        b"T,0,0,0,0",
        b"X,1",
        b"Q,0," + one + b"," + one,
        b",,,",
        b",0," + one + b"," + one,
        b",",
        b"\xff\xfe\xfd",
        bytes(range(11, 256)),
        b"\x00" * 20,
        b"P" * 300,
        b"P,0," + b"0" * 300 + b"," + one,
        b"," * 100,
    ]


def random_unreadable(rng, field, l, k):
    """A line that is mostly not readable; at times a good one with one byte changed."""
    style = rng.randrange(4)
    if style == 0:
        junk = bytes(rng.randrange(256) for _ in range(rng.randrange(30)))
        return junk.replace(b"\n", b"\r")
    if style == 1:
        packet = rng.randrange(field.size), rng.randrange(field.size)
        line = rng.choice((packet_line(field, rng.randrange(8), packet), b"E,,,"))
        return one_byte_changed(rng, line)
    return rng.choice(unreadable_lines(field, l, k))


def one_byte_changed(rng, line):
    """One byte of the line changed, taken out or put in; never to LF."""
    at = rng.randrange(len(line))
    byte = rng.choice((rng.choice(b"0123456789ABCDEFabcdef,LPE \r"), rng.randrange(256)))
    byte = b"\r" if byte == 10 else bytes([byte])
    style = rng.randrange(3)
    if style == 0:
        return line[:at] + byte + line[at + 1:]
    if style == 1:
        return line[:at] + line[at + 1:]
    return line[:at] + byte + line[at:]


def interleaved(rng, lists):
    """All items of the lists in one, each list's own order kept."""
    order = [i for i, items in enumerate(lists) for _ in items]
    rng.shuffle(order)
    iterators = [iter(items) for items in lists]
    return [next(iterators[i]) for i in order]


def joined(rng, lines):
    """The lines with their LF; at times not the last one, at times one more."""
    ending = rng.choice((b"\n", b"\n", b"", b"\n\n"))
    return b"\n".join(lines) + ending


# ---------------------------------------------------------------- whole logs

def block_lines(source, number, block):
    packets = source.padded(block(source))
    return [packet_line(source.field, number, packet) for packet in packets]


def body(rng, source):
    """The lines after the first one: some numbers, gaps and spoilt lines."""
    field = source.field
    numbers = rng.sample(range(8), rng.choice((1, 1, 2, 3, 4, 5, 8)))
    lists = [block_lines(source, number, rng.choice(BLOCKS)) for number in numbers]
    if field.m > source.l and rng.random() < 0.6:
        lists.append([packet_line(field, rng.randrange(8), source.beyond_headers())
                      for _ in range(rng.randint(1, 6))])
    if rng.random() < 0.6:
        lists.append([b"E,,,"] * rng.randint(1, 6))
    if rng.random() < 0.6:
        lists.append([random_unreadable(rng, field, source.l, source.k)
                      for _ in range(rng.randint(1, 6))])
    if rng.random() < 0.5:
        return interleaved(rng, lists)
    return [line for items in lists for line in items]


def cut_short(rng, log):
    """The log broken off at some byte."""
    return log[:rng.randrange(len(log))] if log else log


def make(seed, name=None, size=None):
    """One random log; the field's name and (l, k) can be given."""
    rng = random.Random("log %s" % seed)
    field = get_field(name or rng.choice(NAMES))
    l, k = size or rng.choice(pairs(field))
    lines = [first_line(field.name, l, k)] + body(rng, Source(rng, field, l, k))
    style = rng.randrange(40)
    if style == 0:
        lines[0] = one_byte_changed(rng, lines[0])
    elif style == 1:
        lines[0] = first_line(field.name, rng.randrange(20), rng.randrange(20))
    elif style == 2:
        lines[1:] = [line + b"\r" if rng.random() < 0.3 else line for line in lines[1:]]
    log = joined(rng, lines)
    return cut_short(rng, log) if style == 3 else log


# ---------------------------------------------------------------- special logs

WHOLE_CASE = (b"L,octet,3,1\nP,0,01,02\nE,,,\nP,0,02,04\nP,5,01,07\nP,0,07,0F\nP,2,08,01\n"
              b"P,6,01,02\nP,6,02,05\nP,0,0")

WORKED = (
    b"L,octet,3,2\nP,0,01,00\nP,0,02,06\nP,0,04,14\n",
    b"L,octet,3,1\nP,1,01,02\n",
    b"L,octet,3,1\nP,2,01,02\nP,2,02,05\n",
    b"L,octet,3,1\nP,3,01,02\nP,3,02,04\nP,3,04,09\n",
    b"L,octet,3,1\nP,4,01,02\nP,4,02,04\nP,4,04,08\nP,4,00,01\nP,4,00,02\n",
    b"L,octet,3,1\nP,5,01,02\nP,5,02,04\nP,5,04,08\nP,5,00,01\nP,5,00,02\nP,5,00,04\n",
)

BAD_FIRST_LINES = (
    b"", b"\r", b"L", b"L,", b"L,octet", b"L,octet,3", b"L,octet,3,", b"L,octet,,1", b"L,,3,1",
    b"L,octet,3,1,", b"L,octet,3,1,1", b"L,octet,3,1\r", b"L,octet,3,1 ", b" L,octet,3,1",
    b"L, octet,3,1", b"L,octet, 3,1", b"L,octet,3, 1", b"l,octet,3,1", b"L,Octet,3,1",
    b"L,OCTET,3,1", b"L,octe,3,1", b"L,octets,3,1", b"L,byte,3,1", b"L,wor,3,1", b"L,words,3,1",
    b"L,nibbles,3,1", b"L,octet,03,1", b"L,octet,3,01", b"L,octet,00,1", b"L,octet,3,00",
    b"L,octet,100,1", b"L,octet,3,100", b"L,octet,003,1", b"L,octet,+3,1", b"L,octet,-3,1",
    b"L,octet,3,-1", b"L,octet,A,1", b"L,octet,3.0,1", b"L,octet,3,1\x00", b"\x00L,octet,3,1",
    b"\xef\xbb\xbfL,octet,3,1", b"L;octet;3;1", b"P,0,01,02", b"E,,,", b"T,0,0,0,0",
    b"L,octet,\xd9\xa3,1", b"LL,octet,3,1", b"L,octet,99999999999999999999,1",
)

SIZES_OUT_OF_RANGE = (
    ("octet", 0, 0), ("octet", 3, 0), ("octet", 0, 1), ("octet", 2, 3), ("octet", 9, 1),
    ("octet", 9, 9), ("octet", 8, 9), ("octet", 99, 99), ("octet", 10, 10), ("octet", 16, 1),
    ("word", 17, 1), ("word", 16, 17), ("word", 16, 0), ("word", 1, 2), ("word", 99, 1),
    ("nibble", 8, 1), ("nibble", 7, 8), ("nibble", 0, 0), ("nibble", 28, 1), ("nibble", 1, 2),
)


def fill(rng, field, l, start, length, line_maker):
    """The start made to exactly this length by whole lines and a last broken one."""
    parts, have = [start], len(start)
    while have < length:
        line = line_maker(rng, field, l) + b"\n"
        parts.append(line)
        have += len(line)
    return b"".join(parts)[:length]


def true_packets(rng, field, l):
    """A packet of the message (number, 0, ...), rarely a random one."""
    number, x = rng.randrange(8), rng.randrange(field.q ** l)
    y = field.mul(number, x)
    if rng.random() < 0.002:
        y = rng.randrange(field.size)
    return packet_line(field, number, (x, y))


def one_number(rng, field, l):
    """A packet of number 7, always of f(x) = x^2."""
    x = rng.randrange(field.q ** l)
    return packet_line(field, 7, (x, field.mul(x, x)))


def only_erased(rng, field, l):
    return b"E,,,"


def only_empty(rng, field, l):
    return b""


def long_logs(rng):
    """Logs of just under, just at and just over the length limit, and far over."""
    for name, l, k in (("octet", 3, 1), ("word", 4, 2), ("nibble", 3, 2)):
        field = get_field(name)
        start = first_line(name, l, k) + b"\n"
        for length in (LONGEST_LOG - 1, LONGEST_LOG, LONGEST_LOG + 1):
            yield ("%d bytes of %s packets" % (length, name),
                   fill(rng, field, l, start, length, true_packets))
    octet = get_field("octet")
    start = b"L,octet,8,2\n"
    yield "full log, one number", fill(rng, octet, 8, start, LONGEST_LOG, one_number)
    yield "full log, erased slots", fill(rng, octet, 8, start, LONGEST_LOG, only_erased)
    yield "full log, empty lines", fill(rng, octet, 8, start, LONGEST_LOG, only_empty)
    yield "full log, one long line", start + b"P" * (LONGEST_LOG - len(start))
    yield "full log, one long line and LF", start + b"P" * (LONGEST_LOG - len(start) - 1) + b"\n"
    for length in (LONGEST_LOG, LONGEST_LOG + 1):
        yield "%d empty lines" % length, b"\n" * length
        yield "%d bytes in the first line" % length, b"L,octet,3,1".ljust(length, b"0")
        yield "%d bytes, bad first line" % length, b"L,octet,3\n".ljust(length, b"x")
        yield "%d bytes, l = 0" % length, b"L,octet,0,0\n".ljust(length, b"x")
    yield "twice too long", (start + b"P,0,01,02\n" * 14000)[:2 * LONGEST_LOG]


def spoilt_line_logs(field, l, k):
    """All unreadable lines together, between packets that can be solved."""
    start = first_line(field.name, l, k)
    good = [packet_line(field, 0, packet) for packet in sender_packets(field, [1] * k, l)]
    lines = [start] + good[:1] + unreadable_lines(field, l, k) + good[1:]
    yield "unreadable lines, %s" % field.name, b"\n".join(lines) + b"\n"
    yield "unreadable last line, %s" % field.name, b"\n".join([start] + good + [b"P,0,0"])
    yield ("CR at every line but the first, %s" % field.name,
           start + b"\n" + b"".join(line + b"\r\n" for line in good))


def all_blocks_log(rng, field, l, k):
    """One block for each number, to meet every kind of answer in one size."""
    source = Source(rng, field, l, k)
    blocks = (mixed, least_received, most_received, at_radius, one_past, one_past_short, too_few,
              too_many)
    lists = [block_lines(source, number, block) for number, block in enumerate(blocks)]
    return b"\n".join([first_line(field.name, l, k)] + interleaved(rng, lists)) + b"\n"


def header_logs(field):
    """Headers just below and just at q^l, for l below m."""
    for l in (1, field.m - 1):
        limit = field.q ** l
        packets = [(limit - 1, 1), (limit, 1), (field.size - 1, 1), (0, 0)]
        lines = [packet_line(field, i, packet) for i, packet in enumerate(packets)]
        yield ("headers about q^%d, %s" % (l, field.name),
               b"\n".join([first_line(field.name, l, 1)] + lines))


def special(seed):
    """Yields (name, log) for every special case."""
    rng = random.Random("special %s" % seed)
    yield "whole case", WHOLE_CASE
    yield "whole case with its last LF", WHOLE_CASE + b"\n"
    for i, log in enumerate(WORKED):
        yield "worked %d" % i, log
    yield "empty log", b""
    yield "one LF", b"\n"
    for name in NAMES:
        field = get_field(name)
        m = field.m
        yield "first line only, %s" % name, first_line(name, m, m)
        yield "zero packets only, %s" % name, first_line(name, 2, 1) + (
            b"\n" + packet_line(field, 3, (0, 0))) * 2
        yield from header_logs(field)
        yield from spoilt_line_logs(field, m - 1, 2)
        for l, k in ((1, 1), (2, 1), (2, 2), (m - 1, 1), (m, 1), (m, m // 2), (m, m - 1), (m, m)):
            yield ("every block, %s %d %d" % (name, l, k), all_blocks_log(rng, field, l, k))
    yield from long_logs(rng)
    for name, l, k in SIZES_OUT_OF_RANGE:
        yield ("out of range %s %d %d" % (name, l, k),
               first_line(name, l, k) + b"\nP,0,01,02\n")
    for line in BAD_FIRST_LINES:
        yield "bad first line %r" % line, line + b"\nP,0,01,02\nL,octet,3,1\n"


def logs(count, seed):
    """Yields (name, log), `count` of them: the special ones, then random ones."""
    made = 0
    for name, log in special(seed):
        if made == count:
            return
        yield name, log
        made += 1
    rng = random.Random("rounds %s" % seed)
    rounds = {}
    index = 0
    while made < count:
        name = NAMES[index % len(NAMES)]
        if not rounds.get(name):
            rounds[name] = pairs(get_field(name))
            rng.shuffle(rounds[name])
        l, k = rounds[name].pop()
        own_seed = "%s/%d" % (seed, index)
        yield ("random %s, %s %d %d" % (own_seed, name, l, k), make(own_seed, name, (l, k)))
        made += 1
        index += 1


if __name__ == "__main__":
    sys.stdout.buffer.write(make(sys.argv[1]))
