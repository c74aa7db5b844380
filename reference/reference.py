#!/usr/bin/env python3
"""A second implementation of the reflection channels, their sheets and the
materials file, written from the rules alone, without sight of the main program.

It reads cases from standard input, one to a line, and prints the answer of each,
so that the two programs' answers can be laid side by side. It aims at being
plain, not at being fast: whole numbers are Python's own, of any size, so nothing
can overflow by accident.
"""

import re
import sys

# ---------------------------------------------------------------- limits

LEAST_WIDTH, GREATEST_WIDTH = 8, 24
NODES, REGISTERS, COEFFICIENTS = 64, 16, 17
TICKS = 4096                    # ticks in one step
FAR = 2 ** 38                   # ends and ceilings beyond this are refused
RECORDS = 512
FILE_BYTES = 65000
NAME_BYTES = 40
LEFT = 170                      # what a destination holds before a write


class Refusal(Exception):
    """A refusal's number, and the node or record it tells (None where none)."""

    def __init__(self, number, place=None):
        Exception.__init__(self, number, place)
        self.number = number
        self.place = place


class TooLong(Exception):
    """A sheet went over the count of rounds that its caller would wait for."""


# ---------------------------------------------------------------- rounding

def divide(rule, l, p):
    """p over 2^l by the rule: the quotient and what is left over."""
    one = 2 ** l
    if rule == 'F':
        q = p // one
    elif rule == 'N':
        q = (p + one // 2) // one
    else:
        q = abs(p) // one
        if p < 0:
            q = -q
    return q, p - one * q


def share(rule):
    """How far one rounding moves a value at most, in ticks."""
    return {'F': 4096, 'N': 2048, 'Z': 4096}[rule]


def reach(rule, l, m):
    """How large a quotient may be when the dividend is at most m in magnitude."""
    one = 2 ** l
    if rule == 'F':
        return -(-m // one)
    if rule == 'N':
        return (m + one // 2) // one
    return m // one


# ---------------------------------------------------------------- overflow

def least_word(w):
    return -2 ** (w - 1)


def greatest_word(w):
    return 2 ** (w - 1) - 1


def in_word(w, v):
    return least_word(w) <= v <= greatest_word(w)


def store(rule, w, raw):
    """The word kept for a raw number, or None where the rule stops."""
    if in_word(w, raw):
        return raw
    if rule == 'W':
        return (raw - least_word(w)) % 2 ** w + least_word(w)
    if rule == 'S':
        return least_word(w) if raw < 0 else greatest_word(w)
    return None


# ---------------------------------------------------------------- settings, wirings

class Setting:
    def __init__(self, k, l, rounding, overflow):
        self.k = k
        self.l = l
        self.w = k + l
        self.rounding = rounding
        self.overflow = overflow


class Wiring:
    """coefficients: how many; output: a node; sources: a node for each register;
    nodes: ('i',), ('z',), ('r', R), ('s', P, C), ('a', P, Q) or ('d', P, Q)."""

    def __init__(self, coefficients, output, sources, nodes):
        self.coefficients = coefficients
        self.output = output
        self.sources = sources
        self.nodes = nodes


def check_format(k, l):
    if k < 1 or l < 1 or not LEAST_WIDTH <= k + l <= GREATEST_WIDTH:
        raise Refusal(6)


def check_wiring(wiring):
    if not 1 <= len(wiring.nodes) <= NODES:
        raise Refusal(12)
    if len(wiring.sources) > REGISTERS:
        raise Refusal(12)
    if wiring.coefficients > COEFFICIENTS:
        raise Refusal(12)
    for number, node in enumerate(wiring.nodes):
        if not names_present(wiring, number, node):
            raise Refusal(13)
    if wiring.output >= len(wiring.nodes):
        raise Refusal(14)
    for source in wiring.sources:
        if source >= len(wiring.nodes):
            raise Refusal(14)


def names_present(wiring, number, node):
    """Whether a node names only earlier nodes and what the wiring has."""
    if node[0] == 'r':
        return node[1] < len(wiring.sources)
    if node[0] == 's':
        return node[1] < number and node[2] < wiring.coefficients
    if node[0] in 'ad':
        return node[1] < number and node[2] < number
    return True


def check_coefficients(setting, wiring, coefficients):
    if len(coefficients) != wiring.coefficients:
        raise Refusal(17)
    check_words(setting.w, coefficients)


def check_words(w, coefficients):
    for c in coefficients:
        if not in_word(w, c):
            raise Refusal(9)


# ---------------------------------------------------------------- kinds of value

class WordKind:
    """The stored word and nothing else."""

    def __init__(self, setting):
        self.setting = setting

    def plain(self, u):
        """The value of a sample, before any refusal."""
        return u

    def sample(self, u):
        return u

    def nought(self):
        return 0

    def scale(self, c, v):
        q, _ = divide(self.setting.rounding, self.setting.l, c * v)
        return self.kept(q)

    def sum(self, v1, v2):
        return self.kept(v1 + v2)

    def difference(self, v1, v2):
        return self.kept(v1 - v2)

    def kept(self, raw):
        word = store(self.setting.overflow, self.setting.w, raw)
        if word is None:
            raise Refusal(18)
        return word

    def show(self, value):
        return str(value)


class EnclosedKind:
    """A word v, and ends d and e in ticks between which the exact number lies."""

    def __init__(self, setting):
        self.setting = setting

    def plain(self, u):
        return (u, 0, 0)

    def sample(self, u):
        return (u, 0, 0)

    def nought(self):
        return (0, 0, 0)

    def scale(self, c, value):
        v, d, e = value
        one = 2 ** self.setting.l
        q, r = divide(self.setting.rounding, self.setting.l, c * v)
        low = min(c * d, c * e) + TICKS * r
        high = max(c * d, c * e) + TICKS * r
        return self.kept(q, low // one, -(-high // one))

    def sum(self, value1, value2):
        v1, d1, e1 = value1
        v2, d2, e2 = value2
        return self.kept(v1 + v2, d1 + d2, e1 + e2)

    def difference(self, value1, value2):
        v1, d1, e1 = value1
        v2, d2, e2 = value2
        return self.kept(v1 - v2, d1 - e2, e1 - d2)

    def kept(self, raw, d, e):
        """Store the raw number; what storing took off moves both ends."""
        word = store(self.setting.overflow, self.setting.w, raw)
        if word is None:
            raise Refusal(18)
        d += TICKS * (raw - word)
        e += TICKS * (raw - word)
        if abs(d) > FAR or abs(e) > FAR:
            raise Refusal(19)
        return (word, d, e)

    def show(self, value):
        return '%d:%d:%d' % value


class BoundKind:
    """A peak P in steps, and a ceiling M in ticks on the distance of the two runs."""

    def __init__(self, setting):
        self.setting = setting

    def plain(self, u):
        return (abs(u), 0)

    def sample(self, u):
        return self.within(abs(u), 0)

    def nought(self):
        return (0, 0)

    def scale(self, c, value):
        p, m = value
        one = 2 ** self.setting.l
        peak = reach(self.setting.rounding, self.setting.l, abs(c) * p)
        ceiling = -(-abs(c) * m // one) + share(self.setting.rounding)
        return self.within(peak, ceiling)

    def sum(self, value1, value2):
        return self.within(value1[0] + value2[0], value1[1] + value2[1])

    def difference(self, value1, value2):
        return self.sum(value1, value2)

    def within(self, peak, ceiling):
        if peak > greatest_word(self.setting.w):
            raise Refusal(21)
        if ceiling > FAR:
            raise Refusal(22)
        return (peak, ceiling)

    def show(self, value):
        return '%d:%d' % value


class PeakKind:
    """The peaks of bounds alone, ceilings left out, for lowering a closed box."""

    def __init__(self, setting):
        self.setting = setting

    def sample(self, u):
        return abs(u)

    def nought(self):
        return 0

    def scale(self, c, p):
        return reach(self.setting.rounding, self.setting.l, abs(c) * p)

    def sum(self, p1, p2):
        return p1 + p2

    def difference(self, p1, p2):
        return p1 + p2


KINDS = {'word': WordKind, 'enclosed': EnclosedKind, 'bound': BoundKind}


def work_nodes(kind, wiring, coefficients, registers, u):
    """The value of every node in order; a refusal tells the node it was met at."""
    values = []
    for number, node in enumerate(wiring.nodes):
        letter = node[0]
        try:
            if letter == 'i':
                value = kind.sample(u)
            elif letter == 'z':
                value = kind.nought()
            elif letter == 'r':
                value = registers[node[1]]
            elif letter == 's':
                value = kind.scale(coefficients[node[2]], values[node[1]])
            elif letter == 'a':
                value = kind.sum(values[node[1]], values[node[2]])
            else:
                value = kind.difference(values[node[1]], values[node[2]])
        except Refusal as refusal:
            raise Refusal(refusal.number, number)
        values.append(value)
    return values


# ---------------------------------------------------------------- the watch

class Watch:
    """What a channel may promise, for a sheet's range X and count N."""

    def __init__(self, x, n):
        self.x = x
        self.n = n
        self.state = 'settled'
        self.zeros = 0          # how far it has fallen, while falling

    def swapped(self):
        self.state = 'lapsed'

    def hushed(self):
        if self.state != 'lapsed':
            self.state = 'settled'

    def fed(self, u):
        if self.state == 'lapsed':
            return
        if abs(u) > self.x:
            self.state = 'spoilt'
            return
        if self.state == 'spoilt':
            return
        if u != 0:
            self.state = 'settled' if self.n == 0 else 'sounding'
            return
        if self.state == 'settled':
            return
        self.zeros = 1 if self.state == 'sounding' else self.zeros + 1
        self.state = 'settled' if self.zeros == self.n else 'falling'

    def show(self):
        if self.state == 'falling':
            return 'falling.%d' % self.zeros
        return self.state


# ---------------------------------------------------------------- the channel

class Channel:
    """Rows are lists of values, lent at each call and changed in place; a row may
    be longer than is needed, and the places past its needs stay as they are."""

    def __init__(self, setting, kind_name, wiring, coefficients, row, watch):
        """Open. watch is None or the pair X, N."""
        check_format(setting.k, setting.l)
        check_wiring(wiring)
        check_coefficients(setting, wiring, coefficients)
        if len(row) < len(wiring.sources):
            raise Refusal(15)
        self.setting = setting
        self.kind = KINDS[kind_name](setting)
        self.wiring = wiring
        self.coefficients = list(coefficients)
        self.watch = None if watch is None else Watch(*watch)
        self.silence(row)

    def silence(self, row):
        for register in range(len(self.wiring.sources)):
            row[register] = self.kind.nought()

    def feed(self, row, lent, working, u):
        """lent: how many places of the register row the call may use."""
        wiring = self.wiring
        if lent < len(wiring.sources):
            raise Refusal(15)
        if len(working) < len(wiring.nodes):
            raise Refusal(15)
        if not in_word(self.setting.w, u):
            raise Refusal(16)
        try:
            values = work_nodes(self.kind, wiring, self.coefficients, row, u)
        except Refusal:
            for number in range(len(wiring.nodes)):
                working[number] = self.kind.nought()
            raise
        working[:len(values)] = values
        for register, source in enumerate(wiring.sources):
            row[register] = values[source]
        if self.watch is not None:
            self.watch.fed(u)
        return values[wiring.output]

    def swap(self, coefficients):
        check_coefficients(self.setting, self.wiring, coefficients)
        self.coefficients = list(coefficients)
        if self.watch is not None:
            self.watch.swapped()

    def hush(self, row, lent):
        if lent < len(self.wiring.sources):
            raise Refusal(15)
        self.silence(row)
        if self.watch is not None:
            self.watch.hushed()

    def show_registers(self, row):
        return show_list(row[:len(self.wiring.sources)], self.kind.show)

    def show_watch(self):
        return 'none' if self.watch is None else self.watch.show()


# ---------------------------------------------------------------- the sheet

class Sheet:
    def __init__(self, peak, ceiling, n, band, box, last):
        self.peak = peak
        self.ceiling = ceiling
        self.n = n
        self.band = band
        self.box = box          # a peak and a ceiling for each register
        self.last = last        # the last box's peaks


def check_sheet(setting, x, lengths, wiring, coefficients):
    """Everything a sheet refuses before its first round."""
    check_format(setting.k, setting.l)
    check_wiring(wiring)
    check_coefficients(setting, wiring, coefficients)
    for length in lengths:
        if length < len(wiring.sources):
            raise Refusal(15)
    if not 0 <= x <= greatest_word(setting.w):
        raise Refusal(20)


def work_sheet(setting, x, wiring, coefficients, limit=None):
    """Rounds from nought climb to the least closed box, or meet a refusal."""
    rounds = 0
    kind = BoundKind(setting)
    box = [kind.nought()] * len(wiring.sources)
    while True:
        rounds += 1
        if limit is not None and rounds > limit:
            raise TooLong()
        values = work_nodes(kind, wiring, coefficients, box, x)
        after = [values[source] for source in wiring.sources]
        if after == box:
            break
        box = after
    peak, ceiling = values[wiring.output]

    # From there rounds of silence lower the peaks as far as they go.
    n = 0
    kind = PeakKind(setting)
    last = [entry[0] for entry in box]
    while True:
        rounds += 1
        if limit is not None and rounds > limit:
            raise TooLong()
        values = work_nodes(kind, wiring, coefficients, last, 0)
        after = [values[source] for source in wiring.sources]
        if after == last:
            break
        last = after
        n += 1
    return Sheet(peak, ceiling, n, values[wiring.output], box, last)


# ---------------------------------------------------------------- the three forms

def build_form(form, nb, na):
    """The wiring of a form with nb coefficients b and na coefficients a."""
    if not 1 <= nb <= 9 or not 0 <= na <= 8:
        raise Refusal(7)
    return {'1': direct_1, '2': direct_2, 'T': transposed_2}[form](nb - 1, na)


class Builder:
    def __init__(self):
        self.nodes = []

    def add(self, *node):
        self.nodes.append(node)
        return len(self.nodes) - 1


def direct_1(n, m):
    build = Builder()
    u = build.add('i')
    us = [u] + [build.add('r', i) for i in range(n)]            # u, u1 .. un
    ys = [build.add('r', n + j) for j in range(m)]              # y1 .. ym
    bs = [build.add('s', us[i], i) for i in range(n + 1)]
    as_ = [build.add('s', ys[j], n + 1 + j) for j in range(m)]
    total = bs[0]
    for product in bs[1:]:
        total = build.add('a', total, product)
    for product in as_:
        total = build.add('d', total, product)
    sources = us[:n] + ([total] + ys)[:m]
    return Wiring(n + 1 + m, total, sources, build.nodes)


def direct_2(n, m):
    big = max(n, m)
    build = Builder()
    u = build.add('i')
    vs = [build.add('r', i) for i in range(big)]                # v1 .. vK
    as_ = [build.add('s', vs[j], n + 1 + j) for j in range(m)]
    v0 = u
    for product in as_:
        v0 = build.add('d', v0, product)
    vs = [v0] + vs                                              # v0 .. vK
    bs = [build.add('s', vs[i], i) for i in range(n + 1)]
    y = bs[0]
    for product in bs[1:]:
        y = build.add('a', y, product)
    return Wiring(n + 1 + m, y, vs[:big], build.nodes)


def transposed_2(n, m):
    big = max(n, m)
    build = Builder()
    u = build.add('i')
    ss = [build.add('r', i) for i in range(big)]                # s1 .. sK
    if big > 0:
        ss.append(build.add('z'))                               # stands after sK
    bs = [build.add('s', u, i) for i in range(n + 1)]
    y = bs[0]
    if big > 0:
        y = build.add('a', bs[0], ss[0])
    as_ = [build.add('s', y, n + 1 + j) for j in range(m)]
    sources = []
    for k in range(1, big + 1):
        total = ss[k]
        if k <= n:
            total = build.add('a', total, bs[k])
        if k <= m:
            total = build.add('d', total, as_[k - 1])
        sources.append(total)
    return Wiring(n + 1 + m, y, sources, build.nodes)


# ---------------------------------------------------------------- the materials file

class Record:
    def __init__(self, name, form, rounding, overflow, k, l, b, a):
        self.name = name
        self.form = form
        self.rounding = rounding
        self.overflow = overflow
        self.k = k
        self.l = l
        self.b = b
        self.a = a


def big_endian(data):
    return int.from_bytes(data, 'big')


def read_pairs(data):
    """The offset and length of each record, all in place."""
    if not 2 <= len(data) <= FILE_BYTES:
        raise Refusal(1)
    count = big_endian(data[0:2])
    place = 2 + 6 * count                                       # where the pairs end
    if count > RECORDS or place > len(data):
        raise Refusal(2)
    pairs = []
    for number in range(count):
        at = 2 + 6 * number
        offset = big_endian(data[at:at + 4])
        length = big_endian(data[at + 4:at + 6])
        if offset != place:
            raise Refusal(3)
        pairs.append((offset, length))
        place += length
    if place != len(data):
        raise Refusal(3)
    return pairs


def good_name_byte(byte):
    return 32 <= byte <= 126


def check_letters(form, rounding, overflow):
    if form not in ('1', '2', 'T') or rounding not in ('F', 'N', 'Z') \
            or overflow not in ('W', 'S', 'X'):
        raise Refusal(5)


def check_counts(nb, na):
    if not 1 <= nb <= 9 or not 0 <= na <= 8:
        raise Refusal(7)


def read_record(part, names):
    """One record from its part of the file; names are those used before it."""
    if len(part) == 0:
        raise Refusal(4)
    size = part[0]
    if not 1 <= size <= NAME_BYTES or len(part) < size + 8:
        raise Refusal(4)
    name = part[1:1 + size]
    if not all(good_name_byte(byte) for byte in name):
        raise Refusal(4)
    form, rounding, overflow = (chr(byte) for byte in part[size + 1:size + 4])
    k, l, nb, na = part[size + 4:size + 8]
    check_letters(form, rounding, overflow)
    check_format(k, l)
    check_counts(nb, na)
    if len(part) != size + 8 + 4 * (nb + na):
        raise Refusal(8)
    coefficients = [int.from_bytes(part[at:at + 4], 'big', signed=True)
                    for at in range(size + 8, len(part), 4)]
    check_words(k + l, coefficients)
    if name in names:
        raise Refusal(10)
    return Record(name, form, rounding, overflow, k, l, coefficients[:nb], coefficients[nb:])


def read_file(data):
    """The records in order, with their pairs."""
    pairs = read_pairs(data)
    records = []
    for number, (offset, length) in enumerate(pairs, 1):
        try:
            record = read_record(data[offset:offset + length], [r.name for r in records])
        except Refusal as refusal:
            raise Refusal(refusal.number, number)
        records.append(record)
    return records, pairs


def look_up(data, name):
    """The record's number, its offset and its part of the file."""
    records, pairs = read_file(data)
    for number, record in enumerate(records, 1):
        if record.name == name:
            offset, length = pairs[number - 1]
            return number, offset, data[offset:offset + length]
    raise Refusal(11)


def check_record(record, names):
    """What a write refuses of one record."""
    if not 1 <= len(record.name) <= NAME_BYTES:
        raise Refusal(4)
    if not all(good_name_byte(byte) for byte in record.name):
        raise Refusal(4)
    check_letters(record.form, record.rounding, record.overflow)
    check_format(record.k, record.l)
    check_counts(len(record.b), len(record.a))
    check_words(record.k + record.l, record.b + record.a)
    if record.name in names:
        raise Refusal(10)


def record_bytes(record):
    letters = (record.form + record.rounding + record.overflow).encode('ascii')
    counts = bytes([record.k, record.l, len(record.b), len(record.a)])
    words = b''.join(c.to_bytes(4, 'big', signed=True) for c in record.b + record.a)
    return bytes([len(record.name)]) + record.name + letters + counts + words


def file_of_parts(parts):
    """A file of the parts, with its count and its pairs."""
    offset = 2 + 6 * len(parts)
    head = len(parts).to_bytes(2, 'big')
    for part in parts:
        head += offset.to_bytes(4, 'big') + len(part).to_bytes(2, 'big')
        offset += len(part)
    return head + b''.join(parts)


def write_file(records, destination):
    """Fill the destination, a bytearray, from its start; how many bytes it took."""
    if len(records) > RECORDS:
        raise Refusal(2)
    names = []
    for number, record in enumerate(records, 1):
        try:
            check_record(record, names)
        except Refusal as refusal:
            raise Refusal(refusal.number, number)
        names.append(record.name)
    data = file_of_parts([record_bytes(record) for record in records])
    if len(data) > len(destination):
        raise Refusal(23)
    destination[:len(data)] = data
    return len(data)


# ---------------------------------------------------------------- the schedule

def schedule(data, limit=None):
    """The lines of the schedule, each record's sheet worked at half the range."""
    try:
        records, _ = read_file(data)
    except Refusal as refusal:
        return ['refused\t%d' % refusal.number]
    lines = ['materials\t%d' % len(records)]
    for record in records:
        setting = Setting(record.k, record.l, record.rounding, record.overflow)
        wiring = build_form(record.form, len(record.b), len(record.a))
        name = record.name.decode('ascii')
        x = 2 ** (setting.w - 2)
        try:
            sheet = work_sheet(setting, x, wiring, record.b + record.a, limit)
        except Refusal as refusal:
            lines.append('%s\tnone\t%d\t%d' % (name, refusal.number, refusal.place))
        else:
            lines.append('%s\tfits\t%d\t%d\t%d\t%d'
                         % (name, sheet.peak, sheet.ceiling, sheet.n, sheet.band))
    return lines


# ---------------------------------------------------------------- reading cases

class Unread(Exception):
    """The line is not a case."""


def need(condition):
    if not condition:
        raise Unread()


def number(text, low, high):
    need(re.fullmatch('-?[0-9]+', text))
    value = int(text)
    need(low <= value <= high)
    return value


def signed_32(text):
    return number(text, -2 ** 31, 2 ** 31 - 1)


def signed_64(text):
    return number(text, -2 ** 63, 2 ** 63 - 1)


def count_64(text):
    return number(text, 0, 2 ** 64 - 1)


def byte_number(text):
    return number(text, 0, 255)


def row_length(text):
    return number(text, 0, 1000)


def parse_list(text, item):
    if text == '-':
        return []
    return [item(part) for part in text.split(',')]


def parse_words(text):
    return parse_list(text, signed_32)


def parse_bytes(text):
    if text == '-':
        return b''
    need(re.fullmatch('([0-9a-f]{2})+', text))
    return bytes.fromhex(text)


def parse_choice(text, choices):
    need(text in choices)
    return text


def parse_rounding(text):
    return parse_choice(text, ('F', 'N', 'Z'))


def parse_overflow(text):
    return parse_choice(text, ('W', 'S', 'X'))


def parse_kind(text):
    return parse_choice(text, ('word', 'enclosed', 'bound'))


def parse_setting(fields):
    k, l, rounding, overflow = fields
    return Setting(byte_number(k), byte_number(l),
                   parse_rounding(rounding), parse_overflow(overflow))


def parse_node(text):
    if text in ('i', 'z'):
        return (text,)
    letter, rest = text[:1], text[1:]
    if letter == 'r':
        return ('r', count_64(rest))
    need(letter in ('s', 'a', 'd'))
    parts = rest.split('.')
    need(len(parts) == 2)
    return (letter, count_64(parts[0]), count_64(parts[1]))


def parse_wiring(text):
    parts = text.split('/')
    need(len(parts) == 4)
    return Wiring(count_64(parts[0]), count_64(parts[1]),
                  parse_list(parts[2], count_64), parse_list(parts[3], parse_node))


def parse_watch(text):
    if text == '-':
        return None
    parts = text.split(',')
    need(len(parts) == 2)
    return number(parts[0], 0, 2 ** 32 - 1), count_64(parts[1])


def parse_call(text):
    parts = text.split(':')
    if parts[0] == 'f':
        need(len(parts) == 4)
        return ('f', row_length(parts[1]), row_length(parts[2]), signed_32(parts[3]))
    if parts[0] == 's':
        need(len(parts) == 2)
        return ('s', parse_words(parts[1]))
    need(parts[0] == 'h' and len(parts) == 2)
    return ('h', row_length(parts[1]))


def parse_character(text):
    value = number(text, 0, 0x10FFFF)
    need(not 0xD800 <= value <= 0xDFFF)
    return chr(value)


def parse_record(text):
    parts = text.split(':')
    need(len(parts) == 8)
    return Record(parse_bytes(parts[0]), parse_character(parts[1]), parse_character(parts[2]),
                  parse_character(parts[3]), byte_number(parts[4]), byte_number(parts[5]),
                  parse_words(parts[6]), parse_words(parts[7]))


# ---------------------------------------------------------------- printing answers

def show_list(values, show=str):
    return ','.join(show(value) for value in values) if values else '-'


def show_bytes(data):
    return bytes(data).hex() if data else '-'


def show_place(place):
    return '-' if place is None else str(place)


def show_node(node):
    return node[0] + '.'.join(str(part) for part in node[1:])


def show_wiring(wiring):
    return '%d/%d/%s/%s' % (wiring.coefficients, wiring.output, show_list(wiring.sources),
                            show_list(wiring.nodes, show_node))


# ---------------------------------------------------------------- the cases

def case_round(fields):
    need(len(fields) == 3)
    rule, l, p = parse_rounding(fields[0]), number(fields[1], 1, 23), signed_64(fields[2])
    return ['%d %d' % divide(rule, l, p)]


def case_reach(fields):
    need(len(fields) == 3)
    rule, l, m = parse_rounding(fields[0]), number(fields[1], 1, 23), number(fields[2], 0, 2 ** 62)
    return ['%d %d' % (share(rule), reach(rule, l, m))]


def case_store(fields):
    need(len(fields) == 3)
    rule, w, raw = parse_overflow(fields[0]), number(fields[1], 8, 24), signed_64(fields[2])
    word = store(rule, w, raw)
    return ['stopped' if word is None else str(word)]


def case_form(fields):
    need(len(fields) == 3)
    form = parse_choice(fields[0], ('1', '2', 'T'))
    b, a = parse_words(fields[1]), parse_words(fields[2])
    try:
        wiring = build_form(form, len(b), len(a))
    except Refusal as refusal:
        return ['refused %d' % refusal.number]
    return ['%s %s' % (show_wiring(wiring), show_list(b + a))]


def case_sheet(fields, limit=None):
    need(len(fields) == 8)
    setting = parse_setting(fields[0:4])
    x = signed_32(fields[4])
    lengths = parse_list(fields[5], row_length)
    need(len(lengths) == 3)
    wiring = parse_wiring(fields[6])
    coefficients = parse_words(fields[7])
    rows = [[7] * length for length in lengths]
    places = len(wiring.sources)
    try:
        check_sheet(setting, x, lengths, wiring, coefficients)
        try:
            sheet = work_sheet(setting, x, wiring, coefficients, limit)
        except Refusal:
            for row in rows:
                row[:places] = [0] * places
            raise
        rows[0][:places] = [entry[0] for entry in sheet.box]
        rows[1][:places] = [entry[1] for entry in sheet.box]
        rows[2][:places] = sheet.last
        answer = 'fits %d %d %d %d' % (sheet.peak, sheet.ceiling, sheet.n, sheet.band)
    except Refusal as refusal:
        answer = 'refused %d %s' % (refusal.number, show_place(refusal.place))
    return [' '.join([answer] + [show_list(row) for row in rows])]


def case_run(fields):
    need(len(fields) >= 9)
    setting = parse_setting(fields[0:4])
    kind_name = parse_kind(fields[4])
    row = [None] * row_length(fields[5])
    watch = parse_watch(fields[6])
    wiring = parse_wiring(fields[7])
    coefficients = parse_words(fields[8])
    calls = [parse_call(field) for field in fields[9:]]
    try:
        channel = Channel(setting, kind_name, wiring, coefficients, row, watch)
    except Refusal as refusal:
        return ['refused %d' % refusal.number]
    lines = ['opened ' + run_tail(channel, row)]
    for call in calls:
        try:
            answer = run_call(channel, row, call)
        except Refusal as refusal:
            answer = 'refused %d %s' % (refusal.number, show_place(refusal.place))
        lines.append(answer + ' ' + run_tail(channel, row))
    return lines


def run_call(channel, row, call):
    if call[0] == 'f':
        working = [None] * call[2]
        output = channel.feed(row, min(call[1], len(row)), working, call[3])
        nodes = working[:len(channel.wiring.nodes)]
        return 'fed %s %s' % (channel.kind.show(output), show_list(nodes, channel.kind.show))
    if call[0] == 's':
        channel.swap(call[1])
        return 'swapped'
    channel.hush(row, min(call[1], len(row)))
    return 'hushed'


def run_tail(channel, row):
    return channel.show_registers(row) + ' ' + channel.show_watch()


def case_rows(fields):
    need(len(fields) == 11)
    setting = parse_setting(fields[0:4])
    kind_name = parse_kind(fields[4])
    kind = KINDS[kind_name](setting)
    fill = kind.plain(number(fields[7], -100, 100))
    row = [fill] * row_length(fields[5])
    working = [fill] * row_length(fields[6])
    wiring = parse_wiring(fields[8])
    coefficients = parse_words(fields[9])
    samples = parse_words(fields[10])
    try:
        channel = Channel(setting, kind_name, wiring, coefficients, row, None)
    except Refusal as refusal:
        # Under a format that is refused the row has no values to show.
        shown = '-' if refusal.number == 6 else show_list(row, kind.show)
        return ['refused %d %s' % (refusal.number, shown)]
    lines = ['opened ' + show_list(row, kind.show)]
    for u in samples:
        try:
            answer = 'fed ' + kind.show(channel.feed(row, len(row), working, u))
        except Refusal as refusal:
            answer = 'refused %d %s' % (refusal.number, show_place(refusal.place))
        lines.append(' '.join([answer, show_list(row, kind.show), show_list(working, kind.show)]))
    return lines


def case_read(fields):
    need(len(fields) == 1)
    data = parse_bytes(fields[0])
    try:
        records, _ = read_file(data)
    except Refusal as refusal:
        return ['refused %d %s' % (refusal.number, show_place(refusal.place))]
    lines = ['records %d' % len(records)]
    for record in records:
        lines.append(' '.join([show_bytes(record.name), record.form, record.rounding,
                               record.overflow, str(record.k), str(record.l),
                               show_list(record.b), show_list(record.a)]))
    return lines


def case_look(fields):
    need(len(fields) == 2)
    data, name = parse_bytes(fields[0]), parse_bytes(fields[1])
    try:
        found, offset, part = look_up(data, name)
    except Refusal as refusal:
        return ['refused %d %s' % (refusal.number, show_place(refusal.place))]
    return ['found %d %d %s' % (found, offset, show_bytes(part))]


def case_write(fields):
    need(len(fields) >= 1)
    destination = bytearray([LEFT]) * number(fields[0], 0, 100000)
    records = [parse_record(field) for field in fields[1:]]
    try:
        answer = 'wrote %d' % write_file(records, destination)
    except Refusal as refusal:
        answer = 'refused %d %s' % (refusal.number, show_place(refusal.place))
    return [answer + ' ' + show_bytes(destination)]


def case_schedule(fields, limit=None):
    need(len(fields) == 1)
    return schedule(parse_bytes(fields[0]), limit)


CASES = {'round': case_round, 'reach': case_reach, 'store': case_store, 'form': case_form,
         'sheet': case_sheet, 'run': case_run, 'rows': case_rows, 'read': case_read,
         'look': case_look, 'write': case_write, 'schedule': case_schedule}


def answer_line(line):
    """The answer's lines for one line of cases."""
    fields = line.split(' ')
    try:
        need(fields[0] in CASES)
        return CASES[fields[0]](fields[1:])
    except Unread:
        return ['unread']


def main():
    for line in sys.stdin:
        if line.endswith('\n'):
            line = line[:-1]
        print('\n'.join(answer_line(line)))


if __name__ == '__main__':
    main()
