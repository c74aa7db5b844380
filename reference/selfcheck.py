#!/usr/bin/env python3
"""Checks the reference against itself: python3 selfcheck.py [SEED [COUNT]]

First the figures that were worked by hand. Then, for random wirings and lists of
calls, that enclosed values enclose the exact run and bounds bound both runs; that
a sheet's box is closed and none of its entries can be one less; and that a channel
whose watch is neither spoilt nor lapsed keeps what the sheet says.
"""

import sys
from fractions import Fraction

import cases
import reference as ref

PANEL = '2/4/4/i,r0,s0.0,s1.1,d2.3'


# ---------------------------------------------------------------- worked figures

def answers(line):
    return ref.answer_line(line)


def expect(line, *lines):
    got = answers(line)
    assert got == list(lines), (line, got, lines)


def figures():
    expect('round F 4 35', '2 3')
    expect('round F 4 -35', '-3 13')
    expect('round Z 4 -35', '-2 -3')
    expect('round N 4 -35', '-2 -3')
    expect('round N 4 8', '1 -8')
    expect('round N 4 -8', '0 -8')
    twice = 'run 4 4 F %s enclosed 0 - 0/1/-/i,a0.0 - f:0:2:100'
    assert answers(twice % 'S')[1] == 'fed 127:299008:299008 100:0:0,127:299008:299008 - none'
    assert answers(twice % 'W')[1] == 'fed -56:1048576:1048576 100:0:0,-56:1048576:1048576 - none'
    assert answers(twice % 'X')[1] == 'refused 18 1 - none'
    silence = ' f:1:5:0' * 6
    run = answers('run 4 4 Z W enclosed 1 - %s 8,-8 f:1:5:64' % PANEL + silence)[1:]
    outputs = [line.split(' ')[1] for line in run]
    assert outputs == ['32:0:0', '16:0:0', '8:0:0', '4:0:0', '2:0:0', '1:0:0', '0:2048:2048'], outputs
    expect('sheet 4 4 Z W 64 1,1,1 %s 8,-8' % PANEL, 'fits 63 16384 6 0 63 16384 0')
    fits = answers('sheet 4 4 F W 64 1,1,1 %s 8,-8' % PANEL)[0].split(' ')
    assert fits[0] == 'fits' and fits[1] == '64' and fits[4] == '1', fits
    kept = answers('run 4 4 F W word 1 - %s 8,-8 f:1:5:2' % PANEL + ' f:1:5:0' * 20)[1:]
    assert all(line.split(' ')[1] == '1' for line in kept)
    expect('sheet 4 4 Z W 1 1,1,1 %s 16,-16' % PANEL, 'refused 21 4 0 0 0')
    word = answers('run 4 4 Z W word 0 - 0/0/-/i - f:0:1:127 f:0:1:-128 f:0:1:128')
    assert [line.split(' ')[:2] for line in word[1:]] == [['fed', '127'], ['fed', '-128'], ['refused', '16']]
    expect('sheet 4 4 Z W 127 0,0,0 0/0/-/i -', 'fits 127 0 0 0 - - -')
    expect('sheet 4 4 Z W 128 0,0,0 0/0/-/i -', 'refused 20 - - - -')
    for k, l, good in ((4, 4, True), (12, 12, True), (3, 4, False), (12, 13, False)):
        expect('run %d %d Z W word 0 - 0/0/-/i -' % (k, l), 'opened - none' if good else 'refused 6')
    expect('read 0000', 'records 0')
    expect('read 000000', 'refused 3 -')
    assert answers('run 4 4 F W word 0 - 2/3/-/i,s0.0,s0.1,a1.2 8,8 f:0:4:1')[1].split(' ')[1] == '0'
    records = [ref.Record(b'oak panel', '1', 'Z', 'W', 4, 4, [8], [-8]),
               ref.Record(b'echo wall', '1', 'Z', 'W', 4, 4, [16], [-16])]
    destination = bytearray(64)
    assert ref.write_file(records, destination) == 64
    assert ref.read_pairs(bytes(destination)) == [(14, 25), (39, 25)]
    assert ref.schedule(bytes(destination)) == ['materials\t2', 'oak panel\tfits\t63\t16384\t6\t0',
                                                'echo wall\tnone\t21\t4']
    delayed = answers('run 4 4 F W word 2 - %s 16,0,-16 f:2:9:3 f:2:9:0 f:2:9:0'
                      % ref.show_wiring(ref.build_form('1', 1, 2)))[1:]
    assert [line.split(' ')[1] for line in delayed] == ['3', '0', '3']


# ---------------------------------------------------------------- the laws of the rules

def rule_laws(maker):
    for _ in range(2000):
        l = maker.upto(1, 23)
        p = maker.bits(50) * maker.pick(1, -1)
        m = abs(p) + maker.bits(20)
        w = maker.upto(8, 24)
        for rule in 'FNZ':
            q, r = ref.divide(rule, l, p)
            assert p == 2 ** l * q + r
            assert 4096 * abs(r) <= ref.share(rule) * 2 ** l and ref.share(rule) <= 4096
            assert abs(q) <= ref.reach(rule, l, m)
            assert ref.reach(rule, l, m) <= ref.reach(rule, l, m + 1)
            assert ref.reach(rule, l, 0) == 0
        for rule in 'WSX':
            word = ref.store(rule, w, p)
            inside = ref.in_word(w, p)
            if inside:
                assert word == p
            elif rule == 'X':
                assert word is None
            else:
                assert ref.in_word(w, word)
                assert rule != 'W' or (p - word) % 2 ** w == 0
                assert rule != 'S' or word == (2 ** (w - 1) - 1 if p > 0 else -2 ** (w - 1))


# ---------------------------------------------------------------- the two runs

def fixed_run(setting, wiring, words, registers, u):
    """Every node of the fixed run, or None where an overflow rule stops it."""
    values = []
    for node in wiring.nodes:
        letter = node[0]
        if letter == 'i':
            values.append(u)
            continue
        if letter == 'z':
            values.append(0)
            continue
        if letter == 'r':
            values.append(registers[node[1]])
            continue
        if letter == 's':
            raw = ref.divide(setting.rounding, setting.l, words[node[2]] * values[node[1]])[0]
        elif letter == 'a':
            raw = values[node[1]] + values[node[2]]
        else:
            raw = values[node[1]] - values[node[2]]
        word = ref.store(setting.overflow, setting.w, raw)
        if word is None:
            return None
        values.append(word)
    return values


def exact_run(setting, wiring, words, registers, u):
    """Every node of the exact run, in steps."""
    values = []
    for node in wiring.nodes:
        letter = node[0]
        if letter == 'i':
            value = Fraction(u)
        elif letter == 'z':
            value = Fraction(0)
        elif letter == 'r':
            value = registers[node[1]]
        elif letter == 's':
            value = Fraction(words[node[2]], 2 ** setting.l) * values[node[1]]
        elif letter == 'a':
            value = values[node[1]] + values[node[2]]
        else:
            value = values[node[1]] - values[node[2]]
        values.append(value)
    return values


def covers(kind_name, value, fixed, exact):
    """Whether a value's meaning has the pair of a word and an exact number in it."""
    if kind_name == 'word':
        return value == fixed
    if kind_name == 'enclosed':
        v, d, e = value
        return v == fixed and v + Fraction(d, 4096) <= exact <= v + Fraction(e, 4096)
    peak, ceiling = value
    return abs(fixed) <= peak and abs(fixed - exact) * 4096 <= ceiling


class Book:
    """Keeps both runs beside a channel, by the accepted calls alone."""

    def __init__(self, setting, wiring, words):
        self.setting, self.wiring, self.words = setting, wiring, words
        self.hush()

    def hush(self):
        self.fixed = [0] * len(self.wiring.sources)
        self.exact = [Fraction(0)] * len(self.wiring.sources)

    def swap(self, words):
        self.words = words

    def feed(self, u):
        fixed = fixed_run(self.setting, self.wiring, self.words, self.fixed, u)
        assert fixed is not None, 'the fixed run stopped at an accepted feed'
        exact = exact_run(self.setting, self.wiring, self.words, self.exact, u)
        self.fixed = [fixed[source] for source in self.wiring.sources]
        self.exact = [exact[source] for source in self.wiring.sources]
        return fixed, exact


TALLY = {'feeds': 0, 'refused': 0, 'sheets': 0, 'other boxes': 0, 'kept': 0, 'band': 0}


def one_run(maker):
    """One random list of calls, over every kind, beside the book."""
    setting, wiring, words = maker.outfit(55, 0, 0, 0)
    try:
        ref.check_format(setting.k, setting.l)
        ref.check_wiring(wiring)
        ref.check_coefficients(setting, wiring, words)
    except ref.Refusal:
        return
    x, sheet, watch = maker.range(setting.w), None, None
    try:
        sheet = ref.work_sheet(setting, x, wiring, words, cases.ROUNDS)
    except (ref.Refusal, ref.TooLong):
        pass
    if sheet is not None:
        watch = (x, sheet.n)
        check_sheet(setting, wiring, words, x, sheet)
        check_least(maker, setting, wiring, words, x, sheet)
    calls = [ref.parse_call(call) for call in maker.calls(setting, wiring, words, watch)][:60]
    for kind_name in ('word', 'enclosed', 'bound'):
        follow(setting, wiring, words, kind_name, watch, sheet, calls)


def follow(setting, wiring, words, kind_name, watch, sheet, calls):
    row = [None] * len(wiring.sources)
    channel = ref.Channel(setting, kind_name, wiring, words, row, watch)
    book = Book(setting, wiring, words)
    for call in calls:
        state = channel.show_watch()
        before = (list(row), list(channel.coefficients), state)
        try:
            if call[0] == 'f':
                working = ['untouched'] * call[2]
                output = channel.feed(row, min(call[1], len(row)), working, call[3])
            elif call[0] == 's':
                channel.swap(call[1])
            else:
                channel.hush(row, min(call[1], len(row)))
        except ref.Refusal as refusal:
            TALLY['refused'] += 1
            assert before == (row, channel.coefficients, channel.show_watch())
            if refusal.place is not None:
                assert working[:len(wiring.nodes)] == [channel.kind.nought()] * len(wiring.nodes)
                at_node(setting, wiring, kind_name, watch, sheet, state, refusal, call[3], book)
            elif call[0] == 'f':
                assert working == ['untouched'] * call[2]
            continue
        if call[0] == 's':
            book.swap(call[1])
        elif call[0] == 'h':
            book.hush()
        else:
            TALLY['feeds'] += 1
            fixed, exact = book.feed(call[3])
            for number, value in enumerate(working[:len(wiring.nodes)]):
                assert covers(kind_name, value, fixed[number], exact[number])
            assert output == working[wiring.output]
            if sheet is not None:
                keep(wiring, watch, sheet, state, channel.show_watch(), call[3],
                     fixed[wiring.output], exact[wiring.output], book)
        for value, word, number in zip(row, book.fixed, book.exact):
            assert covers(kind_name, value, word, number)


def at_node(setting, wiring, kind_name, watch, sheet, state, refusal, u, book):
    """What a refusal at a node says of the sample."""
    # A sheet that fits promises that no sample in its range is refused at a node.
    if sheet is not None and kind_name != 'bound' and state not in ('spoilt', 'lapsed'):
        assert abs(u) > watch[0]
    if refusal.number == 18:
        assert fixed_run(setting, wiring, book.words, book.fixed, u) is None


def keep(wiring, watch, sheet, before, after, u, fixed, exact, book):
    """What the sheet says, while the watch is neither spoilt nor lapsed."""
    if after in ('spoilt', 'lapsed'):
        return
    TALLY['kept'] += 1
    assert abs(fixed) <= sheet.peak
    assert abs(fixed - exact) * 4096 <= sheet.ceiling
    for (peak, ceiling), word, number in zip(sheet.box, book.fixed, book.exact):
        assert abs(word) <= peak and abs(word - number) * 4096 <= ceiling
    if before == 'settled' and u == 0:
        TALLY['band'] += 1
        assert abs(fixed) <= sheet.band
    if after == 'settled':
        assert all(abs(word) <= last for word, last in zip(book.fixed, sheet.last))


# ---------------------------------------------------------------- sheets

def closed(setting, wiring, words, x, box):
    try:
        values = ref.work_nodes(ref.BoundKind(setting), wiring, words, box, x)
    except ref.Refusal:
        return False
    return all(values[source][0] <= entry[0] and values[source][1] <= entry[1]
               for source, entry in zip(wiring.sources, box))


def check_sheet(setting, wiring, words, x, sheet):
    """The box is closed; lowering one entry opens it; N lowering rounds lead to the last box."""
    TALLY['sheets'] += 1
    assert closed(setting, wiring, words, x, sheet.box)
    for at, (peak, ceiling) in enumerate(sheet.box):
        for lower in ((peak - 1, ceiling), (peak, ceiling - 1)):
            if min(lower) >= 0:
                assert not closed(setting, wiring, words, x, sheet.box[:at] + [lower] + sheet.box[at + 1:])
    values = ref.work_nodes(ref.BoundKind(setting), wiring, words, sheet.box, x)
    assert values[wiring.output] == (sheet.peak, sheet.ceiling)
    peaks = [entry[0] for entry in sheet.box]
    kind = ref.PeakKind(setting)
    for _ in range(sheet.n):
        values = ref.work_nodes(kind, wiring, words, peaks, 0)
        after = [values[source] for source in wiring.sources]
        assert after != peaks and all(new <= old for new, old in zip(after, peaks))
        peaks = after
    values = ref.work_nodes(kind, wiring, words, peaks, 0)
    assert [values[source] for source in wiring.sources] == peaks == sheet.last
    assert values[wiring.output] == sheet.band


def check_least(maker, setting, wiring, words, x, sheet):
    """Other closed boxes, where a random one happens to be closed, are nowhere less."""
    for _ in range(10):
        box = [(max(0, peak + maker.upto(-2, 4)), max(0, ceiling + maker.upto(-5000, 20000)))
               for peak, ceiling in sheet.box]
        if closed(setting, wiring, words, x, box):
            TALLY['other boxes'] += 1
            assert all(mine[0] <= other[0] and mine[1] <= other[1] for mine, other in zip(sheet.box, box))


def long_climb():
    """b0 = 16, a1 = -16 under Z from silence: each round adds 8192 to the ceiling, until at
    2^38 the next is refused at node 3. Too many rounds to work here, so the step is tried
    at several heights and at the top."""
    setting = ref.Setting(4, 4, 'Z', 'W')
    wiring = ref.parse_wiring(PANEL)
    kind = ref.BoundKind(setting)
    for ceiling in (0, 8192, 8192 * 12345, 2 ** 37, 2 ** 38 - 16384, 2 ** 38 - 8192):
        values = ref.work_nodes(kind, wiring, [16, -16], [(0, ceiling)], 0)
        assert values[4] == (0, ceiling + 8192)
    try:
        ref.work_nodes(kind, wiring, [16, -16], [(0, 2 ** 38)], 0)
    except ref.Refusal as refusal:
        assert (refusal.number, refusal.place) == (22, 3)
    else:
        raise AssertionError('taken beyond 2^38')


# ---------------------------------------------------------------- forms

def one_form(maker):
    """Each form's exact run is the difference equation."""
    nb, na = maker.upto(1, 9), maker.upto(0, 8)
    setting = ref.Setting(4, 4, 'F', 'W')
    b = [maker.upto(-128, 127) for _ in range(nb)]
    a = [maker.upto(-128, 127) for _ in range(na)]
    samples = [maker.upto(-128, 127) for _ in range(14)]
    expected = []
    for n in range(len(samples)):
        y = Fraction(0)
        for i in range(nb):
            if n - i >= 0:
                y += Fraction(b[i], 16) * samples[n - i]
        for i in range(1, na + 1):
            if n - i >= 0:
                y -= Fraction(a[i - 1], 16) * expected[n - i]
        expected.append(y)
    for form in '12T':
        wiring = ref.build_form(form, nb, na)
        ref.check_wiring(wiring)
        registers = [Fraction(0)] * len(wiring.sources)
        for u, y in zip(samples, expected):
            values = exact_run(setting, wiring, b + a, registers, u)
            registers = [values[source] for source in wiring.sources]
            assert values[wiring.output] == y


# ---------------------------------------------------------------- files

def one_file(maker):
    """What is written reads back the same, and look-up hands out each part."""
    records = maker.records()
    destination = bytearray([170]) * 1000
    size = ref.write_file(records, destination)
    assert destination[size:] == bytearray([170]) * (1000 - size)
    data = bytes(destination[:size])
    back, pairs = ref.read_file(data)
    assert [vars(record) for record in back] == [vars(record) for record in records]
    for number, (record, (offset, length)) in enumerate(zip(records, pairs), 1):
        assert ref.look_up(data, record.name) == (number, offset, data[offset:offset + length])
    short = bytearray(size - 1)
    try:
        ref.write_file(records, short)
    except ref.Refusal as refusal:
        assert refusal.number == 23 and short == bytearray(size - 1)
    else:
        raise AssertionError('written past the end')


def main():
    seed = sys.argv[1] if len(sys.argv) > 1 else '1'
    count = int(sys.argv[2]) if len(sys.argv) > 2 else 1000
    maker = cases.Maker('self ' + seed)
    figures()
    long_climb()
    rule_laws(maker)
    for _ in range(count):
        one_run(maker)
    for _ in range(count // 5):
        one_form(maker)
        one_file(maker)
    print('all well: ' + ', '.join('%d %s' % (TALLY[key], key) for key in TALLY))


if __name__ == '__main__':
    main()
