#!/usr/bin/env python3
"""Random cases, most of them hostile: python3 cases.py SEED COUNT

The same seed gives the same cases. Sheets that would take more than ROUNDS rounds
are dropped, and so are lines longer than LINE bytes.
"""

import random
import sys

import reference as ref

ROUNDS = 4000
LINE = 3900

WEIGHTS = [('run', 35), ('rows', 15), ('sheet', 15), ('read', 10), ('look', 5),
           ('write', 7), ('schedule', 5), ('form', 3), ('number', 5)]


class Maker:
    def __init__(self, seed):
        self.rng = random.Random('cases ' + str(seed))

    # ------------------------------------------------------------ small choices

    def chance(self, percent):
        return self.rng.random() * 100 < percent

    def pick(self, *choices):
        return self.rng.choice(choices)

    def upto(self, low, high):
        return self.rng.randint(low, high)

    def weighted(self, pairs):
        return self.rng.choices([p[0] for p in pairs], [p[1] for p in pairs])[0]

    def bits(self, most):
        """A number from 0 whose length in bits is evenly spread."""
        return self.rng.getrandbits(self.upto(0, most)) if most > 0 else 0

    # ------------------------------------------------------------ settings

    def format(self, bad=4):
        rng = self.rng
        if self.chance(bad):
            return self.pick((0, 8), (8, 0), (0, 0), (3, 4), (6, 1), (1, 6), (12, 13), (24, 1),
                             (1, 24), (0, 24), (24, 0), (255, 9), (9, 255), (255, 255), (128, 136),
                             (255, 1), (1, 255), (0, 9), (16, 9), (2, 5))
        if self.chance(35):
            return 4, 4
        w = self.pick(8, 8, 8, 9, 24, 24, 16, rng.randint(8, 24), rng.randint(8, 24))
        k = self.pick(1, w - 1, w // 2, rng.randint(1, w - 1), rng.randint(1, w - 1), min(4, w - 1))
        return k, w - k

    def rounding(self):
        return self.pick('F', 'N', 'Z')

    def overflow(self):
        return self.pick('W', 'S', 'X')

    def setting(self, bad=4):
        k, l = self.format(bad)
        return ref.Setting(k, l, self.rounding(), self.overflow())

    # ------------------------------------------------------------ words

    def ends(self, w):
        """The ends of the word, whatever the width is."""
        w = min(max(w, 8), 24)
        return -2 ** (w - 1), 2 ** (w - 1) - 1

    def outside(self, w):
        low, high = self.ends(w)
        return self.pick(low - 1, high + 1, low - 1, high + 1, -2 ** 31, 2 ** 31 - 1, 2 * low,
                         2 * high + 2, high + 1 + self.bits(20), low - 1 - self.bits(20))

    def word(self, w):
        low, high = self.ends(w)
        way = self.upto(0, 9)
        if way == 0:
            return self.pick(low, high, low + 1, high - 1)
        if way == 1:
            return self.pick(0, 1, -1, 2, -2)
        if way <= 3:
            return self.rng.randint(low, high)
        size = self.bits(min(max(w, 8), 24) - 1)
        return -size if self.chance(50) else size

    def coefficient(self, setting):
        low, high = self.ends(setting.w)
        one = 2 ** min(setting.l, 23)
        way = self.upto(0, 9)
        if way <= 2:
            c = self.pick(0, 1, -1, one, -one, one // 2, -(one // 2), one - 1, 1 - one, one + 1,
                          2 * one, -2 * one)
        elif way <= 6:
            c = self.rng.randint(-one, one)
        else:
            c = self.word(setting.w)
        return min(max(c, low), high)

    def coefficients(self, setting, count, bad=3):
        words = [self.coefficient(setting) for _ in range(count)]
        if self.chance(bad):
            way = self.upto(0, 3)
            if way == 0:
                words.append(self.word(setting.w))
            elif way == 1 and words:
                words.pop()
            elif words:
                words[self.upto(0, len(words) - 1)] = self.outside(setting.w)
                if way == 3:
                    words.append(0)
        return words

    # ------------------------------------------------------------ wirings

    def counts(self):
        """nb and na of a form, mostly small."""
        if self.chance(10):
            return self.pick((9, 8), (9, 0), (1, 8), (1, 0), (2, 8), (9, 1))
        if self.chance(60):
            return self.upto(1, 3), self.upto(0, 2)
        return self.upto(1, 9), self.upto(0, 8)

    def form_wiring(self):
        nb, na = self.counts()
        return ref.build_form(self.pick('1', '2', 'T'), nb, na)

    def free_wiring(self, most=None):
        rng = self.rng
        size = most or self.pick(1, 2, 3, 64, rng.randint(1, 8), rng.randint(4, 16), rng.randint(8, 30))
        registers = self.pick(0, 1, 1, 2, 3, 16, rng.randint(0, 5), rng.randint(0, 16))
        coefficients = self.pick(0, 1, 2, 3, 17, rng.randint(0, 5), rng.randint(0, 17))
        nodes = []
        for number in range(size):
            choices = ['i', 'i', 'z']
            if registers:
                choices += ['r'] * 3
            if number:
                choices += ['a'] * 3 + ['d'] * 3
                if coefficients:
                    choices += ['s'] * 6
            letter = rng.choice(choices)
            if number == 0 and self.chance(70):
                letter = 'i'
            if letter in 'iz':
                nodes.append((letter,))
            elif letter == 'r':
                nodes.append(('r', rng.randrange(registers)))
            elif letter == 's':
                nodes.append(('s', self.earlier(number), rng.randrange(coefficients)))
            else:
                nodes.append((letter, self.earlier(number), self.earlier(number)))
        output = size - 1 if self.chance(60) else rng.randrange(size)
        sources = [self.earlier(size) for _ in range(registers)]
        return ref.Wiring(coefficients, output, sources, nodes)

    def earlier(self, number):
        """A node before the given number, often a near one."""
        if self.chance(50):
            return max(0, number - 1 - self.bits(2))
        return self.rng.randrange(number)

    def steep_wiring(self):
        """A chain of scales and doublings, in which ends and ceilings grow fast."""
        rng = self.rng
        nodes = [(self.pick('i', 'i', 'z'),), ('r', 0)]
        coefficients = rng.randint(1, 3)
        for number in range(2, rng.randint(3, 45)):
            way = self.upto(0, 4)
            if way == 0:
                nodes.append((self.pick('a', 'd'), number - 1, rng.randrange(number)))
            elif way <= 2:
                nodes.append(('a', number - 1, number - 1))
            else:
                nodes.append(('s', number - 1, rng.randrange(coefficients)))
        return ref.Wiring(coefficients, len(nodes) - 1, [len(nodes) - 1 - self.bits(1)], nodes)

    def bare_wiring(self):
        """No input node at all, or the barest wirings there are."""
        return self.pick(
            ref.Wiring(0, 0, [], [('z',)]),
            ref.Wiring(0, 0, [], [('i',)]),
            ref.Wiring(0, 0, [0], [('r', 0)]),
            ref.Wiring(1, 1, [1], [('r', 0), ('s', 0, 0)]),
            ref.Wiring(0, 0, [1, 0], [('r', 0), ('i',)]),
            ref.Wiring(0, 1, [1, 0], [('r', 0), ('r', 1)]),
            ref.Wiring(0, 2, [0, 1, 2], [('i',), ('r', 0), ('r', 1)]),
            ref.Wiring(17, 0, [], [('i',)]))

    def spoil(self, wiring):
        """Break the wiring in one place, or leave it at a limit."""
        rng = self.rng
        nodes, sources = list(wiring.nodes), list(wiring.sources)
        coefficients, output = wiring.coefficients, wiring.output
        size = len(nodes)
        at = rng.randrange(size) if size else 0
        past = self.pick(0, 0, 0, 1, 63, 192, 256, 1000)
        way = self.upto(0, 11)
        if way == 0 and size:
            nodes[at] = (self.pick('a', 'd'), at + past, self.upto(0, max(0, at - 1)))
        elif way == 1 and size:
            nodes[at] = (self.pick('a', 'd'), self.upto(0, max(0, at - 1)), at + past)
        elif way == 2 and size:
            nodes[at] = ('s', at + past, 0)
        elif way == 3 and size:
            nodes[at] = ('s', self.upto(0, max(0, at - 1)), coefficients + past)
        elif way == 4 and size:
            nodes[at] = ('r', len(sources) + past)
        elif way == 5:
            output = size + past
        elif way == 6:
            if not sources:
                sources = [0]
            sources[rng.randrange(len(sources))] = size + past
        elif way == 7:
            nodes = []
        elif way == 8:
            nodes = nodes + [('z',)] * (self.pick(64, 65, 65, 66) - size)
        elif way == 9:
            sources = (sources + [0] * 20)[:self.pick(16, 17, 17, 18)]
        elif way == 10:
            coefficients = self.pick(17, 18, 18, 19, 256, 257, 1000)
        else:
            nodes = nodes[:-1]
        return ref.Wiring(coefficients, output, sources, nodes)

    def wiring(self, bad=8):
        way = self.upto(0, 99)
        if way < 50:
            wiring = self.form_wiring()
        elif way < 82:
            wiring = self.free_wiring()
        elif way < 94:
            wiring = self.steep_wiring()
        else:
            wiring = self.bare_wiring()
        if self.chance(bad):
            wiring = self.spoil(wiring)
            if self.chance(40):
                wiring = self.spoil(wiring)
        return wiring

    def calm(self):
        """A setting, a form and coefficients that a sheet is likely to fit."""
        setting = self.setting(0)
        form = self.pick('1', '2', 'T')
        nb, na = self.pick((1, 1), (1, 1), (1, 1), (2, 1), (2, 1), (1, 2), (1, 2), (2, 2), (2, 2), (3, 2),
                           (3, 0), (1, 0), (4, 3), (1, 4), (9, 8))
        low, high = self.ends(setting.w)
        one = min(2 ** setting.l, high)
        room = one * self.pick(self.upto(10, 80), self.upto(40, 97), 50) // 100
        b = self.parts(nb, one * self.upto(5, 120) // 100)
        a = self.parts(na, room)
        words = [min(max(c, low), high) for c in b + a]
        return setting, ref.build_form(form, nb, na), words

    def parts(self, count, room):
        """Numbers whose magnitudes come to about the room, none beyond it in all."""
        words = []
        for left in range(count, 0, -1):
            size = room if left == 1 and self.chance(50) else self.upto(0, room)
            room -= size
            words.append(-size if self.chance(50) else size)
        self.rng.shuffle(words)
        return words

    def outfit(self, calm, bad_format, bad_wiring, bad_words):
        """A setting, a wiring and coefficients, from the calm to the wild."""
        if self.chance(calm):
            setting, wiring, words = self.calm()
            if self.chance(bad_format):
                setting = self.setting(100)
            return setting, wiring, words
        setting = self.setting(bad_format)
        wiring = self.wiring(bad_wiring)
        count = wiring.coefficients if wiring.coefficients <= 40 else self.upto(0, 19)
        return setting, wiring, self.coefficients(setting, count, bad_words)

    def row_length(self, needed, bad=5):
        if self.chance(bad):
            return max(0, needed - self.pick(1, 1, 2, needed))
        return needed + self.pick(0, 0, 0, 1, 2, 3)

    # ------------------------------------------------------------ sheets

    def range(self, w):
        _, high = self.ends(w)
        return self.pick(0, 0, 1, high, high, 2 ** (min(max(w, 8), 24) - 2), self.bits(22) % (high + 1),
                         self.rng.randint(0, high), self.rng.randint(0, high), high // 4)

    def sheet_case(self):
        setting, wiring, words = self.outfit(60, 4, 18, 8)
        x = self.range(setting.w)
        if self.chance(6):
            x = self.pick(-1, -1, 2 ** (max(1, setting.w) - 1) if setting.w < 32 else 0, -2 ** 31,
                          2 ** 31 - 1, self.outside(setting.w))
        needed = len(wiring.sources)
        if self.chance(92):
            lengths = [needed + self.pick(0, 0, 1, 2) for _ in range(3)]
        else:
            lengths = [self.row_length(needed, 50) for _ in range(3)]
        return ['sheet'] + self.setting_fields(setting) + [
            str(x), ref.show_list(lengths), ref.show_wiring(wiring), ref.show_list(words)]

    def setting_fields(self, setting):
        return [str(setting.k), str(setting.l), setting.rounding, setting.overflow]

    def true_watch(self, setting, wiring, words):
        """X and N of a granted sheet, or None where it is refused or too long."""
        x = self.range(setting.w)
        try:
            ref.check_sheet(setting, x, [], wiring, words)
            sheet = ref.work_sheet(setting, x, wiring, words, ROUNDS)
        except (ref.Refusal, ref.TooLong):
            return None
        return x, sheet.n

    # ------------------------------------------------------------ runs

    def watch(self, setting, wiring, words):
        if self.chance(12):
            return None
        if self.chance(70):
            for _ in range(3):
                found = self.true_watch(setting, wiring, words)
                if found is not None:
                    return found
        _, high = self.ends(setting.w)
        x = self.pick(0, 1, high, high + 1, 2 ** 32 - 1, 2 ** 31, self.bits(24), high // 2)
        n = self.pick(0, 0, 1, 1, 2, 3, 5, self.bits(5), 2 ** 64 - 1, 2 ** 63)
        return x, n

    def sample(self, setting, x):
        low, high = self.ends(setting.w)
        way = self.upto(0, 9)
        if way <= 3:
            inner = min(x, high)
            return self.rng.randint(-inner, inner)
        if way == 4:
            return min(max(self.pick(x, -x), low), high)
        if way == 5 and self.chance(60):
            return min(max(self.pick(x + 1, -x - 1), low), high)
        if way == 6 and self.chance(30):
            return self.outside(setting.w)
        if way == 7:
            return self.pick(0, 0, 1, -1)
        return self.word(setting.w) if self.chance(50) else min(max(self.pick(x, -x), low), high)

    def feed(self, setting, wiring, u):
        registers, nodes = len(wiring.sources), len(wiring.nodes)
        lent = registers + self.pick(0, 0, 0, 1, 5)
        length = nodes + self.pick(0, 0, 0, 1, 5)
        if self.chance(3):
            way = self.upto(0, 2)
            if way != 1:
                lent = max(0, registers - self.pick(1, 1, registers))
            if way != 0:
                length = max(0, nodes - self.pick(1, 1, nodes))
            if self.chance(20):
                u = self.outside(setting.w)
        return 'f:%d:%d:%d' % (lent, length, u)

    def calls(self, setting, wiring, words, watch):
        """Bursts of samples and stretches of silence, with other calls among them."""
        x, n = watch if watch is not None else (self.range(setting.w), 3)
        nodes = max(1, len(wiring.nodes))
        room = self.upto(1, max(6, 500 // nodes))
        calls = []
        swapping = self.chance(35)
        beyond = self.chance(40)
        while len(calls) < room:
            way = self.upto(0, 19)
            if way <= 8:
                for _ in range(self.upto(1, 4)):
                    u = self.sample(setting, x)
                    if abs(u) > x and not beyond and self.chance(90):
                        u = self.upto(0, min(x, 100))
                    calls.append(self.feed(setting, wiring, u))
            elif way <= 15:
                length = self.pick(1, 2, 3, n, n, max(0, n - 1), n + 1, n + 3)
                for _ in range(min(length, 60)):
                    calls.append(self.feed(setting, wiring, 0))
            elif way <= 17:
                needed = len(wiring.sources)
                calls.append('h:%d' % self.row_length(needed, 15))
            elif swapping or self.chance(15):
                bad = 100 if not swapping else 25
                calls.append('s:' + ref.show_list(
                    self.coefficients(setting, min(wiring.coefficients, 20), bad)))
        return calls[:max(room, 1) + 20]

    def run_case(self):
        setting, wiring, words = self.outfit(48, 3, 8, 4)
        watch = self.watch(setting, wiring, words)
        kind = self.pick('word', 'enclosed', 'enclosed', 'enclosed', 'bound')
        calls = self.calls(setting, wiring, words, watch) if self.chance(98) else []
        return ['run'] + self.setting_fields(setting) + [
            kind, str(self.row_length(len(wiring.sources), 4)),
            '-' if watch is None else '%d,%d' % watch,
            ref.show_wiring(wiring), ref.show_list(words)] + calls

    def rows_case(self):
        setting, wiring, words = self.outfit(40, 5, 14, 6)
        kind = self.pick('word', 'enclosed', 'bound')
        registers, nodes = len(wiring.sources), len(wiring.nodes)
        x = self.range(setting.w)
        count = self.upto(0, max(3, min(12, 200 // max(1, nodes))))
        samples = [self.sample(setting, x) for _ in range(count)]
        return ['rows'] + self.setting_fields(setting) + [
            kind, str(self.row_length(registers, 6)), str(self.row_length(nodes, 8)),
            str(self.pick(0, 7, -100, 100, 5, self.upto(-100, 100))),
            ref.show_wiring(wiring), ref.show_list(words), ref.show_list(samples)]

    # ------------------------------------------------------------ files

    def name(self):
        size = self.pick(1, 1, 2, 3, 5, 9, 40, self.upto(1, 40))
        return bytes(self.pick(32, 126, 65, self.upto(32, 126), self.upto(97, 122))
                     for _ in range(size))

    def record(self):
        if self.chance(50):
            setting = self.setting(0)
            nb, na = self.counts()
            words = [self.coefficient(setting) for _ in range(nb + na)]
            form = self.pick('1', '2', 'T')
        else:
            setting, wiring, words = self.calm()
            form = self.pick('1', '2', 'T')
            nb = self.upto(1, min(9, len(words)))
            if len(words) - nb > 8:
                nb = 9
            na = len(words) - nb
        return ref.Record(self.name(), form, setting.rounding, setting.overflow,
                          setting.k, setting.l, words[:nb], words[nb:])

    def records(self, most=5):
        records = []
        for _ in range(self.pick(0, 1, 1, 2, 2, 3, 3, 4, most)):
            record = self.record()
            if all(record.name != other.name for other in records):
                records.append(record)
        return records

    def damage_record(self, part):
        """One record's bytes, wrong in one place; its pair will still be right."""
        part = bytearray(part)
        size = part[0]
        way = self.upto(0, 14)
        if size == 0 or len(part) < size + 8:
            way = 14                                    # damaged before
        if way == 0:
            return b''
        if way == 1:
            part[0] = self.pick(0, 41, 255, 1, 40, len(part) - 8, len(part) - 7, size + 1) % 256
        elif way == 2:
            part[1 + self.upto(0, size - 1)] = self.pick(31, 127, 0, 255, 160, 32, 126)
        elif way == 3:
            part = part[:self.pick(size + 7, size + 8, size, 1, self.upto(0, len(part)))]
        elif way == 4:
            part[size + 1 + self.upto(0, 2)] = self.pick(0, 49, 50, 84, 70, 78, 90, 87, 83, 88, 116,
                                                         self.upto(0, 255))
        elif way <= 6:
            k, l = self.format(60)
            part[size + 4], part[size + 5] = k, l
        elif way <= 8:
            part[size + 7 - self.upto(0, 1)] = self.pick(0, 9, 10, 8, 255, 1, self.upto(0, 12))
        elif way == 9:
            part += bytes(self.upto(1, 5))
        elif way == 10:
            part = part[:-self.upto(1, 4)]
        elif way <= 13 and len(part) >= size + 12:
            at = size + 8 + 4 * self.upto(0, (len(part) - size - 12) // 4)
            w = part[size + 4] + part[size + 5]
            part[at:at + 4] = self.pick(self.outside(w), self.outside(w), self.word(w)).to_bytes(
                4, 'big', signed=True)
        else:
            part[self.upto(0, len(part) - 1)] ^= 1 << self.upto(0, 7)
        return bytes(part)

    def damage_file(self, data):
        """Flip, insert, delete, cut, or change the pairs."""
        data = bytearray(data)
        count = int.from_bytes(data[0:2], 'big')
        way = self.upto(0, 9)
        at = self.upto(0, max(0, len(data) - 1))
        if 2 + 6 * count > len(data):
            way = min(way, 4)                           # damaged before
        if way <= 1 and data:
            data[at] ^= 1 << self.upto(0, 7)
        elif way == 2:
            data[at:at] = bytes([self.upto(0, 255)] * self.upto(1, 3))
        elif way == 3:
            del data[at:at + self.upto(1, 3)]
        elif way == 4:
            data = data[:self.pick(at, max(0, len(data) - 1), 2, 1, 0, 2 + 6 * count, 1 + 6 * count)]
        elif way == 5:
            data += bytes(self.upto(1, 3))
        elif way == 6 and count >= 2:
            one, two = self.upto(0, count - 1), self.upto(0, count - 1)
            a, b = slice(2 + 6 * one, 8 + 6 * one), slice(2 + 6 * two, 8 + 6 * two)
            data[a], data[b] = data[b], data[a]
        elif way == 7 and count >= 1:
            pair = 2 + 6 * self.upto(0, count - 1)
            where = pair + self.upto(0, 5)
            data[where] = (data[where] + self.pick(1, 255, 128, 12)) % 256
        elif way == 8:
            data[0:2] = self.pick(count + 1, max(0, count - 1), 512, 513, 256 + count, 65535,
                                  0).to_bytes(2, 'big')
        elif count >= 2:
            self.move_border(data, 2 + 6 * self.upto(0, count - 2))
        return bytes(data)

    def move_border(self, data, at):
        """One record longer and the next shorter: the pairs still meet."""
        step = self.pick(1, 4, -1, -4)
        first = int.from_bytes(data[at + 4:at + 6], 'big') + step
        offset = int.from_bytes(data[at + 6:at + 10], 'big') + step
        second = int.from_bytes(data[at + 10:at + 12], 'big') - step
        if min(first, second, offset) >= 0:
            data[at + 4:at + 6] = first.to_bytes(2, 'big')
            data[at + 6:at + 10] = offset.to_bytes(4, 'big')
            data[at + 10:at + 12] = second.to_bytes(2, 'big')

    def file(self, damage=70):
        """A file's bytes, and the names it was made of."""
        records = self.records()
        if len(records) >= 2 and self.chance(15):
            one, two = self.rng.sample(range(len(records)), 2)
            records[two].name = records[one].name
        parts = [ref.record_bytes(record) for record in records]
        harm = self.chance(damage)
        if harm and parts and self.chance(60):
            for _ in range(self.pick(1, 1, 1, 2)):
                at = self.upto(0, len(parts) - 1)
                if parts[at]:
                    parts[at] = self.damage_record(parts[at])
            harm = self.chance(15)
        data = ref.file_of_parts(parts)
        if harm:
            for _ in range(self.pick(1, 1, 2)):
                data = self.damage_file(data)
        return data, [record.name for record in records]

    def read_case(self):
        data, _ = self.file(78)
        return ['read', ref.show_bytes(data)]

    def look_case(self):
        data, names = self.file(20)
        name = self.rng.choice(names) if names else self.name()
        way = self.upto(0, 9)
        if way == 0:
            name = self.name()
        elif way == 1:
            name = name[:-1]
        elif way == 2:
            name = name + self.pick(b' ', b'\0', b'a' * 40)
        elif way == 3:
            name = name.swapcase()
        elif way == 4 and self.chance(50):
            name = b''
        return ['look', ref.show_bytes(data), ref.show_bytes(name)]

    def write_case(self):
        records = self.records()
        if len(records) >= 2 and self.chance(12):
            one, two = self.rng.sample(range(len(records)), 2)
            records[two].name = records[one].name
        letters = [[ord(r.form), ord(r.rounding), ord(r.overflow)] for r in records]
        size = 2 + sum(6 + len(ref.record_bytes(record)) for record in records)
        if records and self.chance(50):
            for _ in range(self.pick(1, 1, 2)):
                at = self.upto(0, len(records) - 1)
                self.harm_record(records[at], letters[at])
        length = size + self.pick(0, 0, 0, 1, 7, -1, -1, -2, -size, -(size // 2))
        fields = ['write', str(min(length, 1000))]
        for record, three in zip(records, letters):
            fields.append(':'.join([ref.show_bytes(record.name)] + [str(x) for x in three] + [
                str(record.k), str(record.l), ref.show_list(record.b), ref.show_list(record.a)]))
        return fields

    def harm_record(self, record, three):
        way = self.upto(0, 7)
        if way == 0:
            record.name = self.pick(b'', b'a' * 41, b'a' * 40, b'a' * 256, b'a' * 257, b'\x1f', b'a\x7f',
                                    b'\xc3\xa9', b'ok\n', b'\0')
        elif way <= 2:
            three[self.upto(0, 2)] = self.pick(0, 49, 50, 84, 70, 78, 90, 87, 83, 88, 102, 305, 326,
                                               340, 0x1F631, 0x10FFFF, 255, 128, self.upto(0, 255))
        elif way == 3:
            record.k, record.l = self.format(90)
        elif way == 4:
            record.b = self.pick([], [1] * 10, [1] * 9, [0] * 257, [1] * 256)
        elif way == 5:
            record.a = self.pick([], [1] * 9, [1] * 8, [0] * 256)
        else:
            words = self.pick(record.b, record.a)
            if words:
                words[self.upto(0, len(words) - 1)] = self.outside(record.k + record.l)

    def schedule_case(self):
        data, _ = self.file(20)
        return ['schedule', ref.show_bytes(data)]

    # ------------------------------------------------------------ forms and plain numbers

    def form_case(self):
        nb, na = self.upto(1, 9), self.upto(0, 8)
        if self.chance(20):
            nb, na = self.pick((0, 0), (10, 0), (1, 9), (9, 9), (10, 9), (0, 8), (17, 0), (257, 0),
                               (1, 256), (0, 1))
        b = [self.pick(self.word(24), self.pick(-2 ** 31, 2 ** 31 - 1)) for _ in range(nb)]
        a = [self.word(24) for _ in range(na)]
        return ['form', self.pick('1', '2', 'T'), ref.show_list(b), ref.show_list(a)]

    def number_case(self):
        way = self.upto(0, 2)
        top = 2 ** 63
        if way == 0:
            l = self.pick(1, 4, 23, self.upto(1, 23), self.upto(1, 23))
            size = self.pick(self.bits(63), self.bits(63),
                             self.bits(30) * 2 ** l + self.pick(0, 1, -1, 2 ** (l - 1), 2 ** (l - 1) - 1,
                                                                2 ** (l - 1) + 1))
            p = self.pick(size, -size, size, -size, size, -size, top - 1, -top, top - 2 ** (l - 1),
                          top - 2 ** (l - 1) - 1)
            if self.chance(4):
                l, p = self.pick((0, p), (24, p), (l, top), (l, -top - 1))
            return ['round', self.rounding(), str(l), str(p)]
        if way == 1:
            l = self.pick(1, 4, 23, self.upto(1, 23), self.upto(1, 23))
            m = self.pick(self.bits(62), self.bits(62), self.bits(38) * 2 ** l + self.pick(0, 1), 0, 1,
                          2 ** 62, 2 ** 62 - 1, 2 ** (l - 1), 2 ** (l - 1) - 1)
            if self.chance(4):
                l, m = self.pick((0, m), (24, m), (l, 2 ** 62 + 1))
            return ['reach', self.rounding(), str(l), str(m)]
        w = self.pick(8, 24, self.upto(8, 24), self.upto(8, 24))
        half = 2 ** (w - 1)
        raw = self.pick(half, half - 1, -half, -half - 1, 2 * half, -2 * half, 3 * half, top - 1, -top,
                        self.bits(63), -self.bits(63), self.bits(w + 2), -self.bits(w + 2))
        if self.chance(4):
            w, raw = self.pick((7, raw), (29, raw), (w, top), (w, -top - 1))
        return ['store', self.overflow(), str(w), str(raw)]

    # ------------------------------------------------------------ one case

    def case(self):
        """One line that is short enough and quick enough to work."""
        what = self.weighted(WEIGHTS)
        make = getattr(self, what + '_case')
        while True:
            fields = make()
            line = ' '.join(fields)
            if len(line) > LINE or not quick(fields):
                continue
            return line


def quick(fields):
    """Whether the sheets of a case stay within the rounds allowed."""
    try:
        if fields[0] == 'sheet':
            ref.case_sheet(fields[1:], ROUNDS)
        elif fields[0] == 'schedule':
            ref.case_schedule(fields[1:], ROUNDS)
    except ref.TooLong:
        return False
    return True


def main():
    if len(sys.argv) != 3:
        sys.exit('usage: cases.py SEED COUNT')
    maker = Maker(sys.argv[1])
    for _ in range(int(sys.argv[2])):
        print(maker.case())


if __name__ == '__main__':
    main()
