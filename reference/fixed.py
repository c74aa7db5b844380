#!/usr/bin/env python3
"""The fixed list of telling cases: python3 fixed.py

Every refusal and every move of the watch is met at least once, and the limits are
tried from both sides.
"""

import reference as ref

PANEL = '2/4/4/i,r0,s0.0,s1.1,d2.3'              # y = b0 u - a1 y1
DOUBLE = '0/1/-/i,a0.0'                          # y = u + u
PLAIN = '0/0/-/i'                                # y = u
DELAY = '0/1/0/i,r0'                             # y = u1

LINES = []


def say(*fields):
    LINES.append(' '.join(str(field) for field in fields))


def feeds(samples, registers=1, nodes=5):
    return ['f:%d:%d:%d' % (registers, nodes, u) for u in samples]


def record(name, form='1', rules='ZW', k=4, l=4, b=(8,), a=(-8,)):
    return ref.Record(name, form, rules[0], rules[1], k, l, list(b), list(a))


def part(*args, **kwargs):
    return ref.record_bytes(record(*args, **kwargs))


def hexed(data):
    return ref.show_bytes(data)


def written(entry, letters=None):
    letters = letters or [ord(entry.form), ord(entry.rounding), ord(entry.overflow)]
    return ':'.join([hexed(entry.name)] + [str(x) for x in letters] + [
        str(entry.k), str(entry.l), ref.show_list(entry.b), ref.show_list(entry.a)])


# ---------------------------------------------------------------- rounding and overflow

def rounding():
    for p in (35, -35, 8, -8, 7, -7, 9, -9, 16, -16, 15, -15, 24, -24, 0, 1, -1):
        for rule in 'FNZ':
            say('round', rule, 4, p)
    for p in (2 ** 63 - 1, -2 ** 63, 2 ** 63 - 4, 2 ** 63 - 8, 2 ** 63 - 9):
        for rule in 'FNZ':
            say('round', rule, 1, p)
            say('round', rule, 4, p)
            say('round', rule, 23, p)
    for m in (0, 1, 7, 8, 9, 15, 16, 17, 24, 2 ** 62 - 1, 2 ** 62):
        for rule in 'FNZ':
            say('reach', rule, 4, m)
            say('reach', rule, 1, m)
            say('reach', rule, 23, m)
    for w in (8, 13, 24):
        half = 2 ** (w - 1)
        for raw in (half - 1, half, -half, -half - 1, 2 * half, -2 * half, 3 * half, 0, -1,
                    2 ** 63 - 1, -2 ** 63):
            for rule in 'WSX':
                say('store', rule, w, raw)
    # Outside what the cases may say.
    say('round', 'F', 0, 5)
    say('round', 'F', 24, 5)
    say('round', 'F', 4, 2 ** 63)
    say('round', 'F', 4, -2 ** 63 - 1)
    say('round', 'Q', 4, 5)
    say('reach', 'F', 4, 2 ** 62 + 1)
    say('reach', 'N', 0, 1)
    say('reach', 'N', 24, 1)
    say('store', 'W', 7, 0)
    say('store', 'W', 29, 0)
    say('store', 'W', 8, 2 ** 63)
    say('nothing')
    say('round', 'F', 4)
    say('form', '3', 1, '-')


# ---------------------------------------------------------------- forms

def forms():
    for form in '12T':
        for nb in range(1, 10):
            for na in range(0, 9):
                say('form', form, ref.show_list(range(1, nb + 1)), ref.show_list(range(-1, -na - 1, -1)))
        say('form', form, '-', '-')
        say('form', form, '-', '1')
        say('form', form, ','.join(['1'] * 10), '-')
        say('form', form, '1', ','.join(['1'] * 9))
        say('form', form, ','.join(['1'] * 10), ','.join(['1'] * 9))
        say('form', form, -2 ** 31, 2 ** 31 - 1)


# ---------------------------------------------------------------- runs

def samples_and_formats():
    for kind in ('word', 'enclosed', 'bound'):
        say('run', 4, 4, 'F', 'W', kind, 0, '-', PLAIN, '-', *feeds([127, -128, 128, -129, -127], 0, 1))
        # Without an input node no sample is refused at a node.
        say('run', 4, 4, 'F', 'X', kind, 0, '-', '0/0/-/z', '-', *feeds([127, -128, 128, -129], 0, 1))
        for w in (7, 8, 24, 25):
            for k in (1, 2, w // 2, w - 1):
                top = 2 ** (w - 1)
                say('run', k, w - k, 'N', 'S', kind, 0, '-', DOUBLE, '-',
                    *feeds([top // 2, top - 1, -top, top, -top - 1], 0, 2))
    for k, l in ((0, 8), (8, 0), (0, 24), (24, 0), (0, 0), (255, 9), (9, 255), (128, 136), (255, 255)):
        say('run', k, l, 'F', 'W', 'word', 0, '-', PLAIN, '-')
        say('sheet', k, l, 'F', 'W', 0, '0,0,0', PLAIN, '-')


def each_product_by_itself():
    # Two scales of 1 by 8, each rounded by itself: 0 under F, not 1.
    for rule in 'FNZ':
        for kind in ('word', 'enclosed', 'bound'):
            say('run', 4, 4, rule, 'W', kind, 0, '-', '2/3/-/i,s0.0,s0.1,a1.2', '8,8',
                *feeds([1, -1, 3, -3], 0, 4))


def old_registers():
    # A second delayed output never gets the new first one.
    for form in '12T':
        wiring = ref.show_wiring(ref.build_form(form, 1, 2))
        size = len(ref.build_form(form, 1, 2).nodes)
        for words in ('16,0,-16', '16,-8,-16', '16,-16,0'):
            say('run', 4, 4, 'F', 'W', 'word', 2, '-', wiring, words, *feeds([3, 0, 0, 5, 0, 0, 0], 2, size))
    # Two registers that trade places.
    say('run', 4, 4, 'F', 'W', 'word', 2, '-', '0/3/2,3/i,r0,r1,a1.0', '-', *feeds([1, 2, 3, 4], 2, 4))
    say('run', 4, 4, 'F', 'W', 'word', 2, '-', '0/0/2,1/i,r0,r1', '-', *feeds([1, 2], 2, 3))


def panel_runs():
    for rule in 'ZFN':
        for kind in ('word', 'enclosed', 'bound'):
            say('run', 4, 4, rule, 'W', kind, 1, '64,6', PANEL, '8,-8', *feeds([64] + [0] * 6))
            # Under F the register keeps 1 for ever.
            say('run', 4, 4, rule, 'W', kind, 1, '-', PANEL, '8,-8', *feeds([2] + [0] * 9))
            say('run', 4, 4, rule, 'X', kind, 1, '-', PANEL, '127,-128', *feeds([-16, 0, 16, 1, -1]))


def overflows():
    # 100 + 100 and its like, under each rule.
    for rule in 'SWX':
        for kind in ('enclosed', 'word', 'bound'):
            say('run', 4, 4, 'F', rule, kind, 0, '-', DOUBLE, '-',
                *feeds([100, -100, 63, 64, -64, -65, 127, -128], 0, 2))
            say('run', 4, 4, 'F', rule, kind, 0, '-', '1/1/-/i,s0.0', '127', *feeds([127, 16, 17, -128], 0, 2))
            say('run', 4, 4, 'F', rule, kind, 0, '-', '1/1/-/i,s0.0', '-128', *feeds([127, 16, -16, -128], 0, 2))
            say('run', 4, 4, 'Z', rule, kind, 0, '-', '0/2/-/i,z,d1.0', '-', *feeds([-128, 127, -127], 0, 3))


def far_ends():
    # An end at 2^38 is taken; one doubling, or one tick, more is refused.
    # 64 + 64 wraps; twice more, and the word is 0 with both ends 2^20.
    nodes = ['i', 'a0.0', 'a1.1'] + ['a%d.%d' % (n, n) for n in range(2, 20)]
    say('run 4 4 F W enclosed 0 -', '0/20/-/' + ','.join(nodes), '-', *feeds([64, -64, 0], 0, 40))
    more = nodes + ['a20.20']
    say('run 4 4 F W enclosed 0 -', '0/21/-/' + ','.join(more), '-', *feeds([64, -64, 0], 0, 40))
    # A value 0 with ends 0 and 1: a remainder scaled by 1/16 until only the last tick is left.
    tick = ['i', 'a0.0', 'a1.1'] + ['a%d.%d' % (n, n) for n in range(2, 20)]
    tick += ['r0', 's21.0', 's22.1', 's23.1', 's24.1', 'a20.25']
    for last in ('a20.25', 'd20.25', 'd25.20'):
        tick[-1] = last
        say('run 4 4 F W enclosed 1 -', '2/26/0/' + ','.join(tick), '8,1',
            *(feeds([1, 64], 1, 40) + ['h:1'] + feeds([1, -64], 1, 40)))
    # A ceiling at 2^38 is taken, one tick more is refused.
    chain = ['z', 's0.0'] + ['a%d.%d' % (n, n) for n in range(1, 27)]        # node 27 is 2^38
    say('run 1 23 F W bound 0 -', '2/27/-/' + ','.join(chain), '1,8388607', *feeds([0], 0, 64))
    say('run 1 23 F W bound 0 -', '2/28/-/' + ','.join(chain + ['a27.27']), '1,8388607', *feeds([0], 0, 64))
    chain += ['s27.1'] + ['a%d.1' % n for n in range(28, 34)] + ['s1.0', 'a34.1']
    say('run 1 23 F W bound 0 -', '2/36/-/' + ','.join(chain), '1,8388607', *feeds([0], 0, 64))
    say('sheet 1 23 F W 0 0,0,0', '2/36/-/' + ','.join(chain), '1,8388607')
    chain[-1] = 'a34.35'
    say('run 1 23 F W bound 0 -', '2/36/-/' + ','.join(chain), '1,8388607', *feeds([0], 0, 64))
    say('sheet 1 23 F W 0 0,0,0', '2/36/-/' + ','.join(chain), '1,8388607')


def refused_calls():
    for kind in ('word', 'enclosed', 'bound'):
        # Short rows, the register row before the working row, both before the sample.
        say('run', 4, 4, 'Z', 'X', kind, 1, '64,6', PANEL, '8,-8', 'f:1:5:64', 'f:0:5:1', 'f:1:4:1', 'f:0:0:999',
            'f:9:9:128', 'f:1:5:-129', 'h:0', 's:8', 's:8,-8,0', 's:8,128', 's:-129,8', 's:128', 's:-',
            'f:1:5:0', 'h:1', 's:8,-9', 'f:1000:1000:127')
        # A feed refused at a node changes nothing, and the watch stays as well.
        say('run', 4, 4, 'Z', 'X', kind, 1, '127,6', '2/4/4/i,r0,s0.0,s1.1,d2.3', '16,-16',
            *feeds([100, 100, -100, -128, 27, 1, 0]))
        say('run', 4, 4, 'Z', 'X', kind, 0, '-', PANEL, '8,-8', 'f:1:5:1')
        say('rows', 4, 4, 'Z', 'X', kind, 0, 5, 7, PANEL, '8,-8', '1,2')
        say('rows', 4, 4, 'Z', 'X', kind, 3, 8, 7, PANEL, '16,-16', '100,100,-100,128,-128,0,27,1')
        say('rows', 4, 4, 'Z', 'X', kind, 3, 4, -7, PANEL, '16,-16', '100,128')
        say('rows', 4, 4, 'Z', 'X', kind, 1, 0, -100, PANEL, '16,-16', '100')
        say('rows', 4, 4, 'Z', 'X', kind, 0, 0, 100, PLAIN, '-', '1')
        say('rows', 4, 4, 'Z', 'X', kind, 0, 1, 100, PLAIN, '-', '-')
        say('rows', 3, 4, 'Z', 'X', kind, 2, 1, 100, PLAIN, '-', '1')
        say('rows', 4, 4, 'Z', 'X', kind, 2, 3, 5, '0/3/-/i', '-', '1')
    say('run', 4, 4, 'Z', 'X', 'word', 1, '-', PANEL, '8,128')
    say('run', 4, 4, 'Z', 'X', 'word', 1, '-', PANEL, '127,-128')
    say('run', 4, 4, 'Z', 'X', 'word', 1, '-', PANEL, '8')
    say('run', 4, 4, 'Z', 'X', 'word', 0, '-', PANEL, '999')        # 17 before 9 and 15
    say('run', 4, 4, 'Z', 'X', 'word', 0, '-', PANEL, '8,999')      # 9 before 15


def watches():
    zero, one, far = 'f:1:5:0', 'f:1:5:1', 'f:1:5:65'
    head = ['run', 4, 4, 'Z', 'W', 'word', 1]
    tail = [PANEL, '8,-8']
    # settled, sounding, falling to settled, sounding again out of falling
    say(*head, '64,3', *tail, zero, one, one, zero, zero, one, zero, zero, zero, zero, one, zero)
    # N = 0, N = 1, N = 2 and the greatest N
    for n in (0, 1, 2, 2 ** 64 - 1):
        say(*head, '64,%d' % n, *tail, zero, one, zero, one, one, zero, zero, zero, far, zero, one, 'h:1', one,
            zero, zero, 's:8,-8', zero, one, far, 'h:1', zero)
    # beyond the range from every state
    say(*head, '64,3', *tail, far, zero, one, far, 'h:1', one, far, 'h:1', one, zero, far, zero, 'h:1', far, 'h:1')
    # a swap from every state, and lapsed remains whatever comes
    for before in ([], [one], [one, zero], [far], [one, zero, zero, zero]):
        say(*head, '64,3', *tail, *before, 's:8,-8', zero, one, far, 'h:1', 's:8,-8', zero)
        say(*head, '64,3', *tail, *before, 'h:1', zero)
        # refused calls leave it: swap, hush, short rows, a sample outside
        say(*head, '64,3', *tail, *before, 's:8', 'h:0', 'f:0:5:65', 'f:1:0:0', 'f:1:5:128', zero)
    # X at the edges
    say(*head, '0,3', *tail, zero, one)
    say(*head, '1,3', *tail, one, 'f:1:5:-1', 'f:1:5:-2')
    say(*head, '127,3', *tail, 'f:1:5:127', 'f:1:5:-127', 'f:1:5:-128')
    say(*head, '128,3', *tail, 'f:1:5:-128', zero)
    say(*head, '%d,3' % (2 ** 32 - 1), *tail, 'f:1:5:-128', zero)
    # no watch
    say(*head, '-', *tail, one, zero, far, 's:8,-8', 'h:1')
    # Settled by a true sheet: under F the band is 1.
    say('run', 4, 4, 'F', 'W', 'enclosed', 1, '64,6', *tail, *(feeds([64, -64, 64, 63]) + [zero] * 9))


# ---------------------------------------------------------------- wirings

def wirings():
    def both(wiring, words='-', registers=20):
        say('run', 4, 4, 'Z', 'W', 'word', registers, '-', wiring, words, 'f:20:70:1')
        say('sheet', 4, 4, 'Z', 'W', 1, '%d,%d,%d' % (registers, registers, registers), wiring, words)

    both('0/0/-/-')                                             # no node
    both('0/63/-/' + ','.join(['i'] * 64))
    both('0/63/-/' + ','.join(['i'] * 65))
    both('0/0/%s/i' % ','.join(['0'] * 16))
    both('0/0/%s/i' % ','.join(['0'] * 17))
    both('17/0/-/i', ','.join(['1'] * 17))
    both('18/0/-/i', ','.join(['1'] * 18))
    both('256/0/-/i', '-')
    both('0/1/-/i,a0.1')                                        # itself
    both('0/1/-/i,a1.0')
    both('0/1/-/i,d0.2,z')                                      # later
    both('0/0/-/a0.0')
    both('1/1/-/i,s1.0', '1')
    both('1/1/-/i,s0.1', '1')                                   # absent coefficient
    both('0/1/-/i,s0.0')
    both('0/0/-/r0')                                            # absent register
    both('0/1/0/i,r1')
    both('0/1/0/i,r0')
    both('0/1/-/i')                                             # output no node
    both('0/0/1/i')                                             # source no node
    both('0/0/0,1/i')
    both('0/256/-/i')
    both('0/9/9/i,a5.5')                                        # 13 before 14
    both('18/9/9/i,a5.5')                                       # 12 before both
    both('1/0/-/i', '1,2')                                      # 17
    both('1/0/-/i', '-')
    both('1/0/-/i', '128')                                      # 9
    both('1/0/-/i', '-128')
    both('0/0/0/i', '-', 0)                                     # 15


# ---------------------------------------------------------------- sheets

def sheets():
    for x in (64, 127, 128, 126, 0, 1, -1, -2 ** 31, 2 ** 31 - 1):
        for rule in 'ZFN':
            say('sheet', 4, 4, rule, 'W', x, '1,2,3', PANEL, '8,-8')
    for rule in 'WSX':
        say('sheet', 4, 4, 'Z', rule, 64, '1,1,1', PANEL, '8,-8')
    say('sheet', 4, 4, 'Z', 'W', 1, '1,1,1', PANEL, '16,-16')       # 21 at node 4
    say('sheet', 4, 4, 'Z', 'W', 1, '3,2,1', PANEL, '16,-16')
    say('sheet', 4, 4, 'F', 'W', 1, '1,1,1', PANEL, '16,-16')
    say('sheet', 4, 4, 'Z', 'W', 0, '2,1,3', PANEL, '16,-127')      # 22 after few rounds
    say('sheet', 4, 4, 'Z', 'W', 0, '1,1,1', PANEL, '16,-128')
    for w in (7, 8, 24, 25):
        top = 2 ** (w - 1)
        for x in (top - 1, top, top // 2):
            say('sheet', w - 1, 1, 'N', 'W', x, '0,0,0', PLAIN, '-')
            say('sheet', 1, w - 1, 'Z', 'S', x, '1,1,1', PANEL, '%d,%d' % (top // 2, -(top // 2)))
    # Rows too short, in order, after the coefficients and before the range.
    for rows in ('0,1,1', '1,0,1', '1,1,0', '0,0,0'):
        say('sheet', 4, 4, 'Z', 'W', 128, rows, PANEL, '8,-8')
        say('sheet', 4, 4, 'Z', 'W', 64, rows, PANEL, '8,128')
        say('sheet', 4, 4, 'Z', 'W', 64, rows, PANEL, '8')
    # No register: N is 0.
    say('sheet', 4, 4, 'F', 'W', 127, '0,0,0', PLAIN, '-')
    say('sheet', 4, 4, 'F', 'W', 64, '0,0,0', DOUBLE, '-')
    say('sheet', 4, 4, 'F', 'W', 63, '1,1,1', DOUBLE, '-')
    # N is 1 and more: delays let go one after the other.
    say('sheet', 4, 4, 'F', 'W', 5, '1,1,1', DELAY, '-')
    say('sheet', 4, 4, 'F', 'W', 5, '3,3,3', '0/3/0,1,2/i,r0,r1,r2', '-')
    # A register that feeds itself alone never leaves nought.
    say('sheet', 4, 4, 'F', 'W', 127, '1,1,1', '0/0/0/r0', '-')
    say('sheet', 4, 4, 'F', 'W', 127, '2,2,2', '1/1/1,0/r0,r1', '5')
    for form in '12T':
        for rule in 'FNZ':
            wiring = ref.build_form(form, 3, 2)
            say('sheet', 2, 14, rule, 'S', 2 ** 13, '4,4,4', ref.show_wiring(wiring),
                '1638,3276,1638,-6553,1638')
            wiring = ref.build_form(form, 9, 8)
            say('sheet', 4, 20, rule, 'S', 2 ** 20, '16,16,16', ref.show_wiring(wiring),
                ','.join(['65536'] * 9 + ['-65536', '65536'] * 4))


# ---------------------------------------------------------------- files

OAK, WALL = part(b'oak panel'), part(b'echo wall', b=(16,), a=(-16,))


def tell(data, *names):
    """Has a file read, scheduled and looked up in."""
    say('read', hexed(data))
    say('schedule', hexed(data))
    for name in names:
        say('look', hexed(data), hexed(name))


def alone(data, *names):
    """Tells a file of one part."""
    tell(ref.file_of_parts([data]), *names)


def files():
    directories()
    names()
    settings()
    words()
    orders()


def directories():
    """Counts and pairs."""
    two = ref.file_of_parts([OAK, WALL])
    assert len(two) == 64
    tell(two, b'oak panel', b'echo wall', b'oak', b'Oak panel', b'oak panel ', b'')
    tell(b'\0\0', b'a', b'')
    tell(b'\0\0\0', b'a')
    tell(b'')
    tell(b'\0')
    tell(b'\0\1')
    tell(b'\0\1' + bytes(5))
    tell(b'\0\1' + bytes(6))
    tell(b'\2\0')
    tell(b'\2\1')
    tell(b'\xff\xff')
    tell(bytes(65000))                                          # only its pairs are out of place
    tell(bytes(65001))
    tell(b'\2\1' + bytes(64998))
    tell(b'\2\0' + bytes(64998))
    tell(two[:-1], b'oak panel')
    tell(two + b'\0', b'oak panel')
    tell(two[:2] + two[8:14] + two[2:8] + two[14:])             # pairs out of order
    tell(b'\0\1\1\0\0\x08' + two[6:8] + OAK)                    # an offset far away
    tell(b'\0\1' + two[2:14] + OAK)
    # the same part named twice
    tell(two[:8] + two[2:8] + two[14:])


def names():
    alone(b'')
    alone(b'\x09')
    alone(b'\0' + OAK[1:])
    alone(b'\x29' + b'a' * 41 + OAK[10:])
    alone(b'\x28' + b'a' * 40 + OAK[10:], b'a' * 40, b'a' * 39)
    alone(b'\1~' + OAK[10:], b'~')
    alone(b'\1 ' + OAK[10:], b' ')
    alone(b'\1\x1f' + OAK[10:])
    alone(b'\1\x7f' + OAK[10:])
    alone(b'\1\xff' + OAK[10:])
    alone(b'\1a' + OAK[10:16])
    alone(b'\1a' + OAK[10:17])                                  # no room for the words: 8
    alone(b'\xff' + OAK[1:])


def settings():
    """Letters, formats and counts."""
    for at, letters in ((10, b'12T3t\0\x31\xb1'), (11, b'FNZfWn\0'), (12, b'WSXwsFx\0')):
        for letter in letters:
            alone(OAK[:at] + bytes([letter]) + OAK[at + 1:])
    for k, l in ((3, 4), (4, 4), (1, 7), (7, 1), (0, 8), (8, 0), (12, 12), (12, 13), (255, 9), (23, 1), (1, 24)):
        alone(OAK[:13] + bytes([k, l]) + OAK[15:])
    for nb, na in ((0, 2), (2, 0), (1, 1), (1, 2), (9, 8), (10, 0), (1, 9), (2, 1), (255, 3), (0, 0), (1, 255)):
        alone(OAK[:15] + bytes([nb, na]) + OAK[17:])
    alone(part(b'full', b=[1] * 9, a=[0] * 8), b'full')
    for form in '12T':
        alone(part(b'full', form, 'NS', 2, 22, [300000] * 9, [-200000, 200000] * 4), b'full')
        alone(part(b'bare', form, 'NS', 2, 22, [300000], []), b'bare')
    alone(OAK + b'\0')
    alone(OAK[:-1])


def words():
    for word in (127, 128, -128, -129, 2 ** 31 - 1, -2 ** 31, 0):
        alone(OAK[:-4] + word.to_bytes(4, 'big', signed=True))
        alone(OAK[:-8] + word.to_bytes(4, 'big', signed=True) + OAK[-4:])


def orders():
    """What is told first, within a record and between records; full files."""
    alone(b'\1\x7fQQQ\0\0\0\0')
    alone(b'\1aQQQ\0\0\0\0')
    alone(b'\1a1FW\0\0\0\0')
    alone(b'\1a1FW\4\4\0\0')
    alone(b'\1a1FW\4\4\1\0')
    tell(ref.file_of_parts([OAK, OAK]), b'oak panel')           # a name used before
    tell(ref.file_of_parts([OAK, WALL, OAK]), b'oak panel')
    tell(ref.file_of_parts([OAK, OAK[:-1] + b'\x80']))          # 9 before 10
    tell(ref.file_of_parts([OAK, WALL[:-1], OAK]))
    tell(ref.file_of_parts([OAK, b'', WALL]))
    tell(ref.file_of_parts([OAK[:-1], WALL[:10] + b'Q' + WALL[11:]]))
    many = [part(b'%03d' % n, a=()) for n in range(513)]
    tell(ref.file_of_parts(many[:512]), b'000', b'511', b'512')
    tell(ref.file_of_parts(many), b'000')
    tell(ref.file_of_parts(many[:511] + many[:1]))


def writes():
    oak, wall = record(b'oak panel'), record(b'echo wall', b=(16,), a=(-16,))
    for length in (64, 65, 70, 63, 1, 0):
        say('write', length, written(oak), written(wall))
    for length in (0, 1, 2, 3):
        say('write', length)
    say('write', 200, written(oak), written(oak))
    say('write', 200, written(oak), written(wall), written(oak))
    say('write', 0, written(oak), written(oak))                 # 10 before 23

    def alone(entry, letters=None, length=200):
        say('write', length, written(entry, letters))

    for name in (b'', b'a' * 40, b'a' * 41, b'a' * 257, b' ', b'~', b'\x1f', b'\x7f', b'a\xff', b'\0'):
        alone(record(name))
    for letters in ([49, 70, 87], [50, 78, 83], [84, 90, 88], [51, 70, 87], [49, 71, 87], [49, 70, 89],
                    [116, 70, 87], [49, 102, 87], [49, 70, 119], [305, 70, 87], [49, 326, 87], [49, 70, 343],
                    [0, 0, 0], [0x10FFFF, 70, 87], [0x1F600, 70, 87]):
        alone(record(b'a'), letters)
    for k, l in ((3, 4), (1, 7), (7, 1), (0, 8), (8, 0), (12, 12), (12, 13), (255, 9), (1, 24)):
        alone(record(b'a', k=k, l=l))
    for nb, na in ((0, 0), (1, 0), (9, 8), (10, 0), (1, 9), (257, 0), (1, 256), (0, 1)):
        alone(record(b'a', b=[1] * nb, a=[-1] * na))
    for word in (127, 128, -128, -129, 2 ** 31 - 1, -2 ** 31):
        alone(record(b'a', b=[word]))
        alone(record(b'a', a=[word]))
    # the order of the refusals
    alone(record(b'', k=0, b=[]), [0, 0, 0], 0)
    alone(record(b'a', k=0, b=[]), [0, 0, 0], 0)
    alone(record(b'a', k=0, b=[]), None, 0)
    alone(record(b'a', b=[999] * 10), None, 0)
    alone(record(b'a', b=[999]), None, 0)
    alone(record(b'a'), None, 0)
    many = [written(record(b'%03d' % n, a=())) for n in range(513)]
    say('write', 1000, *many[:512])
    say('write', 4, *many)
    say('write', 4, *(['-:0:0:0:0:0:-:-'] + many[:512]))
    say('write', 4, *(many[:511] + many[:1]))


def main():
    for part_of in (rounding, forms, samples_and_formats, each_product_by_itself, old_registers, panel_runs,
                    overflows, far_ends, refused_calls, watches, wirings, sheets, files, writes):
        part_of()
    print('\n'.join(LINES))


if __name__ == '__main__':
    main()
