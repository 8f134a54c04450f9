#!/usr/bin/env python3
"""Writes the streams that crates/conformance runs: streams.py VIDEO.RS FILE. VIDEO.RS is the reference's video.rs, whose code tables are taken.
Each stream is named after the rules of docs/RULES.md that it is for. Its seed is the CRC of its name, so a stream can come or go without changing the
others. The file has an empty text, the number of streams, and for each two texts, its name and the stream. A text is its length and its bytes; a number is
four bytes, highest first."""
import sys, zlib
from writer import BAD, COEFF, GOOD, INC, MOTION, PATTERN, SIZE, TYPE, Writer

# ---- the cases: name, size, how they begin and end, and what they write between
CASES = []

def case(name, w=48, h=32, key=True, tail=True, **more):
    return lambda function: CASES.append((name, w, h, key, tail, more, function)) or function

def flat(value):
    return lambda k: [value + 9 * k]

def head(flags, value=140):
    return [value] if flags & 1 else []

# -- part 2: every code of every table
@case('2.1-7.7_increments', 768, 16)
def _(c):
    for n in range(1, 34):
        c.picture(2)
        c.slice(1)
        c.macroblock(1, n, block=flat(3 * n))
        c.macroblock(1, 34 - n, block=flat(200 - 3 * n))
@case('2.1-7.16_patterns', 128, 96)
def _(c):
    for first in (1, 16):
        c.picture(2)
        c.slice(1, 12)
        for pattern in range(first, first + 48):
            c.macroblock(2 if pattern % 3 else 10, pattern=pattern, block=lambda k: [(k, 2 + k)])
@case('2.1-7.13_types', 192, 32)
def _(c):
    c.chance_picture(2)
    for kind in (1, 2, 3):
        c.picture(kind, (0, 2), (0, 3))
        for row in (1, 2):
            c.slice(row, 9)
            flags = list(GOOD[TYPE[kind]])
            for i in range(12):
                c.macroblock(flags[i % len(flags)])
@case('2.1-5.3_motion_codes', 128, 96)
def _(c):
    for code in (1, 3):
        c.picture(2, (0, code))
        c.slice(1)
        f = 1 << (code - 1)
        for m in range(1, 17):
            for to in (m * f - c.rnd.randint(0, f - 1), 0, -m * f):
                some = ((to % (32 * f) - (32 * f if to % (32 * f) >= 16 * f else 0), 0), (0, to if to < 16 * f else -to))
                good = [x for x in some if 'past' not in c.ways(x, 0, c.address + 1)]
                c.macroblock(8, fwd=good[m % len(good)] if good else (-2, -2))
for code in range(1, 8):
    @case('5.4-5.5_vectors_f%d' % code, 80, 64)
    def _(c, code=code, span=8 << code):
        targets = [span - 1, -span, 0, -1, 1, span // 2, -(span // 2)]
        c.picture(2, (0, code))
        for row in range(1, 5):
            c.slice(row)
            for _ in range(5):
                some = [[c.rnd.choice(targets + [c.rnd.randint(-span, span - 1)]) for _ in (0, 1)] for _ in range(60)]
                c.macroblock(8, fwd=next((to for to in some if 'past' not in c.ways(to, 0, c.address + 1)), (0, 0)))
        c.chance_picture(2, (0, code), per=4)
        c.chance_picture(3, (0, code), (0, 8 - code), per=2)

# -- part 3
@case('3.1-3.3_dc_sizes', 96, 64, key=False)
def _(c):
    def block(k):
        size, now = c.rnd.randint(0, 8), c.dc[max(k - 3, 0)]
        step = c.rnd.randint(1 << size >> 1, (1 << size) - 1)
        return [c.rnd.choice([x for x in (now + step, now - step) if -256 <= x <= 255] or [now])]
    c.fill(1, 1, 24, 8, block)
@case('2.10-3.5_coefficients', 128, 96, key=False)
def _(c):
    for kind, flags, most in ((1, 1, 4), (2, 2, 4), (2, 2, 1)):
        todo = [(v >> 8, s * (v & 255)) for v in GOOD[COEFF] if v != 0xFFFF for s in (1, -1)]
        c.rnd.shuffle(todo)
        def block(k):
            parts = head(flags, 128)
            while todo and len(parts) < most and sum(x[0] + 1 for x in parts[flags & 1:]) + todo[-1][0] < 63:
                parts.append(todo.pop())
            return parts or [(0, 1)]
        c.fill(kind, flags, 48, 3, block)
@case('3.6_escapes', 64, 48, key=False)
def _(c):
    levels = [1, -1, 2, 127, -127, 128, -128, 129, 200, 255, -129, -200, -255, -256, 64, -64, 100, -3]
    for kind, flags in ((1, 1), (2, 2)):
        c.fill(kind, flags, 12, 2, lambda k: head(flags) + [(c.rnd.randint(0, 60), c.rnd.choice(levels), 1), (0, c.rnd.choice((1, 9, 90, 0, -256)), 16)])

DISTINCT = [[(37 * i + 11) % 256 for i in range(64)], [(101 * i + 60) % 256 for i in range(64)]]
for name, scales, matrices in (('default', (16, 31, 5), {}), ('loaded', (7,), {'intra': DISTINCT[0], 'other': DISTINCT[1]}),
                               ('other_loaded', (7,), {'other': DISTINCT[0]}), ('intra_loaded', (7,), {'intra': DISTINCT[1]})):
    @case('3.8-2.7-O.3_places_%s' % name, 176, 16, key=False, **matrices)
    def _(c, scales=scales):
        for kind, flags in ((1, 1), (2, 2)):
            for q in scales:
                c.fill(kind, flags, 11, q, lambda k: head(flags, 128) + [
                    (max((6 * c.address + k) % 64 - (flags & 1), 0), c.rnd.choice((3, -3, 5, -4)))])
@case('3.8_clipping', 64, 48, key=False, intra=[8] + [83] * 63, other=[255] * 64)
def _(c):
    pick = c.rnd.choice
    for kind, flags in ((1, 1), (2, 2), (2, 2)):
        c.fill(kind, flags, 12, 31, lambda k: head(flags, c.rnd.randint(0, 255)) + [
            (pick((0, 0, 1, 2)), pick((1, -1)) * pick((255, 200, 120, 60, 25, 12, 7, 4, 3, 2, 1))) for _ in range(6)])
# every level by an escape, at every scale, in blocks of one or two coefficients
for name, kind, flags in (('intra', 1, 17), ('other', 2, 18)):
    @case('3.6-3.8_levels_%s' % name, 128, 96, key=False, intra=DISTINCT[1], other=DISTINCT[0])
    def _(c, kind=kind, flags=flags):
        levels = [x for x in range(-255, 256)]
        c.rnd.shuffle(levels)
        c.fill(1, 1, 48, 8, lambda k: [128])
        for turn in (0, 1):
            c.picture(kind)
            c.slice(1)
            for i in range(48):
                c.macroblock(flags, q=(i + 16 * turn) % 31 + 1, pattern=63, block=lambda k: head(flags, 128) + [
                    (c.rnd.randint(0, 20), levels[(12 * i + 2 * k + 7 * turn + n) % 511], 1) for n in range(1 + k % 2)])
@case('3.8-X.2_odd_before_clip', 64, 48, key=False, intra=[8] + [16] * 63, other=[16] * 64)
def _(c):
    for kind, flags in ((1, 1), (2, 2)):
        c.fill(kind, flags, 12, 5, lambda k: head(flags, c.rnd.randint(20, 235)) + [
            (c.rnd.randint(0, 20), -205, 1), (c.rnd.randint(0, 20), c.rnd.choice((205, -205)), 1), (1, c.rnd.randint(-9, 9), 1)])
@case('3.13-3.14_zero_scale_entry_level', key=False, intra=[8] + [0, 16] * 31 + [9], other=[0, 24] * 32)
def _(c):
    for kind, flags, q in ((1, 1, 12), (1, 1, 0), (1, 17, 9), (2, 2, 12), (2, 2, 0), (2, 18, 9)):
        c.fill(kind, flags, 6, q, lambda k: head(flags) + [(k, 30), (2, -40), (3, 0, 16)], q=0)
@case('4.1_transform', 96, 64, key=False)
def _(c):
    pick = c.rnd.choice
    for kind, flags in ((1, 1), (2, 2)):
        c.fill(kind, flags, 24, 4, lambda k: head(flags, c.rnd.randint(90, 160)) + [
            (pick((0, 0, 1, 3)), pick((-1, 1)) * c.rnd.randint(1, 40)) for _ in range(c.rnd.randint(1, 15))])
# blocks in which one more or less in a rounding of 4.1 shows, found by trying
ROUNDING = [
    [(2, -2), (0, 6), (0, 4), (0, 2), (1, 1), (0, -1)],
    [(0, -2), (1, -1), (1, -6), (1, -1), (0, -1), (0, 2), (0, -1), (2, -3)],
    [(0, -3), (0, 2), (1, -2), (1, -1), (1, -1), (0, -4)],
    [(1, -6), (2, -1), (0, -1), (0, 1), (0, 4), (1, -4), (1, -6), (2, -1), (2, -3), (1, -3)],
    [(0, 4), (0, 4), (2, -3), (0, -6)],
    [(2, 2), (2, 6), (0, 6), (2, 3), (0, -1), (1, -2), (2, 1), (0, 1)],
]
@case('4.1_rounding', 32, 16, key=False)
def _(c):
    c.fill(1, 1, 2, 8, lambda k: [128])
    c.fill(2, 2, 2, 3, lambda k: ROUNDING[k])
@case('4.3-6.13_short_way', 64, 48, key=False)
def _(c):
    c.fill(1, 1, 12, 8, lambda k: [c.rnd.choice((-200, -1, 0, 1, 20, 128, 255))])
    for q in (31, 1, 7):
        c.fill(2, 2, 12, q, lambda k: [(0, c.rnd.choice((1, -1)) * c.rnd.choice((1, 2, 3, 30, 90)))])

# the second block begins with what the first one left; the name says what they are
def dropping(c, name, flags):
    over = head(flags) + [(2, 30), (9, -20), (60, 1, 1), '']
    plain, short = head(flags) + [(1, 8)], head(flags) or [(0, 6)]
    many = head(flags) + [(0, c.rnd.choice((1, -1, 2))) for _ in range(64 - (flags & 1))] + ['0110', '']
    exact = head(flags) + [(0, 1)] * (10 - (flags & 1)) + [(53, 5, 1)]
    return {'next': [over, plain], 'short': [over, short], 'sixty_five': [many, plain], 'last_place': [exact, plain], 'twice': [over, over]}[name]
for name in ('next', 'short', 'sixty_five', 'last_place', 'twice'):
    @case('3.9-3.11_drop_%s' % name)
    def _(c, name=name):
        for kind, flags in ((1, 1), (2, 2), (3, 14)):
            c.fill(kind, flags, 6, 6, lambda k: dropping(c, name, flags)[k % 2])
@case('3.12_left_over_slice_picture')
def _(c):
    for kind, flags in ((1, 1), (2, 2), (1, 1)):
        c.picture(kind)
        for row in (1, 2):
            c.slice(row, 6)
            for i in range(3):
                c.macroblock(flags, pattern=63, block=lambda k: dropping(c, 'next', flags)[i < 2 or k < 5])

# -- 2.4, 2.5: codes that have no value
@case('2.5-7.9_no_increment', 96, 32)
def _(c):
    for bad in BAD[INC]:
        c.picture(2)
        c.slice(1)
        c.macroblock(1, block=flat(50))
        c.macroblock(1, bad, block=flat(150))
        c.macroblock(10, 2)
@case('2.5-7.13_no_type')
def _(c):
    for kind in (1, 2, 3):
        c.picture(kind, (0, 2), (0, 2))
        c.slice(1)
        for i in range(3):
            c.macroblock(1, block=flat(60))
            c.macroblock(0, code=BAD[TYPE[kind]][0])
@case('2.5_no_pattern_no_motion')
def _(c):
    for kind in (2, 3):
        c.picture(kind)
        c.slice(1)
        for i in range(6):
            c.macroblock(10, pattern=BAD[PATTERN][0] if i % 2 else 63)
    for code in (1, 3):
        c.picture(2, (0, code))
        c.slice(1)
        for i in range(4):
            c.macroblock(8, fwd=(BAD[MOTION][i % 2], -2 if i < 2 else BAD[MOTION][0]))
@case('2.5-3.2-3.14_no_dc_size_no_coefficient')
def _(c):
    c.fill(1, 1, 6, 8, lambda k: [BAD[SIZE[k > 3]][0] if (c.address + k) % 3 else 140])
    for kind, flags in ((1, 1), (2, 2)):
        c.fill(kind, flags, 6, 20, lambda k: head(flags) + [BAD[COEFF][0] + '01'[k % 2], (3, 2), BAD[COEFF][0] + '1'])

# -- part 6
@case('6.2-7.1_full_pel', 64, 48)
def _(c):
    for kind, fwd, bwd in ((2, (1, 1), None), (2, (1, 3), None), (3, (1, 1), (0, 2)), (3, (0, 2), (1, 1))):
        c.chance_picture(kind, fwd, bwd)
@case('6.3-6.8_halves', 64, 48)
def _(c):
    some = [(h, v) for h in (-1, 0, 1, -3, 6) for v in (-1, 0, 1, 3, -2)]
    for kind, flags in ((2, 8), (3, 8), (3, 4), (3, 12)):
        c.picture(kind)
        for row in (1, 2, 3):
            c.slice(row)
            for column in range(4):
                good = [x for x in some if 'past' not in c.ways(x, 0, c.address + 1)]
                c.macroblock(flags, fwd=c.rnd.choice(good), bwd=c.rnd.choice(good))
@case('6.1-6.6_edges', 48, 48)
def _(c):
    for to in ((-3, 0), (0, -2), (-1, -1), (2, 0), (-40, 33), (31, -31), (0, 32), (-2, 2), (0, -1), (-1, 0), (4, 2), (-4, -4)):
        c.picture(2, (0, 3))
        c.slice(1)
        for i in range(9):
            c.macroblock(8, fwd=to if 'past' not in c.ways(to, 0, i) else (-2 * i, 0))

NINE = {'y_across': (1, 0), 'y_down': (0, 1), 'y_both': (-1, 1), 'y_corner': (1, -1),
        'c_across': (2, 0), 'c_down': (0, 2), 'c_both': (2, 2), 'c_corner': (2, -2)}
for name, to in NINE.items():
    @case('6.9-Q9_nine_%s' % name, 32, 32)
    def _(c, to=to):
        c.picture(2)
        c.slice(1)
        for v in ((-2, 0), (-2, 0), (-2, 0), to):
            c.macroblock(8, fwd=v)
@case('6.9-7.17_nine_backward', 32, 32)
def _(c):
    c.chance_picture(2)
    c.picture(3)
    c.slice(1)
    for fwd, bwd in (((0, 0), (-2, 1)), ((0, 0), (-2, 1)), ((0, 0), (0, 0)), ((-2, -2), (0, 1))):
        c.macroblock(12, fwd=fwd, bwd=bwd)
@case('6.9-7.11_nine_in_skip', 32, 48)
def _(c):
    c.picture(3)
    c.slice(1)
    c.macroblock(4, bwd=(0, 1))
    c.macroblock(4, 5, bwd=(0, 0))
for plane, number in (('y', 3), ('cb', 4), ('cr', 5)):
    for name, steps in (('up', (255, 256)), ('down', (-100, -256, -257))):
        @case('3.3-Q8_eight_%s_%s' % (plane, name), 48, 16)
        def _(c, number=number, steps=steps):
            c.picture(1)
            c.slice(1)
            for step in steps:
                c.macroblock(1, block=lambda k: [step if k == number else c.dc[max(k - 3, 0)]])
@case('3.3-Q8_just_inside', 64, 16)
def _(c):
    for low in (0, 1):
        c.picture(1)
        c.slice(1)
        for value in ((0, -256, -128, 60), (255, 255, 0, 70))[low]:
            c.macroblock(1, block=lambda k: [value])

# bytes between pictures that are no start code, and would be one with a byte less looked at
@case('1.9_no_start_code')
def _(c):
    for some in (b'\x00\x7f\x01\x00', b'\x7f\x00\x01\x00', b'\x00\x00\x03\x00'):
        c.chance_picture(2)
        c.data(some + b'\x2a\x15\x55\x7f')
# a DC value outside where the store has a picture already
@case('3.3-Q8_eight_over_a_picture', 48, 16)
def _(c):
    c.chance_picture(2)
    c.chance_picture(2)
    c.picture(1)
    c.slice(1)
    c.macroblock(1, block=lambda k: [255])
    c.macroblock(1, block=lambda k: [256 if k == 3 else 255])
# a DC value outside in a block whose pairs lead past the last place
@case('3.3-Q8_eight_dropped', 48, 16)
def _(c):
    c.picture(1)
    c.slice(1)
    c.macroblock(1, block=lambda k: [255])
    c.macroblock(1, block=lambda k: [256, (60, 1, 1), (60, 1, 1), ''] if k == 3 else [255])
    c.macroblock(1, block=lambda k: [200])

# -- part 7
# the address keeps what the first increment of a slice says
@case('7.7-7.8_first_increments')
def _(c):
    for codes in ((35, 34), (34, 35, 35, 34), (35, 35, 3)):
        c.picture(1)
        c.slice(1)
        c.raw(''.join(GOOD[INC][x] for x in codes))
        c.first = False
        c.macroblock(1)
        c.macroblock(1)
@case('7.11-7.20_skip_p', 128, 32)
def _(c):
    c.picture(2, (0, 2))
    for row in (1, 2):
        c.slice(row)
        c.macroblock(8, fwd=(7, 3) if row == 1 else (5, -3))
        c.macroblock(8, 2, fwd=(5, 1) if row == 1 else (4, -1))
        c.macroblock(1, block=flat(90))
        c.macroblock(1, 2, block=flat(60))
        c.macroblock(2, pattern=9)
        c.macroblock(8, fwd=(-6, 0))
@case('7.17-7.18_skip_b', 128, 32)
def _(c):
    c.chance_picture(2)
    for flags in (8, 4, 12):
        c.picture(3, (0, 2), (0, 3))
        for row in (1, 2):
            c.slice(row)
            c.macroblock(flags, fwd=(3, -2), bwd=(-5, -4))
            c.macroblock(flags, 3, fwd=(1, -6), bwd=(6, -1))
            c.macroblock(1, block=flat(70))
            c.macroblock(1, 2, block=flat(40))
            c.macroblock(flags + 2, fwd=(-3, -2), bwd=(-2, -2))
@case('7.18_skip_i', 96, 32)
def _(c):
    c.chance_picture(2)
    c.picture(1)
    for row in (1, 2):
        c.slice(row)
        c.macroblock(1)
        c.macroblock(17, 4)
        c.macroblock(1)
@case('7.8-7.21_flags_of_before', 96, 32)
def _(c):
    c.chance_picture(2)
    for flags in (8, 4, 12, 1):
        c.picture(3)
        c.slice(2)
        for i in range(6):
            c.macroblock(flags, fwd=(-2, -1), bwd=(-4, -3), block=flat(30))
        c.picture(3)
        c.slice(1)
        c.raw(BAD[INC][0])
        c.first = False
        c.macroblock(1, 6, block=flat(90))
@case('7.8_first_increment_zero', 48, 48)
def _(c):
    for i, bad in enumerate(BAD[INC]):
        c.picture(1)
        c.slice(2 + i % 2)
        c.macroblock(1, bad, block=flat(60 + i))
        c.macroblock(1, block=flat(200 - i))
    c.picture(1)
    c.slice(1)
    c.raw(BAD[INC][0])
    c.first = False
    for i in range(4):
        c.macroblock(1)
@case('7.8-7.10_past_the_end')
def _(c):
    c.picture(1)
    c.slice(1)
    c.macroblock(1, block=flat(44))
    for inc, value in ((9, 188), (4, 111)):
        c.raw(GOOD[INC][inc])
        c.macroblock(17, block=flat(value))
    c.slice(2)
    c.macroblock(1, 2)
    c.picture(1)
    c.slice(2)
    c.raw(GOOD[INC][8] + '1' * 30)
    c.slice(1)
    c.macroblock(1)
@case('7.7_stuffing_escape', 768, 16)
def _(c):
    for codes, step in (((34, 34, 35, 5), 38), ((35, 34), 67), ((35, 35, 1), 67), ((34, 2), 2), ((35, 2), 35)):
        c.picture(1)
        c.slice(1)
        c.macroblock(1, block=flat(step))
        c.raw(''.join(GOOD[INC][x] for x in codes[:-1]))
        if step > 47:
            c.raw(GOOD[INC][codes[-1]])
        c.macroblock(1, codes[-1] if step < 48 else 1, block=flat(2 * step))
for zeros in (22, 23):
    @case('7.6_%d_zeros' % zeros, 96, 48)
    def _(c, zeros=zeros):
        none = len(BAD[INC][0] + BAD[TYPE[1]][0])
        c.picture(1)
        c.slice(1)
        c.macroblock(1, block=flat(33))
        for i in range((zeros - 2) // none):
            c.macroblock(0, BAD[INC][0], code=BAD[TYPE[1]][0])
        rest = '0' * ((zeros - 2) % none + 2) + '1'
        c.macroblock(1, min(n for n, code in GOOD[INC].items() if code.startswith(rest)), block=flat(99))
        c.slice(3)
        c.macroblock(1, 5, block=flat(120))
@case('7.4-7.12_slices', 64, 64)
def _(c):
    c.chance_picture(2)
    for kind, rows in ((1, (3, 1, 2)), (2, (2, 4, 1)), (3, (1, 3)), (1, (9, 1)), (2, (2, 2, 3))):
        c.picture(kind)
        for row in rows:
            c.slice(row, extra=[0xFF, 0, 0x81][:row - 1])
            c.macroblock(1, 1 + row % 2, block=flat(17 * row))
            if row < 5:
                c.macroblock({1: 17, 2: 26, 3: 30}[kind], q=5)
            if row == 4:
                c.macroblock(1, 2, block=flat(150))
for code in (0xB2, 0xB5, 0xB8, 0xB0, 0xAF):
    @case('7.3_code_%02X' % code)
    def _(c, code=code):
        for place in (0, 1):
            c.picture(1)
            for row in (1, 2):
                for _ in range(2 if row == 1 + place else 0):
                    c.start(code)
                    c.data(b'\x12\x34\x56\x78')
                c.slice(row)
                for i in range(3):
                    c.macroblock(1)
for seed, (w, h) in enumerate(((64, 48), (17, 33), (96, 80), (15, 31))):
    @case('7_chance_%d' % seed, w, h)
    def _(c):
        for kind in (2, 3, 3, 2, 3, 1, 3, 2):
            c.chance_picture(kind, (0, c.rnd.randint(1, 4)), (0, c.rnd.randint(1, 4)), per=c.rnd.choice((1, 2)))

# -- part 8, O, Q
for kind in (0, 4, 5, 6, 7):
    @case('8.4-8.6_type_%d' % kind, key=False)
    def _(c, kind=kind):
        for turn in range(3):
            c.picture(kind, delay=0x1234)
            c.data(b'\x2a\x55\x0f')
            c.chance_picture(1 + turn % 2)
        c.picture(3)
        c.slice(1)
        c.macroblock(1)
for name, fwd, bwd in (('forward', (1, 0), (0, 1)), ('backward', (1, 3), (1, 0))):
    for kind in (2, 3):
        @case('8.4-8.6_f0_%s_%d' % (name, kind))
        def _(c, kind=kind, fwd=fwd, bwd=bwd):
            c.chance_picture(2, (0, 4))
            c.chance_picture(3, (0, 2), (0, 3))
            c.picture(kind, fwd, bwd)
            c.data(b'\x11\x22\x33\x44')
            c.chance_picture(3)
@case('8.3_last_picture', tail=False)
def _(c):
    for kind in (2, 2, 3, 1):
        c.chance_picture(kind)
@case('8.5-7.2_roles', 32, 32, key=False)
def _(c):
    for kind in (3, 1, 3, 2, 3, 3, 2, 1, 2, 3):
        c.chance_picture(kind)
    c.tail((2, 3))

# the last picture has a hidden start code, so it is decoded although the stream ends in it
def last_picture(c, kind, more=()):
    c.chance_picture(2)
    c.picture(kind, (0, 2), (0, 2))
    c.slice(1, 6)
    c.macroblock(1, block=flat(40))
    c.increment(1)
    c.raw(GOOD[TYPE[kind]][1])
    c.vector = [[0, 0], [0, 0]]
    c.dc_value(0, 99)
    c.hidden_code()
    for k in range(1, 6):
        c.block(k, 1, c.chance_block(1))
    for flags in {1: (1, 17, 1, 17), 2: (10, 26, 8, 10), 3: (14, 30, 12, 14)}[kind]:
        c.macroblock(flags)
for kind in (1, 2, 3):
    case('8.8-8.11_exact_end_%d' % kind, tail=False, rate=kind)(lambda c, kind=kind: last_picture(c, kind))
    for cut in (1, 2, 4, 7, 10, 15, 21, 28):
        case('1.5-2.6_cut_%d_%02d' % (kind, cut), tail=False, cut=cut)(lambda c, kind=kind: last_picture(c, kind))
for code in range(16):
    @case('2.8-2.9-8.9_rate_aspect_%02d' % code, 16, 16, key=False, rate=code, aspect=code)
    def _(c):
        for i in range(4):
            c.fill(1, 1, 1, 8, flat(20 * i + 3))
@case('8.1_second_header', intra=DISTINCT[0])
def _(c):
    c.sequence(32, 48, 9, 8, None, DISTINCT[1])
    c.sequence(48, 32)
    c.start(0xB8)
    c.data(b'\x00\x08\x00\x40')
    c.chance_picture(2)
    c.chance_picture(1)
for name, tries in (('second', [(0, 48)]), ('third', [(48, 0), (0, 0)])):
    case('Q5-O.5_%s_try' % name, tries=tries)(lambda c: c.chance_picture(2))
@case('Q5-8.14_try_then_eight', 32, 16, key=False, tries=[(0, 7)])
def _(c):
    c.picture(1)
    c.slice(1)
    c.macroblock(1, block=flat(33))
    c.macroblock(1, block=lambda k: [c.dc[max(k - 3, 0)] + (200 if k == 5 else 3)])
case('Q5-Q4_try_then_four', 32, 16, tries=[(0, 7)], keep=140)(lambda c: None)
case('Q6_forty_nine', 784, 16, key=False)(lambda c: None)
case('Q6_forty_eight', 128, 96)(lambda c: None)
for bytes_behind in (135, 136):
    @case('Q4-H_%d_bytes' % bytes_behind, 16, 16, key=False, keep=bytes_behind + 4)
    def _(c):
        c.data(b'\xff' * 104)
        for i in range(4):
            c.picture(1, reference=0)
            c.raw('111')
    case('Q4-H_%d_bytes_loaded' % bytes_behind, 16, 16, key=False, keep=bytes_behind + 4, intra=DISTINCT[0], other=DISTINCT[1])(lambda c: None)
for w, h in ((1, 1), (17, 33), (15, 31), (16, 48), (33, 16)):
    @case('9.1-O.4_size_%dx%d' % (w, h), w, h)
    def _(c):
        c.chance_picture(2, (0, 2))
        c.chance_picture(3)
@case('9.3_colours', 128, 96, key=False)
def _(c):
    for i in range(6):
        c.fill(1, 1, 48, 8, lambda k: [{4: 37 * (48 * i + c.address) % 256, 5: (48 * i + c.address) % 256}.get(
            k, c.rnd.choice((0, 1, 15, 16, 17, 60, 128, 200, 235, 236, 254, 255)))])
for name, some in (('none', b''), ('no_code', bytes(range(1, 200))), ('last_four', b'\x55' * 9 + b'\x00\x00\x01\xb3'),
                   ('last_five', b'\x55' * 9 + b'\x00\x00\x01\xb3\x10')):
    case('Q3-1.10_%s' % name, raw=some)(None)
for name, some in (('four', b''), ('five', b'\x01')):
    @case('1.10-8.3_code_in_last_%s' % name, tail=False, after=some)
    def _(c):
        c.chance_picture(2)
        c.picture(1)
        c.start(0)

# -- 2.2 by look-up: every code of the two tables at each place in a byte, and every eight bits that begin one
def all_of(table, codes):
    return {(table, code, place) for code in codes for place in range(8)} | {(table, format(x, '08b')) for x in range(256)}

# a pair: its code, the bits behind the code, and its parts. A code of value 1 is '1' as the first of a block and '11' later; '10' ends a block.
PAIRS = [(BAD[COEFF][0], '0', (0, None)), *((GOOD[COEFF][0xFFFF], format(run, '06b'), (run, 3, 1)) for run in range(0, 64, 5))]
for value, code in GOOD[COEFF].items():
    PAIRS += [(code, bit, (value >> 8, (value & 255) * sign)) for bit, sign in (('0', 1), ('1', -1)) if value != 0xFFFF]
# pairs whose codes are left at their places, or else such that eight bits which are left begin there, or the bits `need`; then the end of the block. Gives
# the pairs, and the bits with which the next block is to begin
def chance_pairs(t, n, left, need):
    parts = []
    for _ in range(t.rnd.randint(1, 7)):
        fit = [('11' if code == '1' and n else code, bits, part) for code, bits, part in PAIRS if n + part[0] < 64]
        some = [] if need else [x for x in fit if (COEFF, x[0], t.n % 8) in left]
        if not some:
            need = need or t.rnd.choice(sorted(key[1] for key in left if len(key) == 2) or [''])
            some = [x for x in fit if (x[0] + x[1]).startswith(need) or need.startswith(x[0] + x[1])]
        if not some:
            break
        code, bits, part = t.rnd.choice(some)
        t.pair(*part, first=n == 0)
        parts, need, n = parts + [part], need[len(code + bits):], n + part[0] + 1
    t.code(COEFF, '10')
    return parts, need[2:] if need.startswith('10') else ''
# of eight blocks by chance that with the most that is left, for its length
def chance_codes(c, k, flags, left, need):
    best = 0, head(flags, 128) or [(0, 1)], ''
    for _ in range(8):
        t, parts = c.trial(), head(flags, c.rnd.randint(100, 150))
        for value in parts:
            t.dc_value(max(k - 3, 0), value)
        pairs, behind = chance_pairs(t, flags & 1, left, '' if flags & 1 else need)
        t.raw(behind)
        best = max(best, (len(t.looked_up() & left) / (t.n - c.n), parts + pairs, behind), key=lambda x: x[0])
    return best[1:]
@case('2.2-3.5_codes_at_places', 128, 96, key=False)
def _(c):
    wanted, need = all_of(COEFF, {'11', '10', *GOOD[COEFF].values(), *BAD[COEFF]}), ''
    def block(k, flags):
        nonlocal need
        parts, need = chance_codes(c, k, flags, wanted - c.looked_up(), need)
        return parts
    for kind, flags in ((1, 1), (2, 2)):
        c.picture(kind)
        c.slice(1, 6)
        while c.address < 46 and wanted - c.looked_up():
            c.macroblock(flags, pattern=63, block=lambda k: block(k, flags))
    assert wanted <= c.looked_up()
# a slice for each increment, at the place that so many bytes of the slice's header make. Each writes a macroblock over which no later slice writes
@case('2.2-7.7_increments_at_places', 768, 16, key=False)
def _(c):
    behind = [[bad, 35, 14 - i] for i, bad in enumerate(BAD[INC])] + [[35, 1], [35, 2], [34, 35, 3], [34, 34, 35, 4], [34, 35, 5]]
    for extra in range(8):
        c.picture(1)
        for i, codes in enumerate(behind + [[n] for n in range(1, 34)]):
            c.slice(1, extra=[129] * extra)
            for code in codes[:-1]:
                c.code(INC, GOOD[INC].get(code, code))
            c.macroblock(1, codes[-1], block=lambda k: [30 + (29 * i + 53 * extra) % 200 if k == 0 else 128])
    assert {key for key in all_of(INC, [*GOOD[INC].values(), *BAD[INC]]) if len(key) == 3} <= c.looked_up()
# a macroblock by chance behind an increment, whose first bits can be any; False where its vector meets question 9
def chance_macroblock(c, inc):
    pick, flags = c.rnd.choice, c.rnd.choice([0, *GOOD[TYPE[2]]])
    before = (0, 0) if c.first or inc > 1 else c.vector[0]
    to = [(x + pick((0, 0, 1, -1, 2, -2, pick(range(-16, 16)))) + 16) % 32 - 16 for x in before]
    def block(k):
        near = [c.dc[max(k - 3, 0)] + step for step in (0, 1, -3, 9, -20)]
        return head(flags, pick([x for x in near if 30 < x < 220])) + [(pick((0, 1)), pick((3, -2, 1, -1)))]
    c.macroblock(flags, inc, fwd=to, block=block, code=None if flags else BAD[TYPE[2]][0])
    return 'past' not in c.ways(c.vector[0])
# two of them that begin with these eight bits
def chance_increment(c, inc, eight):
    for _ in range(2000):
        t = c.trial()
        if chance_macroblock(t, inc) and (t.n - c.n > 7 or chance_macroblock(t, c.rnd.choice((1, 2, 4)))) and t.address < 47 \
                and ''.join(t.text).startswith(eight):
            return t
@case('2.2-7.7_increments_of_eight_bits', 128, 96)
def _(c):
    left = [(n, eight) for n, code in GOOD[INC].items() for _, eight in sorted(all_of(INC, [])) if eight.startswith(code) and eight != code]
    wanted = {(INC, eight) for _, eight in left}
    while left:
        c.picture(2)
        c.slice(1, 9)
        for n, eight in sorted(left, reverse=True):
            t = c.address + n < 47 and chance_increment(c, n, eight)
            if t:
                c.take(t)
                left.remove((n, eight))
    assert wanted <= c.looked_up()

# -- 1.5, 2.2, 2.6: codes at the end of the stream, cut by so many bits; -1: one bit is left. The picture, of one macroblock, is decoded, since its header is
# followed by a picture start code that begins before the place from which the first slice is looked for. It is over with its one slice, so the record keeps
# the place to the bit. The bytes of the slice's header put the end of the bits at the end of a byte.
def last_slice(c, kind, row, bits, cut):
    c.data(b'\xff' * (124 - c.n // 8))
    c.picture(kind, (0, 2), delay=0x5A40)
    c.data(b'\x00\x01\x00')
    c.slice(row, 9, extra=[0xA5] * ((cut - 6 - len(bits)) % 8))
    c.raw((bits + '1')[:len(bits) - cut])
def end_cases(name, kind, row, before, bits, cuts):
    for cut in cuts:
        case('2.2-2.6_end_%s_cut_%d' % (name, cut), 16, 16, tail=False)(lambda c, cut=cut: last_slice(c, kind, row, before + bits, cut))
def all_cuts(bits):
    return range(-1, min(len(bits), 8) + 1)
# increments in slice 3, whose addresses are all past the one macroblock, so that nothing more is read: codes of 1, 8, 10 and 11 bits and those without a value
# of 8, 10 and 11, cut; and all of up to eight bits as the last bits of the stream, where they are walked
for n, code in [*sorted(GOOD[INC].items()), *((code, code) for code in BAD[INC])]:
    cut = n in (1, 10, 16, 33, *BAD[INC][2:])
    if cut or n in (34, 35) or len(code) < 9 or code in BAD[INC]:
        end_cases('increment_%s' % n, 1, 3, '', code, all_cuts(code) if cut else [0])
# coefficients in the last block: codes of 2, 8, 9, 11 and 17 bits with their sign, cut; and all of up to eight bits without it as the last bits of the stream
LAST = '1' + GOOD[TYPE[2]][2] + GOOD[PATTERN][1]
for value, code in sorted(GOOD[COEFF].items()):
    cut = value in (1, 4, 5, 7, 7937)
    if cut or len(code) < 9:
        end_cases('coefficient_%d' % value, 2, 1, LAST, code + '1', all_cuts(code + '1') if cut else [0, 1] if value == 0xFFFF else [1])
for x in range(4):
    end_cases('eight_bits_%d' % x, 2, 1, LAST, format(x, '08b'), [0])
end_cases('later_1', 2, 1, LAST + '10', '111', all_cuts('111'))
end_cases('end_of_block', 2, 1, LAST + '10', '10', all_cuts('10'))
# a byte of extra information that is cut: it is not passed over, and its first two bits are the next flag and an increment
@case('1.6-7.5_extra_cut', 16, 16, key=False, tail=False)
def _(c):
    c.data(b'\xff' * (124 - c.n // 8))
    c.picture(1, (0, 2), delay=0x5A40)
    c.data(b'\x00\x01\x00')
    c.start(3)
    c.put(9, 5)
    c.raw('101')

# ---- writing
def make(name, w, h, key, tail, more, function):
    c = Writer(zlib.crc32(name.encode()))
    cut, keep, after, raw, tries = (more.pop(k, d) for k, d in (('cut', 0), ('keep', None), ('after', b''), ('raw', None), ('tries', [])))
    if raw is not None:
        return raw
    if tries:
        c.start(0xB3)
    for width, height in tries:
        c.put(width << 12 | height, 24)
    c.sequence(w, h, code=not tries, **more)
    if key:
        c.chance_picture(1, per=c.down)
    function(c)
    if tail:
        c.tail()
    out = c.bytes()
    return out[:len(out) - cut][:keep] + after

def number(n):
    return n.to_bytes(4, 'big')

def main():
    out = [number(0), number(len(CASES))]
    for name, w, h, key, tail, more, function in CASES:
        stream = make(name, w, h, key, tail, dict(more), function)
        assert len(stream) <= 65536
        out += [number(len(name)), name.encode(), number(len(stream)), stream]
    with open(sys.argv[2], 'wb') as f:
        f.write(b''.join(out))
    print(len(CASES), 'streams,', sum(map(len, out)), 'bytes')

main()
