"""The code tables, taken from the reference's video.rs (first argument), and a writer of streams. Used by streams.py."""
import copy, random, re, sys

# ---- tables
SOURCE = open(sys.argv[1]).read()
GOOD, BAD = {}, {}  # table -> {value: code}; table -> [codes that have no value]

def load(name):
    text = re.search(r'const %s: [^=]*= &?\[(.*?)\];' % name, SOURCE, re.S).group(1)
    rows = [(int(a), int(b, 0)) for a, b in re.findall(r'\(\s*(-?\d+),\s*(-?(?:0x[0-9a-fA-F]+|\d+))\s*\)', text)]
    GOOD[name], BAD[name], todo = {}, [], [(0, '')]
    while todo:
        at, code = todo.pop()
        for bit in (0, 1):
            index, value = rows[at + bit]
            if index > 0:
                todo.append((index, code + str(bit)))
            elif index == 0:
                GOOD[name][value] = code + str(bit)
            else:
                BAD[name].append(code + str(bit))
    BAD[name].sort()

INC, PATTERN, MOTION, COEFF = 'MACROBLOCK_ADDRESS_INCREMENT', 'CODE_BLOCK_PATTERN', 'MOTION', 'DCT_COEFF'
TYPE = {1: 'MACROBLOCK_TYPE_INTRA', 2: 'MACROBLOCK_TYPE_PREDICTIVE', 3: 'MACROBLOCK_TYPE_B'}
SIZE = ('DCT_SIZE_LUMINANCE', 'DCT_SIZE_CHROMINANCE')
for table in (INC, PATTERN, MOTION, COEFF, *TYPE.values(), *SIZE):
    load(table)

# ---- the writer: bits, headers, slices, macroblocks, blocks. It keeps what the decoder keeps: address, vectors, DC predictors. `codes` are the codes of
# INC and COEFF, which the decoder looks up by eight bits: table, code and place of each.
class Writer:
    def __init__(self, seed):
        self.text, self.n, self.rnd, self.codes = [], 0, random.Random(seed), []

    def raw(self, bits):
        self.text.append(bits)
        self.n += len(bits)

    def code(self, table, bits):
        self.codes.append((table, bits, self.n))
        self.raw(bits)

    def put(self, value, width):
        self.raw(format(value, '0%db' % width) if width else '')

    def data(self, some):
        self.raw('0' * (-self.n % 8) + ''.join(format(b, '08b') for b in some))

    def start(self, code):
        self.data((0, 0, 1, code))

    def bytes(self):
        self.data(b'')
        text = ''.join(self.text)
        return bytes(int(text[i:i + 8], 2) for i in range(0, len(text), 8))

    # a writer that goes on behind this one, and what it has written taken over
    def trial(self):
        t = copy.copy(self)
        t.text, t.codes, t.dc, t.vector = [], [], list(self.dc), [list(v) for v in self.vector]
        return t

    def take(self, t):
        t.text, t.codes = self.text + t.text, self.codes + t.codes
        self.__dict__.update(t.__dict__)

    # what was looked up: table, code and place in a byte, and table and eight bits, of each code
    def looked_up(self):
        text = ''.join(self.text)
        start = self.n - len(text)
        eights = ((table, text[at - start:at - start + 8]) for table, _, at in self.codes)
        return {(table, code, at % 8) for table, code, at in self.codes} | {e for e in eights if len(e[1]) == 8}

    # O.3
    def sequence(self, w, h, aspect=1, rate=3, intra=None, other=None, code=True):
        if code:
            self.start(0xB3)
        for value, width in ((w, 12), (h, 12), (aspect, 4), (rate, 4), (0x2AAAAAAA, 30)):
            self.put(value, width)
        for matrix in (intra, other):
            self.put(int(matrix is not None), 1)
            self.raw(''.join(format(x, '08b') for x in matrix or []))
        self.across, self.down = (w + 15) // 16, (h + 15) // 16

    # 7.1; fwd and bwd are (full-pel, f code)
    def picture(self, kind, fwd=(0, 1), bwd=(0, 1), reference=0x155, delay=0x5A5A):
        self.start(0)
        self.put(reference << 19 | kind << 16 | delay, 29)
        self.kind, self.f = kind, (fwd, bwd)
        for full, f in self.f[:{2: 1, 3: 2}.get(kind, 0)]:
            self.put(full << 3 | f, 4)

    # 7.5
    def slice(self, row, q=8, extra=()):
        self.start(row)
        self.put(q, 5)
        for b in extra:
            self.put(0x100 + b, 9)
        self.put(0, 1)
        self.address, self.first = (row - 1) * self.across - 1, True
        self.dc, self.vector = [128] * 3, [[0, 0], [0, 0]]

    # 7.7; n may be the bits themselves of a code that counts as 0
    def increment(self, n):
        step = 0 if isinstance(n, str) else n
        for _ in range((step - 1) // 33 if step else 0):
            self.code(INC, GOOD[INC][35])
        self.code(INC, GOOD[INC][(step - 1) % 33 + 1] if step else n)
        if not self.first and step > 1:
            self.dc = [128] * 3
            if self.kind == 2:
                self.vector[0] = [0, 0]
        self.address += step if self.first else max(step, 1)
        self.first = False

    # 5.7: from the vector before to (h, v)
    def motion(self, direction, to):
        r = self.f[direction][1] - 1
        for axis in (0, 1):
            if isinstance(to[axis], str):
                self.raw(to[axis])
                continue
            step = (to[axis] - self.vector[direction][axis] + (16 << r)) % (32 << r) - (16 << r)
            size = abs(step) - 1
            self.raw(GOOD[MOTION][0 if step == 0 else ((size >> r) + 1) * (1 if step > 0 else -1)])
            self.put(size & ((1 << r) - 1), r if step else 0)
            self.vector[direction][axis] = to[axis]

    # 7.13 to 7.16; block(k) gives the parts of block k; without it they come by chance
    def macroblock(self, flags, inc=1, q=None, fwd=None, bwd=None, pattern=None, block=None, code=None):
        self.increment(inc)
        self.raw(code or GOOD[TYPE[self.kind]][flags])
        if flags & 16:
            self.put(self.rnd.randint(1, 31) if q is None else q, 5)
        if flags & 1:
            self.vector = [[0, 0], [0, 0]]
        else:
            self.dc = [128] * 3
            if flags & 8:
                self.motion(0, fwd or self.chance_vector(0))
            elif self.kind == 2:
                self.vector[0] = [0, 0]
            if flags & 4:
                self.motion(1, bwd or self.chance_vector(1))
        if flags & 2:
            pattern = self.rnd.randint(1, 63) if pattern is None else pattern
            self.raw(pattern if isinstance(pattern, str) else GOOD[PATTERN][pattern])
        else:
            pattern = 63 * (flags & 1)
        for k in range(6):
            if not isinstance(pattern, str) and pattern & (32 >> k):
                self.block(k, flags & 1, block(k) if block else self.chance_block(flags & 1))

    # parts: for an intra block first the DC value; then pairs (run, level) and bits as they are. '10' ends it, unless the last part is ''
    def block(self, k, intra, parts):
        for n, part in enumerate(parts):
            if isinstance(part, str):
                self.raw(part)
            elif n == 0 and intra:
                self.dc_value(max(k - 3, 0), part)
            else:
                self.pair(*part, first=n == 0)
        if parts[-1] != '':
            self.code(COEFF, '10')

    # 3.2
    def dc_value(self, plane, value):
        step = max(-255, min(255, value - self.dc[plane]))
        size = abs(step).bit_length()
        self.raw(GOOD[SIZE[plane > 0]][size])
        self.put(step if step >= 0 else step - 1 + (1 << size), size)
        self.dc[plane] += step

    # 3.5, 3.6; escape is 1 for an escape, 16 for one with two bytes of level; level None is the code without a value
    def pair(self, run, level, escape=0, first=False):
        if level is None:
            self.code(COEFF, BAD[COEFF][0])
            self.raw('0')
            return
        value = 256 * run + abs(level)
        if level and abs(level) < 256 and value in GOOD[COEFF] and not escape:
            self.code(COEFF, GOOD[COEFF][value] + ('1' if value == 1 and not first else ''))
            self.raw('1' if level < 0 else '0')
            return
        self.code(COEFF, GOOD[COEFF][0xFFFF])
        self.put(run, 6)
        if escape == 16 or not 0 < abs(level) < 128:
            self.put(0 if level >= 0 else 128, 8)
        self.put(level & 255, 8)

    # ---- by chance
    def chance_block(self, intra):
        pick, parts = self.rnd.choice, [self.rnd.randint(30, 220)] if intra else []
        n = len(parts)
        for _ in range(pick((0, 1, 1, 2, 3, 6)) if intra else pick((1, 1, 2, 3, 6))):
            run = pick((0, 0, 0, 1, 2, 4, 9)) if n else pick((0, 0, 1, 3))
            if n + run < 64:
                parts.append((run, pick((-1, 1)) * pick((1, 1, 2, 3, 5, 9, 17, 40))))
                n += run + 1
        return parts

    # a vector that question 9 admits, mostly one with samples to copy
    def chance_vector(self, direction):
        full, f = self.f[direction]
        while True:
            span = min(16 << (f - 1), self.rnd.choice((4, 12, 40, 2000)))
            to = (self.rnd.randint(-span, span - 1), self.rnd.randint(-span, span - 1))
            ways = self.ways(to, full)
            if 'past' not in ways and ('copied' in ways or self.rnd.random() < 0.1):
                return to

    # 6.4 to 6.6, 6.9: what a vector does in Y and in Cr, Cb
    def ways(self, to, full=0, address=None):
        (h, v), found = (x * (2 if full else 1) for x in to), []
        row, column = divmod(self.address if address is None else address, self.across)
        for b in (16, 8):
            h, v = (h, v) if b == 16 else (int(h / 2), int(v / 2))
            dw = self.across * b
            at, last = (b * row + (v >> 1)) * dw + b * column + (h >> 1), dw * (b * self.down - b + 1) - b
            found.append('alone' if not 0 <= at <= last else 'past' if at + dw * (v & 1) + (h & 1) > last else 'copied')
        return found

    def may_skip(self, n):
        at = range(self.address + 1, self.address + n)
        return self.kind == 2 or all('past' not in self.ways(self.vector[d], self.f[d][0], a) for a in at for d in (0, 1))

    # a picture; each slice has `per` rows
    def chance_picture(self, kind, fwd=(0, 1), bwd=(0, 1), per=1):
        self.picture(kind, fwd, bwd)
        for row in range(1, self.down + 1, per):
            self.slice(row, self.rnd.randint(2, 20))
            end = min(row + per - 1, self.down) * self.across - 1
            while self.address < end:
                inc = self.rnd.choice((1, 1, 1, 2, 3, 4))
                skips = not self.first and kind > 1 and self.address + inc <= end and self.may_skip(inc)
                self.macroblock(self.rnd.choice(list(GOOD[TYPE[kind]])), inc if skips else 1)

    # a picture of one slice, with n macroblocks alike
    def fill(self, kind, flags, n, scale, block=None, **more):
        self.picture(kind)
        self.slice(1, scale)
        for _ in range(n):
            self.macroblock(flags, block=block, **{'pattern': 63, **more})

    # headers without slices, so that all that was decoded is handed out (8.3, 8.5), and no fewer than 136 bytes (Q4)
    def tail(self, kinds=(1, 1)):
        for kind in kinds:
            self.picture(kind)
            self.raw('111')
        self.data(b'\xff' * max(4, 147 - self.n // 8))

    # coefficients whose bits have 00 00 01 00 at the beginning of a byte: a picture start code for 8.3, none for a macroblock
    def hidden_code(self):
        self.raw({(3 * a + 4 * b) % 8: '110' * a + '0110' * b for a in range(4) for b in range(4)}[-self.n % 8])
        self.raw(GOOD[COEFF][0xFFFF] + '0' * 22 + '0000000000010000' + '0' + '000110' + '0' + '10')
