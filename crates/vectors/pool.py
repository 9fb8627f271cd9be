"""The pool by document 01's "Shares" and docs/LAYOUT.md, for expected.py.

Nothing here is taken from the Rattle side. `Pool` is the paper's pool: a holder is a list of (cell, bytes), the rule is the
paper's sentence, and bytes are made only when they are asked for. `Raw` is what docs/LAYOUT.md says the calls do to bytes
that may be no sound region.
"""
CELLS, CELL, HOLDERS = 96, 254, 8


class Pool:
    def __init__(self, shares, ceilings):
        self.shares, self.ceilings = list(shares), list(ceilings)
        self.pieces = [[] for _ in shares]
        self.memory = [bytearray(CELL) for _ in range(CELLS)]
        self.place, self.length = [0] * CELLS, [0] * CELLS
        self.lists = [[0] * CELLS for _ in shares]

    def held(self, i):
        return len(self.pieces[i]) if i < HOLDERS else 0

    def free(self):
        return CELLS - sum(map(len, self.pieces))

    def granted(self, i):
        if i >= HOLDERS:
            return False
        if self.held(i) < self.shares[i]:
            return True
        if self.held(i) >= self.ceilings[i]:
            return False
        return self.free() > sum(max(self.shares[j] - self.held(j), 0) for j in range(HOLDERS) if j != i)

    def append(self, i, piece):
        if not 1 <= len(piece) <= CELL or not self.granted(i):
            return False
        taken = {cell for own in self.pieces for cell, _ in own}
        cell = min(set(range(CELLS)) - taken)
        self.place[cell], self.length[cell] = self.held(i), len(piece)
        self.lists[i][self.held(i)] = cell
        self.memory[cell][: len(piece)] = piece
        self.pieces[i].append((cell, bytes(piece)))
        return True

    def release(self, i):
        if i < HOLDERS:
            self.pieces[i] = []

    def response(self, i):
        return b"".join(piece for _, piece in self.pieces[i]) if i < HOLDERS else b""

    def sound(self):
        return sound(self.region())

    def region(self):
        """The bytes of docs/LAYOUT.md."""
        owners = [255] * CELLS
        for i, own in enumerate(self.pieces):
            for cell, _ in own:
                owners[cell] = i
        head = self.shares + self.ceilings + [self.held(i) for i in range(HOLDERS)] + owners + self.place + self.length
        return bytes(head + sum(self.lists, [])) + b"".join(self.memory)


class Raw:
    def __init__(self, region):
        self.r = bytearray(region)

    def held(self, i):
        return self.r[16 + i] if i < HOLDERS else 0

    def free(self):
        return max(CELLS - sum(self.r[16:24]), 0)

    def granted(self, i):
        if i >= HOLDERS:
            return False
        share, ceiling, held = self.r[i], self.r[8 + i], self.r[16 + i]
        lacking = sum(max(self.r[j] - self.r[16 + j], 0) for j in range(HOLDERS) if j != i)
        return held < share or (held < ceiling and self.free() > lacking)

    def append(self, i, piece):
        unowned = [c for c in range(CELLS) if self.r[24 + c] == 255]
        if not 1 <= len(piece) <= CELL or not self.granted(i) or not unowned:
            return False
        cell, held = unowned[0], self.r[16 + i]
        self.r[1080 + CELL * cell : 1080 + CELL * cell + len(piece)] = piece
        self.r[24 + cell], self.r[120 + cell], self.r[216 + cell] = i, held, len(piece)
        self.r[312 + CELLS * i + held] = cell
        self.r[16 + i] = held + 1
        return True

    def listed(self, i):
        at = 312 + CELLS * i
        return list(self.r[at : at + self.held(i)])

    def release(self, i):
        if i < HOLDERS:
            for c in self.listed(i):
                self.r[24 + c] = 255
            self.r[16 + i] = 0

    def response(self, i):
        cells = [c for c in self.listed(i) if c < CELLS and self.r[216 + c] <= CELL] if i < HOLDERS else []
        return b"".join(bytes(self.r[1080 + CELL * c : 1080 + CELL * c + self.r[216 + c]]) for c in cells)

    def sound(self):
        return sound(bytes(self.r))

    def region(self):
        return bytes(self.r)


def opens(shares, ceilings):
    """What open asks: not refused with 2."""
    pairs = list(zip(shares, ceilings))
    return not (any(s > c for s, c in pairs) or any(c > 96 for c in ceilings) or sum(shares) > 96)


def sound(r):
    """docs/LAYOUT.md, "When a region is sound"."""
    if len(r) < 25464:
        return False
    shares, ceilings, held = r[0:8], r[8:16], r[16:24]
    owners, places, lengths = r[24:120], r[120:216], r[216:312]
    if not opens(shares, ceilings) or any(h > c for h, c in zip(held, ceilings)) or sum(held) > 96:
        return False
    free = 96 - sum(held)
    if free < sum(max(s - h, 0) for s, h in zip(shares, held)) or owners.count(255) != free:
        return False
    for i in range(8):
        row = r[312 + 96 * i : 312 + 96 * i + held[i]]
        for k, c in enumerate(row):
            if c >= 96 or owners[c] != i or places[c] != k or not 1 <= lengths[c] <= 254:
                return False
    return True
