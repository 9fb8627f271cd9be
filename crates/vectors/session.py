"""Slot 0 by document 01's "A session", over the pool of pool.py, for script.py.

Nothing here is taken from the Rattle side. A block is kept as the bytes that went out, so that "sent again as it was" is
literal, and a command as the bytes that are still to be sent.
"""
from typing import NamedTuple

from pool import Pool, opens
from reading import framed, read, report

EMPTY, GREETING, READY, BUSY, DONE, ENDED = range(6)
IFS_REQUEST = framed(0xC1, [0xFE])


class Answer(NamedTuple):
    number: int = 0
    state: int = 0
    ending: int = 0
    sent: int = 0
    wait: int = 0
    written: bytes = b""


def refused(number):
    return Answer(number=number)


def well_formed(bs):
    """4 bytes; or 5; or 5 + L or 6 + L bytes with L, the fifth byte, from 1 to 255."""
    if len(bs) in (4, 5):
        return True
    return len(bs) > 5 and 1 <= bs[4] <= 255 and len(bs) in (5 + bs[4], 6 + bs[4])


class Slot:
    def __init__(self):
        self.pool, self.state = None, EMPTY

    def open(self, shares, ceilings):
        if not opens(shares, ceilings):
            return refused(2)
        self.pool, self.state = Pool(shares, ceilings), EMPTY
        return Answer()

    def attach(self, atr):
        if self.state != EMPTY:
            return refused(4)
        told = report(list(atr))
        if isinstance(told, int):
            return refused(told)
        self.state, self.ifsc, self.bwt = GREETING, told["IFSC"], told["BWT"]
        # the first I-block has number 0, and each new one 1 - s
        self.s, self.r, self.sent = 1, 0, 0
        return self.new(IFS_REQUEST)

    def command(self, bs):
        if self.state != READY:
            return refused(4)
        if not well_formed(bs):
            return refused(7)
        self.state, self.left, self.requests, self.sent, self.events = BUSY, list(bs), 0, 0, 0
        return self.next_i()

    def event(self, kind, bs):
        if self.state not in (GREETING, BUSY):
            return refused(4)
        if kind > 2:
            return refused(6)
        name, _, inf = read(kind, list(bs))
        pcb = bs[1] if name not in ("EDC", "other") else None
        return self.greeting(name, inf) if self.state == GREETING else self.busy(name, pcb, inf)

    def collect(self, room):
        if self.state != DONE:
            return refused(4)
        response = self.pool.response(0)
        if room < len(response):
            return refused(5)
        self.pool.release(0)
        self.state = READY
        return Answer(state=READY, written=response)

    def remove(self):
        if self.state == EMPTY:
            return refused(4)
        self.pool.release(0)
        self.state = EMPTY
        return Answer()

    def greeting(self, name, inf):
        if name == "IFS response" and inf == [0xFE]:
            return self.rests(READY)
        return self.end(22) if name == "abort" else self.invalid(name)

    def busy(self, name, pcb, inf):
        """The table, row by row."""
        self.events += 1
        assert self.events <= 3 * (272 + self.pool.ceilings[0])
        is_i = self.standing[1] & 0b10000000 == 0
        more = is_i and self.standing[1] & 0b00100000 != 0
        if name == "I" and pcb >> 6 & 1 == self.r and not more:
            return self.take(inf, pcb & 0b00100000)
        if name == "R":
            number = pcb >> 4 & 1
            if more and number != self.s:
                return self.next_i()
            if is_i and number == self.s:
                return self.again(self.standing)
            if not is_i and number == 1 - self.s:
                return self.again(self.standing)
        if name in ("IFS request", "WTX"):
            return self.ask(name, inf[0])
        return self.end(22) if name == "abort" else self.invalid(name)

    def take(self, inf, more):
        if not self.pool.append(0, bytes(inf)):
            return self.end(20)
        self.r = 1 - self.r
        if more:
            self.standing = framed(0x80 | self.r << 4, [])
            return self.new(self.standing)
        return self.end(23) if len(self.pool.response(0)) == 1 else self.rests(DONE)

    def ask(self, name, n):
        self.requests += 1
        if self.requests == 256:
            return self.end(24)
        if name == "WTX":
            return self.new(framed(0xE3, [n]), n)
        self.ifsc = n
        return self.new(framed(0xE1, [n]))

    def next_i(self):
        n = min(self.ifsc, len(self.left))
        inf, self.left = self.left[:n], self.left[n:]
        self.s = 1 - self.s
        self.standing = framed(self.s << 6 | (0b00100000 if self.left else 0), inf)
        return self.new(self.standing)

    def invalid(self, name):
        if self.last[1] & 0b11000000 == 0b10000000 or self.last == IFS_REQUEST:
            return self.again(self.last)
        return self.again(framed(0x80 | self.r << 4 | (1 if name == "EDC" else 2), []))

    def new(self, block, times=1):
        """A block that starts at go 1."""
        self.go = 1
        return self.goes(block, times)

    def again(self, block):
        """A repeat, or an R in its place: one go more."""
        if self.go == 3:
            return self.end(21)
        self.go += 1
        return self.goes(block, 1)

    def goes(self, block, times):
        self.last = block
        self.sent += 1
        return Answer(state=self.state, sent=self.sent, wait=times * self.bwt, written=bytes(block))

    def rests(self, state):
        self.state = state
        return Answer(state=state, sent=self.sent)

    def end(self, ending):
        self.state = ENDED
        self.pool.release(0)
        return Answer(state=ENDED, ending=ending, sent=self.sent)
