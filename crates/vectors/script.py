"""The script that `vectors` plays on slot 0, and what it must print and fold for it, by the model in session.py.

A line of the script is four bytes and what the call is made with: which call, a number, and the length behind them, high
byte first. Calls: 1 attach, 2 command, 3 event of the number's kind, 4 collect into an output of as many bytes as the two
behind it say, 5 remove, 6 open with eight shares and eight ceilings, 7 the number's holder appends a piece, 8 it releases
its cells; 0 prints the figure for the calls since the last 0, and a name. With 128 added a call is folded and not printed.
"""
from contextlib import contextmanager
from functools import reduce

from reading import framed
from session import BUSY, DONE, EMPTY, ENDED, GREETING, READY, Answer, Slot

CALLS = ["", "attach", "command", "event", "collect", "remove", "open", "append", "release"]
ATTACH, COMMAND, EVENT, COLLECT, REMOVE, OPEN, APPEND, RELEASE = range(1, 9)
ROOM = 600

CARD_32 = bytes.fromhex("3B E0 00 00 81 31 20 45 35")  # P1
CARD_254 = bytes.fromhex("3B F0 13 00 00 91 01 31 FE 45 F9")  # P4
CARD_16 = bytes.fromhex("3B E0 00 00 81 31 10 05 45")  # BWT 971
SELECT = bytes.fromhex("00 A4 04 00")
FINE = b"\x90\x00"


def folded(d, v):
    return (d * 31 + v) % 65521


def I(number, inf, more=False):  # noqa: E743
    return bytes(framed(number << 6 | more << 5, list(inf)))


def R(number, nibble=0):
    return bytes(framed(0x80 | number << 4 | nibble, []))


def S(pcb, *inf):
    return bytes(framed(pcb, list(inf)))


def counting(n, v=1):
    return bytes((v + j) % 256 for j in range(n))


def long_command(length, n):
    """A command of so many bytes with L = n."""
    return (bytes.fromhex("00 D6 00 00") + bytes([n]) + counting(257))[:length]


class Script:
    """Writes the script, plays it on the model, and says what is printed."""

    def __init__(self):
        self.bytes, self.printed, self.slot = bytearray(), ["sessions"], Slot()
        self.figure, self.loud, self.calls, self.endings = 0, True, 0, set()

    def line(self, op, a=0, bs=b""):
        self.bytes += bytes([op, a, len(bs) // 256, len(bs) % 256]) + bytes(bs)

    def name(self, text):
        """The figure of the run that ends, and the name of the next."""
        self.line(0, 0, text.encode())
        self.printed += [f"figure {self.figure}", text]
        self.figure = 0

    def call(self, op, a=0, bs=b""):
        self.line(op + (0 if self.loud else 128), a, bs)
        self.calls += 1
        answer = self.answered(op, a, bs)
        self.endings.add(answer.ending)
        pool = self.slot.pool
        # a refusal's other fields are 0, and the slot stays as it was: its state is shown in any case
        assert answer.number or answer.state == self.slot.state
        numbers = [answer.number, self.slot.state, answer.ending, answer.sent, len(answer.written), answer.wait]
        numbers += [pool.held(0), pool.free(), 3 * pool.sound()]
        for n in numbers:
            self.figure = folded(folded(self.figure, n // 65536 % 65536), n % 65536)
        out = answer.written + b"\xaa" * (ROOM - len(answer.written))
        self.figure = folded(self.figure, reduce(folded, out, 0))
        if self.loud:
            shown = "".join(f" {b:02x}" for b in answer.written)
            self.printed.append(f"{CALLS[op]:8}" + "".join(f" {n}" for n in numbers) + ":" + shown)
        return answer

    def answered(self, op, a, bs):
        slot = self.slot
        if op == APPEND:
            slot.pool.append(a, bs)
            return Answer(state=slot.state)
        if op == RELEASE:
            slot.pool.release(a)
            return Answer(state=slot.state)
        if op == OPEN:
            return slot.open(list(bs[:8]), list(bs[8:]))
        if op == EVENT:
            return slot.event(a, bs)
        if op == COLLECT:
            return slot.collect(bs[0] * 256 + bs[1])
        return slot.remove() if op == REMOVE else (slot.attach if op == ATTACH else slot.command)(bs)

    @contextmanager
    def quiet(self):
        """Calls that are folded and not printed."""
        self.loud = False
        yield
        self.loud = True

    def play(self):
        for run in RUNS:
            run(self)
        self.name("all played")

    # the calls by name
    def open(self, shares=(12,) * 8, ceilings=(96,) * 8):
        return self.call(OPEN, 0, bytes(shares) + bytes(ceilings))

    def attach(self, atr):
        return self.call(ATTACH, 0, atr)

    def command(self, bs):
        return self.call(COMMAND, 0, bs)

    def receive(self, block):
        return self.call(EVENT, 0, block)

    def parity(self, block=b""):
        return self.call(EVENT, 1, block)

    def silence(self):
        return self.call(EVENT, 2)

    def collect(self, room):
        return self.call(COLLECT, 0, bytes([room // 256, room % 256]))

    def remove(self):
        return self.call(REMOVE)

    # what a run often starts or goes on with
    def ready(self, atr=CARD_32):
        self.attach(atr)
        return self.receive(S(0xE1, 0xFE))

    def run(self, name, atr=CARD_32):
        """A fresh pool and a card that is ready, not printed."""
        self.name(name)
        with self.quiet():
            self.open()
            self.ready(atr)

    def acknowledged(self):
        """The card takes each I-block of a chain."""
        while self.slot.standing[1] & 0b10100000 == 0b00100000:
            self.receive(R(1 - self.slot.s))

    def answered_fine(self, response=FINE):
        """The card takes the command and answers in one block; collected into an output that fits."""
        self.acknowledged()
        self.receive(I(self.slot.r, response))
        return self.collect(len(self.slot.pool.response(0)))


def sends(answer, printed):
    """The answer sends the block that the paper prints."""
    assert answer.written == bytes.fromhex(printed), printed


def paper(x):
    x.name("P7")
    x.open()
    sends(x.attach(CARD_32), "00 C1 01 FE 3E")
    assert x.receive(bytes.fromhex("00 E1 01 FE 1E")).state == READY
    x.run("P8")
    sends(x.command(SELECT), "00 00 04 00 A4 04 00 A4")
    x.receive(bytes.fromhex("00 00 02 90 00 92"))
    assert x.collect(2).written == FINE
    x.run("P9, parity fault")
    x.command(SELECT)
    sends(x.parity(bytes.fromhex("00 00 02 90 00 92")), "00 81 00 81")
    x.answered_fine()
    x.run("P9, silence")
    x.command(SELECT)
    sends(x.silence(), "00 82 00 82")
    x.answered_fine()
    x.run("P10")
    x.command(SELECT)
    answer = x.receive(bytes.fromhex("00 C3 01 03 C1"))
    sends(answer, "00 E3 01 03 E1")
    assert answer.wait == 3 * 15371
    x.answered_fine()


def forms(x):
    x.run("command forms", CARD_254)
    for length, n, taken in (
        (0, 0, False),
        (3, 0, False),
        (4, 0, True),
        (5, 0, True),
        (5, 255, True),
        (6, 0, False),
        (6, 1, True),
        (7, 1, True),
        (8, 1, False),
        (6, 2, False),
        (259, 255, False),
        (260, 255, True),
        (261, 255, True),
        (262, 255, False),
        (261, 254, False),
    ):
        answer = x.command(long_command(length, n))
        assert answer.number == (0 if taken else 7)
        if taken:
            x.answered_fine()
    x.run("17 I-blocks", CARD_16)
    x.command(long_command(261, 255))
    x.acknowledged()
    assert x.slot.sent == 17
    x.answered_fine()
    x.run("s and r over three commands")
    for more, command in ((2, SELECT), (1, long_command(75, 70)), (0, long_command(46, 40))):
        x.command(command)
        x.acknowledged()
        for k in range(more):
            x.receive(I(x.slot.r, [k], more=True))
        x.answered_fine()
    # six I-blocks each way: 1 + 3 + 2 and 3 + 2 + 1
    assert (x.slot.s, x.slot.r) == (1, 0)


def requests(x):
    """The 255th request is answered, and the 256th ends; the next command counts anew."""
    for name, last in (("255 requests", 255), ("256 requests", 256)):
        x.run(name)
        for _ in range(2 if last == 255 else 1):
            x.command(long_command(45, 40))
            for n in range(1, last + 1):
                x.loud = n < 4 or n > 253
                if n % 3:
                    answer = x.receive(S(0xC3, n % 256 or 1))
                else:
                    answer = x.receive(S(0xC1, 0x10 + n % 239))
            if last == 255:
                x.answered_fine()
        assert answer.ending == (0 if last == 255 else 24)
    x.run("WTX with 255")
    x.command(SELECT)
    assert x.receive(S(0xC3, 255)).wait == 255 * 15371
    # the wait is 1 x BWT for all that follows
    x.silence()
    x.receive(S(0xC1, 0x10))
    x.answered_fine()


def plain(x):
    x.command(SELECT)


def standing_r(x):
    x.command(SELECT)
    x.receive(I(x.slot.r, [1, 2, 3], more=True))


def goes(x):
    """Three goes pass, and the fourth ends."""
    x.name("goes while greeting")
    x.open()
    for last in (S(0xE1, 0xFE), b""):
        x.attach(CARD_32)
        x.receive(S(0xE1, 0xFD))
        x.parity()
        x.receive(last)
        x.remove()
    x.name("invalid while greeting")
    for event in (S(0xC1, 0xFE), S(0xC3, 1), I(0, [1]), R(0), R(1, 1), S(0xE1, 0x10), S(0xC2, 1)):
        with x.quiet():
            x.attach(CARD_32)
        x.receive(event)
        with x.quiet():
            x.remove()
    for name, start, faults in (
        ("an I-block that the card asks for", plain, [(0, R(0)), (0, R(0, 1)), (0, R(0, 2))]),
        ("an R for EDC", plain, [(1, b""), (2, b""), (0, b"\0\0\1\1\1")]),
        ("an R for other", plain, [(2, b""), (1, b""), (0, b"\0\0\0\0")]),
        ("an R and the I-block in turn", plain, [(2, b""), (0, R(0)), (1, b"")]),
        ("an I-block and an R in turn", plain, [(0, R(0)), (1, b""), (0, R(0))]),
        ("a standing R", standing_r, [(1, b""), (2, b""), (0, I(0, [1, 2, 3], more=True))]),
        ("a standing R that the card asks for", standing_r, [(0, R(1)), (0, R(1, 1)), (0, R(1, 2))]),
    ):
        x.run(f"third go, {name}")
        start(x)
        for kind, bs in faults[:2]:
            assert x.call(EVENT, kind, bs).state == BUSY
        x.answered_fine()
        x.run(f"fourth go, {name}")
        start(x)
        for kind, bs in faults:
            answer = x.call(EVENT, kind, bs)
        assert answer.ending == 21
    x.run("goes start again with each next block")
    x.command(long_command(45, 40))
    for _ in range(2):
        x.parity()
    x.receive(S(0xC3, 2))
    for _ in range(2):
        x.silence()
    x.receive(R(1))
    for _ in range(2):
        x.parity()
    x.receive(I(0, [1], more=True))
    for _ in range(2):
        x.silence()
    x.receive(S(0xC1, 0x20))
    for _ in range(3):
        x.parity()


def chains(x):
    x.run("IFSC changed in the midst of a chain", CARD_16)
    first = x.command(long_command(105, 100)).written
    second = x.receive(R(1)).written
    x.receive(S(0xC1, 0x30))
    assert x.receive(R(1)).written == second != first
    x.receive(S(0xC1, 0xFE))
    x.parity()
    assert x.receive(R(1)).written == second
    x.receive(S(0xC1, 0x11))
    assert len(x.receive(R(0)).written) == 4 + 0x11
    x.receive(S(0xC1, 0x40))
    assert len(x.receive(R(1)).written) == 4 + 105 - 16 - 16 - 17
    x.answered_fine()
    # IFSC stays for the next command
    longer = x.command(long_command(105, 100)).written
    assert len(longer) == 4 + 0x40
    x.receive(S(0xC1, 0x10))
    assert x.receive(R(x.slot.s)).written == longer
    x.answered_fine()
    x.run("the card repeats an I-block after our R was lost")
    standing_r(x)
    for _ in range(2):
        x.receive(I(0, [1, 2, 3], more=True))
    x.receive(I(1, [4, 5], more=True))
    x.receive(I(1, [4, 5], more=True))
    x.receive(I(0, FINE))
    assert x.collect(7).written == bytes([1, 2, 3, 4, 5]) + FINE
    x.run("a chained response")
    x.command(SELECT)
    for k in range(4):
        x.receive(I(k % 2, counting(k + 1, 16 * k), more=True))
    x.receive(I(0, counting(254, 7), more=True))
    x.receive(I(1, FINE))
    x.collect(ROOM)
    for name, blocks in (
        ("a response of one byte", [(b"\x90", False)]),
        ("a response of two bytes", [(FINE, False)]),
        ("a response of two bytes in two blocks", [(b"\x90", True), (b"\x00", False)]),
    ):
        x.run(name)
        x.command(SELECT)
        for k, (inf, more) in enumerate(blocks):
            answer = x.receive(I(k, inf, more))
        assert answer.ending == (23 if len(blocks) == 1 and len(inf) == 1 else 0)
        x.collect(2)
        x.remove()
    x.run("collect into outputs of 4, 5 and 6 bytes")
    for room in (5, 6):
        x.command(SELECT)
        x.receive(I(x.slot.r, [1, 2, 3, 0x90, 0x00]))
        assert x.collect(4).number == 5
        x.collect(room)


def no_rows(x):
    """Blocks that read well and that no row takes, and aborts."""
    x.name("abort while greeting")
    x.open()
    x.attach(CARD_32)
    assert x.receive(S(0xC2)).ending == 22
    for name, command, block in (
        ("abort while busy", SELECT, S(0xC2)),
        ("abort in the midst of a chain", long_command(45, 40), S(0xC2)),
        ("S(IFS response) while busy", SELECT, S(0xE1, 0xFE)),
        ("I-block in the midst of a chain", long_command(45, 40), I(0, FINE)),
        ("I-block with the other number", SELECT, I(1, FINE)),
        ("R with the other number behind the last I-block", SELECT, R(1)),
        ("R with the other number and nibble 1", SELECT, R(1, 1)),
        ("R with the other number and nibble 2 in the midst of a chain", long_command(45, 40), R(1, 2)),
        ("R with nibble 1 in the midst of a chain", long_command(45, 40), R(1, 1)),
        ("empty I-block", SELECT, I(0, [])),
        ("NAD 21", SELECT, bytes([0x21, 0, 2, 0x90, 0, 0xB3])),
        ("I-block of 254 bytes", SELECT, I(0, counting(254))),
        ("I-block of 255 bytes", SELECT, I(0, counting(255))),
    ):
        x.run(name)
        x.command(command)
        x.receive(block)
    x.run("abort behind a standing R")
    standing_r(x)
    assert x.receive(S(0xC2)).ending == 22
    x.remove()
    x.run("a standing R asked for behind an S-response, and an R that no row takes")
    standing_r(x)
    x.receive(S(0xC3, 1))
    sends(x.receive(R(1)), "00 90 00 90")
    x.receive(S(0xC1, 0x10))
    sends(x.receive(R(0)), "00 92 00 92")
    sends(x.receive(R(1)), "00 90 00 90")
    x.answered_fine()
    x.run("behind a standing R: R numbered s, I numbered 1 - r")
    standing_r(x)
    x.receive(R(0))
    x.receive(I(0, FINE))
    x.receive(I(1, FINE))
    x.collect(5)


def no_cell(x):
    """Ending 20: between share and ceiling, at the ceiling, and with no share while the others have theirs."""
    for name, shares, ceilings, others, pieces in (
        ("no cell at P11's limits", [10] * 8, [96] + [10] * 7, {}, 27),
        ("no cell at the ceiling", [2] * 8, [3] * 8, {}, 4),
        ("no cell, all free ones lacking to others", [0] + [13] * 7, [96] * 8, {1: 13, 2: 13}, 6),
        ("no first cell", [0] + [13] * 7, [96] * 8, {1: 18}, 1),
        ("no cell with a ceiling of 0", [0] * 8, [0] + [96] * 7, {}, 1),
    ):
        x.name(name)
        x.open(shares, ceilings)
        with x.quiet():
            for holder, n in others.items():
                for _ in range(n):
                    x.call(APPEND, holder, b"\x11")
        x.ready()
        x.command(SELECT)
        for k in range(pieces):
            x.loud = k < 2 or k > pieces - 4
            # a last block of one byte that gets no cell ends with 20 too
            answer = x.receive(I(k % 2, [k], more=k < pieces - 1))
        assert answer.ending == 20 and x.slot.pool.held(0) == 0
        x.remove()


def refusals(x):
    """Each call in each state that does not suit it, and the other numbers."""
    onward = {
        EMPTY: [(ATTACH, CARD_32)],
        GREETING: [(EVENT, S(0xE1, 0xFE))],
        READY: [(COMMAND, SELECT)],
        BUSY: [(EVENT, I(0, FINE))],
        DONE: [(COLLECT, b"\0\2"), (COMMAND, SELECT), (EVENT, S(0xC2))],
        ENDED: [],
    }
    x.name("wrong states")
    x.open()
    for state in (EMPTY, GREETING, READY, BUSY, DONE, ENDED):
        assert x.slot.state == state
        if state != EMPTY:
            x.attach(CARD_32)
            x.attach(b"\x3C")
        if state != READY:
            x.command(SELECT)
            x.command(b"")
        if state not in (GREETING, BUSY):
            x.receive(I(0, FINE))
            x.call(EVENT, 3, b"")
        if state != DONE:
            x.collect(ROOM)
            x.collect(0)
        if state == EMPTY:
            x.remove()
        with x.quiet():
            for op, bs in onward[state]:
                x.call(op, 0, bs)
    x.remove()
    x.name("remove from each state")
    x.open()
    for state in (GREETING, READY, BUSY, DONE, ENDED):
        with x.quiet():
            while x.slot.state != state:
                for op, bs in onward[x.slot.state]:
                    x.call(op, 0, bs)
        x.remove()
    x.name("kinds")
    x.open()
    x.attach(CARD_32)
    for kind in (3, 255):
        x.call(EVENT, kind, S(0xE1, 0xFE))
    x.receive(S(0xE1, 0xFE))
    x.command(SELECT)
    for kind in (3, 255):
        x.call(EVENT, kind, I(0, FINE))
    x.name("ATRs")
    for atr in (
        "3C",
        "",
        "3B E0 00 00 81 31 20 45",
        "3B E0 00 00 81 31 20 45 36",
        "3B 00",
        "3B E0 00 01 81 31 20 40 31",
        "3B E0 00 FF 81 31 20 40 CF",
    ):
        x.remove()
        x.attach(bytes.fromhex(atr))
    x.receive(S(0xE1, 0xFE))
    assert x.command(SELECT).wait == 960 * 16 + 11
    x.name("open again")
    x.open([13] + [12] * 7)
    x.open([3] * 8, [2] * 8)
    x.open([12] * 8, [97] * 8)
    x.receive(I(0, FINE, more=True))
    x.open()


class Dice:
    """Numbers by a counter of 64 bits, the same on every machine."""

    def __init__(self, x):
        self.x = x

    def below(self, n):
        self.x = (self.x * 6364136223846793005 + 1442695040888963407) % 2**64
        return (self.x >> 33) % n

    def one_in(self, n):
        return self.below(n) == 0

    def of(self, things):
        return things[self.below(len(things))]

    def bytes(self, n):
        return bytes(self.below(256) for _ in range(n))


class Card:
    """A card that says what it should. It keeps the number of its last I-block and of our next one, what is left of its
    response, what it heard last and what it said."""

    def __init__(self, dice):
        self.dice, self.number, self.due, self.pieces = dice, 1, 0, []
        self.heard, self.said = b"", S(0xE1, 0xFE)

    def response(self):
        dice = self.dice
        pieces = dice.of([1, 1, 2, 2, 3, 4, 6, dice.of([9, 30])])
        return [dice.bytes(dice.of([1, 1, 2, 2, 3, 5, 8, 13, dice.of([21, 60, 254])])) for _ in range(pieces)]

    def next_i(self):
        self.number = 1 - self.number
        inf = self.pieces.pop(0)
        self.said = I(self.number, inf, more=bool(self.pieces))

    def says(self, block):
        """Its answer to a block of ours; to a block that it has had already, what it said."""
        pcb, known, self.heard = block[1], block == self.heard, block
        if pcb & 0b10000000 == 0 and not known:
            self.due = 1 - (pcb >> 6 & 1)
            if pcb & 0b00100000:
                self.said = R(self.due)
            else:
                self.pieces = self.response()
                self.next_i()
        elif pcb in (0x80, 0x90) and self.pieces and pcb >> 4 & 1 != self.number:
            self.next_i()
        return self.said


def spoilt(dice, block, before):
    """What may come in place of a block: (kind, bytes)."""
    n = dice.below(20)
    if n < 3:
        return 1, block
    if n < 6:
        return 2, b""
    if n < 9:
        at = dice.below(len(block))
        return 0, block[:at] + bytes([block[at] ^ 1 << dice.below(8)]) + block[at + 1 :]
    if n < 11:
        return 0, before
    if n < 13:
        return 0, R(dice.below(2), dice.below(3))
    if n == 13:
        return 0, I(dice.below(2), dice.bytes(1 + dice.below(4)), more=dice.one_in(2))
    if n == 14:
        return 0, dice.bytes(dice.below(9))
    if n == 15:
        return 0, block[:-1]
    if n == 16:
        return 0, S(dice.of([0xC0, 0xC1, 0xC3, 0xE0, 0xE1, 0xE2, 0xE3]), dice.of([0x00, 0x0F, 0x10, 0xFE, 0xFF]))
    if n == 17:
        return 0, bytes(framed(dice.below(256), list(dice.bytes(dice.below(3)))))
    if n == 18 and dice.one_in(4):
        return 0, S(0xC2)
    return 0, block + dice.bytes(1)


def a_command(dice):
    n = dice.of([1, 2, 16, 30, 50, 70, dice.of([90, 90, 150, 255])])
    long = dice.bytes(4) + bytes([n]) + dice.bytes(n + dice.below(2))
    return dice.bytes(dice.below(9)) if dice.one_in(20) else dice.of([dice.bytes(4), dice.bytes(5), long, long])


CARDS = [CARD_32, CARD_254, CARD_16, CARD_16]
# 8, 9, 10, 11 and 12
REFUSED = [b"\x3C", CARD_32[:-1], CARD_32[:-1] + b"\0", b"\x3B\0", bytes.fromhex("3B E0 00 01 81 31 20 40 31")]
LIMITS = [
    ([12] * 8, [96] * 8),
    ([3] + [13] * 7, [5] + [20] * 7),
    ([0] + [13] * 7, [96] * 8),
    ([2, 90, 0, 0, 0, 0, 0, 0], [96] * 8),
    ([10] * 8, [96] + [10] * 7),
]


def others(x, dice):
    """Another holder appends a few pieces, or releases its cells."""
    holder = 1 + dice.below(7)
    if dice.one_in(4):
        x.call(RELEASE, holder)
    else:
        for _ in range(1 + dice.below(6)):
            x.call(APPEND, holder, dice.bytes(1 + dice.below(3)))


def anything(x, dice):
    """A call that need not suit the state."""
    op = dice.of([ATTACH, COMMAND, EVENT, EVENT, COLLECT, REMOVE])
    atr, room = dice.of([CARD_32, dice.bytes(3)]), dice.of([b"\0\0", b"\2\x58"])
    bs = {ATTACH: atr, COMMAND: dice.bytes(4), EVENT: R(0), COLLECT: room, REMOVE: b""}
    x.call(op, dice.below(5) if op == EVENT else 0, bs[op])


def session(x, dice):
    """A card from attach to remove, which says the wrong thing one time in so many."""
    card, trouble, asks = Card(dice), dice.of([2, 3, 4, 8, 100]), dice.of([3, 10, 100])
    before, commands = b"", 1 + dice.below(8)
    x.attach(dice.of(CARDS))
    while x.slot.state not in (EMPTY, ENDED):
        if dice.one_in(25):
            others(x, dice)
        if dice.one_in(50):
            anything(x, dice)
        elif x.slot.state == READY:
            commands -= 1
            if commands < 0:
                break
            x.command(a_command(dice))
        elif x.slot.state == DONE:
            answer = x.collect(min(max(len(x.slot.pool.response(0)) + dice.of([-1, 0, 0, 4]), 0), ROOM))
            if answer.number == 5 and dice.one_in(2):
                break
        elif x.slot.state == BUSY and dice.one_in(asks):
            x.receive(S(0xC3, 1 + dice.below(255)) if dice.one_in(2) else S(0xC1, dice.of([0x10, 0x10, 0x11, 0x20, 0xFE])))
        elif dice.one_in(2 * trouble):
            # our block is lost, and the card asks for the one that it expects
            x.receive(R(card.due, 1 + dice.below(2)))
        else:
            block = card.says(bytes(x.slot.last))
            x.call(EVENT, *(spoilt(dice, block, before) if dice.one_in(trouble) else (0, block)))
            before = block
    x.remove()
    if dice.one_in(4):
        x.attach(dice.of(REFUSED))


def random(x):
    """Sessions one behind the other, five times, each time in another pool."""
    x.endings = set()
    for seed, (shares, ceilings) in enumerate(LIMITS):
        dice, first = Dice(seed), x.calls
        x.name(f"cards, pool {seed}")
        with x.quiet():
            x.open(shares, ceilings)
            while x.calls < first + 500:
                session(x, dice)
    assert x.endings == {0, 20, 21, 22, 23}


RUNS = [paper, forms, requests, goes, chains, no_rows, no_cell, refusals, random]
