#!/usr/bin/env python3
"""What `vectors` must print, worked out from document 01 ("Reading an ATR", "Reading a block", "A session", "Shares", P1 to
P12) and, for the pool's bytes, docs/LAYOUT.md.

Nothing here is taken from the Rattle side or from its output: what the paper prints stands as it prints it, and the
rest goes by a reading of the paper's sentences. docs/VECTORS.md says more.

    expected.py          what the program prints
    expected.py stdin    what it reads: the ATRs of atrs.txt, each behind its length in one byte, all behind their length in
                         two; and the script of the sessions (script.py)
"""
import sys
from functools import reduce
from pathlib import Path

sys.dont_write_bytecode = True
from pool import Pool, Raw, opens, sound  # noqa: E402
from reading import framed, read, report  # noqa: E402
from script import Script  # noqa: E402

LIST = Path(__file__).with_name("atrs.txt")

NAMES = ["I", "R", "IFS request", "IFS response", "abort", "WTX", "EDC", "other"]


# P1 to P6 with what the paper says of each
PAPER = [
    ("3B E0 00 00 81 31 20 45 35", ["IFSC 32", "distance 12", "CWT 43", "BWT 15371"]),
    ("3B E0 00 FF 81 31 20 40 CF", ["distance 11"]),
    ("3B E0 00 01 81 31 20 40 31", ["refused 12"]),
    ("3B F0 13 00 00 91 01 31 FE 45 F9", ["IFSC 254", " D 4 "]),
    ("", ["refused 9"]),
    ("3C", ["refused 8"]),
]


def attached(atr):
    """What an ATR is read as, in words."""
    told = report(atr)
    if isinstance(told, int):
        return f"refused {told}"
    return " ".join(f"{name} {n}" for name, n in told.items()).replace("offers D", "D")


def listed():
    """The ATRs of the list, without its remarks."""
    lines = (line.split("#")[0] for line in LIST.read_text().splitlines())
    return [list(bytes.fromhex(line)) for line in lines if line.strip()]


def card(atr):
    print(f"ATR{hexed(atr)}: {attached(atr)}")


def hexed(bs):
    return "".join(f" {b:02x}" for b in bs)


def sends(printed):
    """A block as the paper prints it."""
    print("sends" + hexed(bytes.fromhex(printed)))


def receives(kind, printed):
    name, detail, inf = read(kind, list(bytes.fromhex(printed)))
    print(f"receives{hexed(inf)}: {name}{detail}")


def paper():
    print("P1 to P6")
    for printed, words in PAPER:
        atr = list(bytes.fromhex(printed))
        assert all(word in attached(atr) for word in words), printed
        card(atr)
    print("P7")
    sends("00 C1 01 FE 3E")
    receives(0, "00 E1 01 FE 1E")
    print("P8")
    sends("00 00 04 00 A4 04 00 A4")
    receives(0, "00 00 02 90 00 92")
    print("P9")
    receives(1, "00 00 02 90 00 92")
    sends("00 81 00 81")
    receives(2, "")
    sends("00 82 00 82")
    print("P10")
    receives(0, "00 C3 01 03 C1")
    sends("00 E3 01 03 E1")


def limits():
    for n in (254, 255):
        name, detail, _ = read(0, framed(0x00, [0] * n))
        print(f"LEN {n:02x}: {name}{detail}")
    for n in (254, 255):
        print(f"built {4 + n if n <= 254 else 0}")
    for v in (0x0F, 0x10, 0xFE, 0xFF):
        name, detail, _ = read(0, framed(0xC1, [v]))
        print(f"IFS byte {v:02x}: {name}{detail}")


def every_pcb():
    print("every PCB as " + ", ".join(NAMES))
    for n in (0, 1, 2):
        for word, fault in (("right", 0), ("wrong", 1)):
            counts = dict.fromkeys(NAMES, 0)
            for pcb in range(256):
                block = framed(pcb, [0x20] * n)
                block[-1] ^= fault
                counts[read(0, block)[0]] += 1
            print(f"LEN {n}, LRC {word}:" + "".join(f" {counts[k]}" for k in NAMES))


def yes(flag):
    return "yes" if flag else "no"


def opening(pool_before, shares, ceilings):
    """The pool that is laid out, or the one before where open is refused."""
    pool = Pool(shares, ceilings) if opens(shares, ceilings) else pool_before
    whole = pool is not None and sound(pool.region())
    print(f"shares{hexed(shares)} ceilings{hexed(ceilings)}: opens {yes(opens(shares, ceilings))}, sound {yes(whole)}")
    return pool


def holding(pool, i):
    print(f" held {pool.held(i)} free {pool.free()} next {yes(pool.granted(i))}")


def counting(n, v):
    return bytes((v + j) % 256 for j in range(n))


def copied(response, out):
    fits = len(response) <= len(out)
    return fits, (response + out[len(response) :] if fits else out)


def copies(pool, i, n):
    fits, out = copied(pool.response(i), b"\xaa" * n)
    print(f"response {len(pool.response(i))}: copied {yes(fits)}{hexed(out)}")


def piece(pool, i, n, v):
    taken = pool.append(i, counting(n, v))
    print(f"piece of {n}: taken {yes(taken)}", end="")
    holding(pool, i)
    return taken


def eleven():
    print("P11")
    pool = opening(None, [10] * 8, [96] + [10] * 7)
    for n in range(1, 28):
        if n in (26, 27):
            # the paper's own figures
            assert (pool.free(), sum(10 - pool.held(j) for j in range(1, 8))) == (97 - n, 70)
        assert piece(pool, 0, n, n) == (n <= 26)
    for i, n in ((0, 350), (0, 351), (0, 360), (8, 350)):
        copies(pool, i, n)
    pool.release(0)
    print("released:", end="")
    holding(pool, 0)


def twelve():
    print("P12")
    pool = opening(None, [12] * 8, [96] * 8)
    for shares, ceilings in (
        ([13] + [12] * 7, [96] * 8),
        ([0] * 7 + [96], [0] * 7 + [96]),
        ([0] * 8, [0] * 7 + [97]),
        ([1] + [0] * 7, [0] + [96] * 7),
    ):
        pool = opening(pool, shares, ceilings)


def sizes():
    print("sizes")
    pool = opening(None, [12] * 8, [12] * 8)
    for v, n in enumerate((0, 1, 254, 255), 1):
        piece(pool, 7, n, v)


def folded(d, v):
    return (d * 31 + v) % 65521


def made(pool):
    """Appends and releases by a counter, holder 8 and pieces of 0 and 255 bytes among them."""
    x, d = 1, 0
    for _ in range(3000):
        x = (x * 1103 + 12345) % 65536
        i, answer = x // 16 % 9, 2
        if x // 256 % 64 == 0:
            pool.release(i)
        elif pool.append(i, counting(x // 16 % 256, x % 251)):
            answer = 1
        d = folded(d, answer + 3 * pool.sound() + pool.held(i) * 8 + pool.free() * 2048)
    print(f"answers {d} bytes {reduce(folded, pool.region(), 0)}")
    for i in range(9):
        _, out = copied(pool.response(i), b"\xaa" * 24400)
        print(f"holder {i}: length {len(pool.response(i))} response {reduce(folded, out, 0)}", end="")
        holding(pool, i)


def mixed():
    print("mixed")
    pool = opening(None, [4, 12, 20, 0, 10, 10, 10, 10], [10, 40, 96, 3, 10, 12, 50, 96])
    made(pool)
    return pool.region()


def damaged(region, v, whole):
    places = [a for a in range(1080) if sound(region[:a] + bytes([v if whole else region[a] ^ v]) + region[a + 1 :])]
    print(f"{'set to' if whole else 'changed by'} {v:02x}: sound at {reduce(folded, places, 0)}")


def scattered(x):
    region = bytearray()
    for _ in range(25464):
        x = (x * 1103 + 12345) % 65536
        region.append(x // 256)
    return region


def cells():
    eleven()
    twelve()
    sizes()
    region = mixed()
    for v, whole in ((1, False), (2, False), (128, False), (255, False), (0, True), (255, True)):
        damaged(region, v, whole)
    print("unsound")
    for x in (1, 77):
        pool = Raw(scattered(x))
        made(pool)
    print("lengths")
    zeros, fresh = "".join([" 00"] * 8), Pool([0] * 8, [0] * 8).region()
    # one byte too few: nothing is laid out; six too many: they stay
    for words, end in (("opens no, sound no", b"\xaa" * 3), ("opens yes, sound yes", fresh[25460:] + b"\xaa" * 6)):
        print(f"shares{zeros} ceilings{zeros}: {words}")
        print(hexed(end))


def given(played):
    """Standard input; the program reads 65,536 bytes at most."""
    cards = b"".join(bytes([len(a), *a]) for a in listed())
    whole = len(cards).to_bytes(2, "big") + cards + bytes(played.bytes)
    assert len(whole) <= 65536
    return whole


script = Script()
script.play()
if sys.argv[1:] == ["stdin"]:
    sys.stdout.buffer.write(given(script))
else:
    paper()
    limits()
    every_pcb()
    cells()
    print("the list")
    for a in listed():
        card(a)
    print("\n".join(script.printed))
