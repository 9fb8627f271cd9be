"""Blocks and ATRs by document 01's "Reading a block" and "Reading an ATR", for expected.py and session.py.

Nothing here is taken from the Rattle side.
"""
from functools import reduce

I_CODES = [0x00, 0x20, 0x40, 0x60]
R_CODES = [0x80, 0x81, 0x82, 0x90, 0x91, 0x92]


def xor(bs):
    return reduce(lambda a, b: a ^ b, bs, 0)


def framed(pcb, inf):
    """NAD, PCB, LEN, INF, LRC; LRC makes the exclusive or of the whole block 0."""
    body = [0, pcb, len(inf)] + inf
    return body + [xor(body)]


def read(kind, block):
    """(name, detail, INF) of an event, its tests in the paper's order."""
    other, edc = ("other", "", []), ("EDC", "", [])
    if kind != 0:
        return edc if kind == 1 else other
    if len(block) < 4 or len(block) != 4 + block[2] or block[2] > 254:
        return other
    if xor(block) != 0:
        return edc
    if block[0] != 0:
        return other
    pcb, inf = block[1], block[3:-1]
    if pcb in I_CODES and 1 <= len(inf) <= 254:
        more = "more" if pcb & 0b00100000 else "last"
        return "I", f" {more} {pcb >> 6 & 1:02x}", inf
    if pcb in R_CODES and inf == []:
        return "R", f" {pcb >> 4 & 1:02x}", inf
    if pcb in (0xC1, 0xE1) and len(inf) == 1 and 0x10 <= inf[0] <= 0xFE:
        return ("IFS request" if pcb == 0xC1 else "IFS response"), f" {inf[0]:02x}", inf
    if pcb == 0xC2 and inf == []:
        return "abort", "", inf
    if pcb == 0xC3 and len(inf) == 1 and 0x01 <= inf[0] <= 0xFF:
        return "WTX", f" {inf[0]:02x}", inf
    return other


F = [372, 372, 558, 744, 1116, 1488, 1860, 0, 0, 512, 768, 1024, 1536, 2048, 0, 0]
D = [0, 1, 2, 4, 8, 16, 32, 64, 12, 20, 0, 0, 0, 0, 0, 0]


def walked(atr):
    """The interface bytes by name, whether TCK is there, and what lies behind the groups; None if the bytes end first."""
    named, number, rest = {}, 1, iter(atr[2:])
    announcer, tck = atr[1], False
    while announcer is not None:
        for letter, bit in zip("ABCD", (5, 6, 7, 8)):
            if announcer >> (bit - 1) & 1:
                value = next(rest, None)
                if value is None:
                    return None
                named[f"T{letter}{number}"] = value
        announcer = named.get(f"TD{number}")
        tck = tck or (announcer is not None and announcer % 16 != 0)
        number += 1
    return named, tck, list(rest)


def on_terms(get):
    """11 and 12, in the paper's order; else None."""
    ta1, tc1, td1, ta2, td2 = (get(n) for n in ("TA1", "TC1", "TD1", "TA2", "TD2"))
    ta3, tb3, tc3 = (get(n) for n in ("TA3", "TB3", "TC3"))
    if td1 is None or td1 & 15 != 1 or (td2 is not None and td2 & 15 != 1):
        return 11
    if ta2 is not None and (ta2 & 0b00010000 or ta2 & 15 != 1):
        return 11
    if None not in (ta1, ta2) and ta1 not in (0x11, 0x12, 0x13):
        return 12
    if ta3 is not None and (ta3 <= 0x0F or ta3 == 0xFF):
        return 12
    if tb3 is None or tb3 >> 4 > 4 or tb3 & 15 > 5 or 2 ** (tb3 & 15) < guard(tc1) + 1:
        return 12
    return 12 if tc3 not in (None, 0) else None


def guard(tc1):
    """N: TC1, absent 0, and -1 for FF."""
    return {None: 0, 0xFF: -1}.get(tc1, tc1)


def report(atr):
    """What attach reports, by name; or the number of the refusal."""
    if atr and atr[0] not in (0x3B, 0x3F):
        return 8
    walk = walked(atr) if len(atr) >= 2 else None
    if walk is None or len(atr) > 33 or len(walk[2]) != atr[1] % 16 + walk[1]:
        return 9
    named, tck, _ = walk
    if tck and xor(atr[1:]) != 0:
        return 10
    number = on_terms(named.get)
    if number:
        return number
    ta1, tb3 = named.get("TA1"), named["TB3"]
    f, d = (372, 1) if ta1 is None else (F[ta1 >> 4], D[ta1 & 15])
    return {
        "IFSC": named.get("TA3", 32),
        "distance": 12 + guard(named.get("TC1")),
        "CWT": 2 ** (tb3 & 15) + 11,
        "BWT": 960 * 2 ** (tb3 >> 4) + 11,
        "D": {0x11: 1, 0x12: 2, 0x13: 4}[ta1] if "TA1" in named and "TA2" in named else 1,
        "historical": atr[1] % 16,
        "offers F": f,
        "offers D": d,
    }
