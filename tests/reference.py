"""The line program once more, in Python, for the tests alone.

It is written from document 01 and shares nothing with the proved code: lines are told by a regular expression, dates are
counted by Python's datetime, decimal stamps are cut as strings and binary ones as bytes. Slow and plain.
"""

import datetime
import re

FIRST, LAST = -377_705_023_201, 253_402_207_200
EPOCH_1900, EPOCH_2050 = -2_208_988_800, 2_524_608_000
DAYS_IN_400_YEARS = 146_097
TICKS_IN_A_DAY = 25_920_000

NUMBER = rb"(-?[0-9]{1,19})"
DECODE = re.compile(b"d " + NUMBER + b" " + NUMBER)
ENCODE = re.compile(b"e " + NUMBER + b" " + NUMBER + b" " + NUMBER)


class Refused(Exception):
    pass


# ---- the calendar: datetime knows the years 1 to 9999, so a year is moved by whole cycles of 400 years

def seconds_of(year, month, day, hour, minute, second):
    if not -9999 <= year <= 9999:
        raise Refused(3)
    cycles = (year - 2000) // 400
    try:
        moment = datetime.datetime(year - 400 * cycles, month, day, hour, minute, second)
    except ValueError:
        raise Refused(3) from None
    since = moment - datetime.datetime(1970, 1, 1)
    seconds = since.days * 86_400 + since.seconds + cycles * DAYS_IN_400_YEARS * 86_400
    if not FIRST <= seconds <= LAST:
        raise Refused(3)
    return seconds


def fields_of(seconds):
    if not FIRST <= seconds <= LAST:
        raise Refused(6)
    cycles, rest = divmod(seconds, DAYS_IN_400_YEARS * 86_400)
    moment = datetime.datetime(1970, 1, 1) + datetime.timedelta(seconds=rest)
    return (moment.year + 400 * cycles, moment.month, moment.day, moment.hour, moment.minute, moment.second)


# ---- words as bits, as bytes and as decimal digits

def unsigned(word, bits):
    if not 0 <= word < 1 << bits:
        raise Refused(2)
    return word


def as_bytes(word, count):
    return unsigned(word, 8 * count).to_bytes(count, "big")


def as_digits(word):
    if not 0 <= word <= 999_999_999_999:
        raise Refused(2)
    return "%012d" % word


def cut(word, widths):
    """Fields of a word from its low end, each so many bits wide; what is left comes last."""
    parts = []
    for width in widths:
        parts.append(word & ((1 << width) - 1))
        word >>= width
    return parts + [word]


def swapped_pairs(digits):
    return "".join(digits[i + 1] + digits[i] for i in range(0, len(digits), 2))


def pairs(digits):
    return [int(digits[i:i + 2]) for i in range(0, len(digits), 2)]


def little(word, count):
    return int.from_bytes(word.to_bytes(count, "big"), "little")


# ---- decoding: civil fields of a word, by layout

def dos(word):
    half, minute, hour, day, month, year, _ = cut(unsigned(word, 32), (5, 6, 5, 5, 4, 7))
    return 1980 + year, month, day, hour, minute, 2 * half


def dttm(word):
    minute, hour, day, month, year, _ = cut(unsigned(word, 32), (6, 5, 5, 4, 9))
    return 1900 + year, month, day, hour, minute, 0


def with_year_on_top(word):
    minute, hour, day, month, year = cut(word, (6, 5, 5, 4))
    if year > 32_767:
        raise Refused(2)
    return year, month, day, hour, minute, 0


def bit_date(word):
    return with_year_on_top(little(unsigned(word, 32), 4))


def bit_dec(word):
    return with_year_on_top(unsigned(word, 63))


def bcd(word):
    year, *rest = pairs(as_digits(word))
    return 2000 + year, *rest


def semi_octet(word):
    year, *rest = pairs(swapped_pairs(as_digits(word)))
    return 2000 + year, *rest


def moto(word):
    year, *rest = as_bytes(word, 6)
    return 1970 + year, *rest


def symantec(word):
    year, month, *rest = as_bytes(word, 6)
    return 1970 + year, month + 1, *rest


def dvr(word):
    second, minute, hour, day, month, year, _ = cut(unsigned(word, 32), (6, 6, 5, 5, 4, 6))
    return 2000 + year, month, day, hour, minute, second


def ns40(word, order="big"):
    octets = as_bytes(word, 7)
    year = int.from_bytes(octets[:2], order)
    if year > 32_767:
        raise Refused(2)
    return year, *octets[2:]


def ns40_le(word):
    return ns40(word, "little")


def log_time(word):
    _, _, year, month, day, hour, minute, second = unsigned(word, 63).to_bytes(8, "little")
    return 1900 + year, month, day, hour, minute, second


def semi_octets(octets):
    values = [(octet & 15) * 10 + (octet >> 4) for octet in octets]
    return [value if value <= 127 else -1 for value in values]


def gsm(word):
    *octets, _ = as_bytes(word, 7)
    year, *rest = semi_octets(octets)
    return 2000 + year, *rest


CIVIL = {
    1: dos, 2: dos, 3: dttm, 4: bit_date, 5: bit_dec, 6: bcd, 7: moto, 8: symantec, 9: dvr, 10: ns40, 11: ns40_le,
    12: log_time, 13: semi_octet, 14: gsm,
}


def decode(layout, word):
    if not 1 <= layout <= 16:
        raise Refused(1)
    if layout == 15:
        return little(unsigned(word, 32), 4) - 0xFFFFFFFF + EPOCH_2050, 0
    if layout == 16:
        days, ticks = divmod(word, 1 << 32)
        if ticks >= TICKS_IN_A_DAY:
            raise Refused(5)
        second, ticks = divmod(ticks, 300)
        return EPOCH_1900 + days * 86_400 + second, ticks * 10 ** 9 // 300
    seconds = seconds_of(*CIVIL[layout](word))
    if layout == 14:
        zone = word & 255
        if zone >> 4 > 9:
            raise Refused(4)
        quarters = (zone & 7) * 10 + (zone >> 4)
        seconds -= 900 * (-quarters if zone & 8 else quarters)
    return seconds, 0


# ---- encoding

YEARS = {
    1: (1980, 2107), 2: (1980, 2107), 3: (1900, 2411), 4: (0, 4095), 5: (0, 9999), 6: (2000, 2099), 7: (1970, 2225),
    8: (1970, 2225), 9: (2000, 2063), 10: (0, 9999), 11: (0, 9999), 12: (1900, 2155), 13: (2000, 2099), 14: (2000, 2099),
}


def pack(layout, year, month, day, hour, minute, second):
    time = f"{month:02}{day:02}{hour:02}{minute:02}{second:02}"
    if layout in (1, 2):
        return int(f"{year - 1980:07b}{month:04b}{day:05b}{hour:05b}{minute:06b}{second // 2:05b}", 2)
    if layout in (3, 4, 5):
        top = year - 1900 if layout == 3 else year
        word = int(f"{top:b}{month:04b}{day:05b}{hour:05b}{minute:06b}", 2)
        return little(word, 4) if layout == 4 else word
    if layout == 6:
        return int(f"{year - 2000:02}" + time)
    if layout == 13:
        return int(swapped_pairs(f"{year - 2000:02}" + time))
    if layout == 9:
        return int(f"{year - 2000:06b}{month:04b}{day:05b}{hour:05b}{minute:06b}{second:06b}", 2)
    if layout == 14:
        return int(swapped_pairs(f"{year - 2000:02}" + time) + "00", 16)
    if layout == 12:
        return int.from_bytes(bytes([0, 0, year - 1900, month, day, hour, minute, second]), "little")
    if layout in (7, 8):
        head = bytes([year - 1970, month - (layout == 8)])
    else:
        head = year.to_bytes(2, "big" if layout == 10 else "little") + bytes([month])
    return int.from_bytes(head + bytes([day, hour, minute, second]), "big")


def encode(layout, seconds, nanos):
    if not 1 <= layout <= 16:
        raise Refused(1)
    if not 0 <= nanos <= 999_999_999:
        raise Refused(9)
    if layout == 15:
        p = seconds + 0xFFFFFFFF - EPOCH_2050
        if not 0 <= p <= 0xFFFFFFFF:
            raise Refused(8)
        return little(p, 4)
    if layout == 16:
        days, second = divmod(seconds - EPOCH_1900, 86_400)
        twice = 2 * 300 * (second * 10 ** 9 + nanos)
        ticks = (twice + 10 ** 9) // (2 * 10 ** 9)
        if ticks == TICKS_IN_A_DAY:
            days, ticks = days + 1, 0
        if not -(1 << 31) <= days < 1 << 31:
            raise Refused(8)
        return (days << 32) + ticks
    fields = fields_of(seconds)
    first, last = YEARS[layout]
    if not first <= fields[0] <= last:
        raise Refused(7)
    return pack(layout, *fields)


# ---- lines

def numbers(match):
    found = [int(text) for text in match.groups()]
    return found if all(-(1 << 63) <= n < 1 << 63 for n in found) else None


def answer(line):
    """What one line without its LF is answered, without the LF."""
    if len(line) > 64:
        return b"bad line"
    for form, call in ((DECODE, decode), (ENCODE, encode)):
        match = form.fullmatch(line)
        found = match and numbers(match)
        if found:
            try:
                result = call(*found)
            except Refused as refused:
                return b"refused %d" % refused.args[0]
            return b"%d %d" % result if isinstance(result, tuple) else b"%d" % result
    return b"bad line"


def output(data):
    """What a whole input is answered."""
    lines = data.split(b"\n")
    if not lines[-1]:
        lines.pop()
    return b"".join(answer(line) + b"\n" for line in lines)
