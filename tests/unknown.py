"""Digits that nobody knows, x and z, in the lines of an observation: what a line has of them, and lines of a right one with some put in."""

import re

DIGITS = "xXzZ"
DIGIT = re.compile(f"[{DIGITS}]")
WORD = re.compile(f"[0-9a-fA-F{DIGITS}]+")  # EXOKAY isn't one
PAYLOADS = {"A": 8, "D": 7, "W": 1, "R": 2}  # which word of a line is its payload, behind the channel's name


def is_unclear(words):
    """Whether nobody knows a field of a beat but its payload."""
    if not DIGIT.search(" ".join(words)):
        return False
    places = [at for at, word in enumerate(words) if at and DIGIT.search(word)]
    return any(at != PAYLOADS.get(words[0]) and WORD.fullmatch(words[at]) for at in places)


def known(words):
    """The words of a beat, with 0 in the place of each digit of its payload that nobody knows."""
    at = PAYLOADS.get(words[0])
    return [*words[:at], DIGIT.sub("0", words[at]), *words[at + 1 :]] if at else words


def lanes_in(words):
    """The lanes of a beat's payload that nobody knows, of two digits each, from the last: one digit alone that is x or z stands for all."""
    at = PAYLOADS.get(words[0])
    if at is None or not DIGIT.search(words[at]):
        return set()
    digits = words[at].rjust(16, words[at] if len(words[at]) == 1 else "0")
    return {7 - place // 2 for place, digit in enumerate(digits) if digit in DIGITS}


def lanes_of_mask(mask):
    return {lane for lane in range(8) if mask >> lane & 1}


def given_lanes(opcode, mask):
    """The lanes of a beat on channel A that give a byte."""
    return lanes_of_mask(mask) if opcode < 4 else set()


def doubted(beats, unknown):
    """Of each beat of a request the lanes whose bytes nobody knows once it is carried out, by those of its payload that nobody knows: of an
    atomic all that it gives, where one is among them."""
    looked = [given_lanes(it.opcode, it.mask) & lanes for it, lanes in zip(beats, unknown)]
    return [given_lanes(it.opcode, it.mask) if it.opcode > 1 and lanes else lanes for it, lanes in zip(beats, looked)]


def with_unknown(rng, line, lanes):
    """A line with a digit of each of these lanes of its payload, or both, that nobody knows."""
    words = line.split()
    at = PAYLOADS[words[0]]
    digits = list(words[at].rjust(16, "0"))
    for lane in lanes:
        for place in rng.choice(((0,), (1,), (0, 1))):
            digits[14 - 2 * lane + place] = rng.choice(DIGITS)
    words[at] = "".join(digits)
    return " ".join(words)
