"""The forms of the lines that tlscore reads and prints, as docs/SCOREBOARD.md and docs/SCRIPT.md have them."""

import re
from typing import Dict, List, Tuple

A, D, AW, AR, W, B, R = "A", "D", "AW", "AR", "W", "B", "R"
HEXADECIMAL = "0-9a-fA-F"


# A field of which a digit isn't known, whatever else it is: of at most 20 digits.
UNKNOWN = rf"(?=[^ ]{{1,20}}(?: |$))[{HEXADECIMAL}]*[xXzZ][{HEXADECIMAL}xXzZ]*"


def field(digits: str, most: int) -> str:
    """A field of so many digits behind leading zeros, or one of which a digit isn't known."""
    return rf"(?:0*[{digits}]{{1,{most}}}|{UNKNOWN})"


DECIMAL = rf"(?:0*(?:25[0-5]|2[0-4]\d|1?\d?\d)|{UNKNOWN})"  # to 255
FLAG = field("01", 1)
ADDRESS, LANES = (field(HEXADECIMAL, most) for most in (8, 2))
PAYLOAD = field(f"{HEXADECIMAL}xXzZ", 16)
CLIENT, RESPONSE = r"0*\d{1,3}", rf"(?:OKAY|EXOKAY|SLVERR|DECERR|{UNKNOWN})"
HEX, DEC = rf"[{HEXADECIMAL}]{{1,16}}", r"\d{1,20}"
# What stands behind the first word of a beat, a time, a wait, or a line of the set-up that is looked at.
LINES = {
    A: (CLIENT, DECIMAL, DECIMAL, DECIMAL, DECIMAL, ADDRESS, LANES, PAYLOAD, FLAG),
    D: (CLIENT, DECIMAL, DECIMAL, DECIMAL, DECIMAL, FLAG, PAYLOAD, FLAG),
    AW: (DECIMAL, ADDRESS, DECIMAL, DECIMAL, DECIMAL),
    AR: (DECIMAL, ADDRESS, DECIMAL, DECIMAL, DECIMAL),
    W: (PAYLOAD, LANES, FLAG),
    B: (DECIMAL, RESPONSE),
    R: (DECIMAL, PAYLOAD, RESPONSE, FLAG),
    "time": (DEC,),
    "waited": (r"(?:[AD][0-7]|AW|AR|[WBR])", DEC),
    "config": (*[DEC] * 6, "[lh]{1,8}(?: 0*[48])?"),
    "region": (HEX, DEC, HEX, "[gpah-]{4}"),
    "page": (HEX, DEC, r"\w+"),
    "bad": (HEX,),
    "fill": (HEX, rf"[{HEXADECIMAL}]{{1,2}}(?: [{HEXADECIMAL}]{{1,2}}){{0,31}}"),
}
PATTERNS = {kind: re.compile(" ".join(fields), re.ASCII) for kind, fields in LINES.items()}
# The kinds of beats of which a rule of the AXI4 port is told; of each other rule those of its channel.
OF_ADDRESSES = ("SIZE", "BURST_KIND", "CROSS_4K", "DEPTH", "PLACE")
AXI_RULES: Dict[str, Tuple[str, ...]] = {
    **dict.fromkeys(OF_ADDRESSES, (AW, AR)),
    "ID_RANGE": (AW, AR, B, R),
    "W_WITHOUT_AW": (W,),
    **dict.fromkeys(("STROBE", "WLAST"), (W, AW)),  # of an AW, where data that came ahead of it break the rule
    "B_WITHOUT_WRITE": (B,),
    **dict.fromkeys(("R_WITHOUT_READ", "RLAST"), (R,)),
    "EXOKAY": (B, R),
    "X": (AW, AR, W, B, R),
}
CHANNELS = {"client": (A, D), "request": (A,), "reply": (D,)}


def check_words(kind: str, words: List[str]) -> None:
    """Raises a ValueError where the words behind the first one of a line aren't as that one asks."""
    pattern = PATTERNS.get(kind)
    if pattern and not pattern.fullmatch(" ".join(words)):
        raise ValueError(words)


def may_be_told(kind: str, rule: str, of: str) -> bool:
    """Whether a rule of this kind may be told of a beat of that one."""
    return of in (AXI_RULES.get(rule, ()) if kind == "axi" else CHANNELS[kind])
