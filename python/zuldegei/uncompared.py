"""The bytes of replies that tlscore didn't compare, as text: of those that raced the two requests, and of each other byte why."""

import re
from typing import Dict, List, Optional

from .compared import Comparison, Missed, Reason, Why
from .history import Request
from .observation import GOOD, Judged, Observation, plural, spans

PAIR, PAIRED = "pair", (Why.RACED, Why.LEFT)


def named(observation: Observation, request: Request) -> str:
    """A request, with the place where it began."""
    return f"{request.name()} ({observation.place(request.begun)})"


def failure(observation: Observation, request: Request) -> str:
    """Why a request fails by the set-up, or by its own beats."""
    if any(it.words[8] == "1" for it in request.beats):
        return "a beat of it is corrupt"
    if request.port_address is None:
        return "no region leads to its page"
    if not observation.permits(request.opcode, request.address):
        return "its region doesn't permit it"
    kind = observation.kind_of(request.port_address)
    return "a word of it is bad" if kind in GOOD else "no line lists its page" if kind is None else f"its page is `{kind}`"


def cause(observation: Observation, reason: Reason) -> List[str]:
    """What is behind bytes that weren't compared."""
    if reason.request is None:
        return []
    lines = [f"  {named(observation, reason.request)}"]
    if reason.other:
        lines.append(f"    with {named(observation, reason.other)}")
    elif reason.why in (Why.FAILED, Why.SPOILED):
        lines.append(f"    {failure(observation, reason.request)}")
    elif reason.line is not None:
        lines.append(f"    {observation.place(reason.line)}: {observation.lines[reason.line]}")
    return lines


def readers(observation: Observation, missed: List[Missed], reason: Reason) -> List[str]:
    """Which bytes weren't compared of which request, and where its reply told them."""
    by_request: Dict[Request, List[Missed]] = {}
    for it in missed:
        by_request.setdefault(it.request, []).append(it)
    lines = []
    for request, its in by_request.items():
        addresses = [address for it in its for address in it.addresses]
        of = "" if request is reason.request else f" of {named(observation, request)}"
        told = f"told in {observation.place(its[0].line)}" + (f" and {plural(len(its) - 1, 'beat')} more" if len(its) > 1 else "")
        lines.append(f"    {plural(len(addresses), 'byte')} at {spans(addresses)}{of}, {told}")
    return lines


def of_kind(observation: Observation, missed: List[Missed], why: Why) -> List[str]:
    """The bytes that weren't compared for a reason of this kind."""
    by_reason: Dict[Reason, List[Missed]] = {}
    for it in missed:
        if it.reason.why is why:
            by_reason.setdefault(it.reason, []).append(it)
    count = sum(len(it.addresses) for its in by_reason.values() for it in its)
    what = re.sub("^were ", "was ", re.sub("^are ", "is ", why.value)) if count == 1 else why.value
    pairs = len({frozenset((it.request, it.other)) for it in by_reason})
    lines = [f"{plural(count, 'byte')} {what}{f', {plural(pairs, PAIR)}' if why in PAIRED else ''}:"]
    for reason, its in by_reason.items():
        lines += cause(observation, reason) + readers(observation, its, reason)
    return lines if count else []


def uncompared(comparison: Comparison, judged: Optional[Judged]) -> str:
    """All of it: how many bytes, and by each reason which."""
    observation, lacking = comparison.observation, comparison.told - comparison.compared
    lines = [f"{lacking} of {plural(comparison.told, 'byte')} that replies told weren't compared"]
    if judged and (judged.compared, judged.told) != (comparison.compared, comparison.told):
        says = f"compared {judged.compared} of {judged.told}"
        lines.append(f"(the verdict says {says}: it isn't of this observation, or this list isn't whole)")
    for why in Why:
        lines += of_kind(observation, comparison.missed, why)
    return "\n".join(lines) + "\n"
