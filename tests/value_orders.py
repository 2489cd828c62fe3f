"""Short histories of requests to a few bytes, most of which race, beside a search over all orders of what the requests do to a byte: Puts,
Gets and atomics, corrupt beats, resets, bytes that nobody knows, and by errors any early replies and error responses. A reply is found
wrong exactly where no order has one of its bytes be told so, whatever was told else, but that an atomic leaves what it makes of what it
was told: so it is by the rule of values, written plainly (value_sets.py), and so tlscore reports it by `profile tilelink`. It is counted
what passes all the same though no order explains it with all else that was told, of that byte or of whole requests, by what lies there.

    python3 tests/value_orders.py TLSCORE [HISTORIES] [--seed WORD] [--measure]

By --measure nothing is asked of tlscore, and what it reports is counted alone.
"""

import argparse
import functools
import math
import random
import re
import secrets
import sys
from collections import Counter
from typing import Dict, FrozenSet, Iterable, Iterator, List, NamedTuple, Optional, Sequence, Set, Tuple

from ends import started, told
from value_histories import BYTES, PUTS, History, Request, Value
from value_sets import ValueSets, Why

WRONG = re.compile(r"(?m)^= wrong (\d+) reply (7 PAYLOAD|8 X) expected (D .*)$")
COMPARED = re.compile(r"(?m)^= judged .* compared (\d+) of (\d+)$")
# How much there is at least of these in a history, on the average.
WANTED = {"replies that tell": 3, "told so in no order": 0.5, "told so in some order": 1, "resets": 0.1, "error responses": 0.1}
WANTED.update({"early replies": 0.05, "corrupt beats": 0.1, "atomics": 0.5, "beats with bytes that nobody knows": 0.1})
NO_BYTE = 256  # a value that none gives


class Operation(NamedTuple):
    """What a request does to some bytes, by their places: which values it was told and which it gives, from when to when; and whether it
    takes effect for certain."""

    begun: int
    ended: float
    is_sure: bool
    told: Tuple[Tuple[int, Value], ...]
    gives: Tuple[Tuple[int, Value], ...]


# ---- the search


def fits(operation: Operation, memory: Sequence[Value]) -> bool:
    """Whether it was told what it finds, which may be anything where nobody knows it."""
    return all(memory[at] is None or memory[at] == value for at, value in operation.told)


def carried_out(operation: Operation, memory: Tuple[Value, ...]) -> Tuple[Value, ...]:
    after = list(memory)
    for at, value in operation.gives:
        after[at] = value
    return tuple(after)


def without(left: FrozenSet[int], first: int, operations: Sequence[Operation]) -> Optional[FrozenSet[int]]:
    """What is left behind an operation: one that had ended before it began never takes effect, if that isn't sure, and else it can't be."""
    ahead = [it for it in left if operations[it].ended < operations[first].begun]
    return None if any(operations[it].is_sure for it in ahead) else left.difference(ahead, [first])


@functools.lru_cache(maxsize=100_000)
def is_explained(operations: Tuple[Operation, ...], start: Tuple[Value, ...]) -> bool:
    """Whether some order has each be told what it was: of all that are sure, and of any others; none stands behind one that began after it
    had ended."""
    seen, states = set(), [(frozenset(range(len(operations))), start)]
    while states:
        state = left, memory = states.pop()
        if state in seen:
            continue
        seen.add(state)
        if not any(operations[it].is_sure for it in left):
            return True
        for first in left:
            rest = without(left, first, operations)
            if rest is not None and fits(operations[first], memory):
                states.append((rest, carried_out(operations[first], memory)))
    return False


# ---- what the orders explain


class Orders:
    """What the orders of a history's requests explain of it up to a line, where some beats were found wrong before."""

    def __init__(self, history: History, time: int, wrong: Iterable[int]):
        self.history, self.time, self.wrong = history, time, wrong
        self.requests = [it for it in history.requests if it.came[0] <= time]

    def operation(self, request: Request, addresses: Sequence[int], told: Dict[int, Value]) -> Operation:
        """What a request does to some bytes, if it was told these values."""
        gives = request.gives_by(self.time, self.history.errors, self.wrong)
        places = {address: at for at, address in enumerate(addresses)}
        its_told = tuple((places[it], value) for it, value in told.items() if it in places)
        its_gives = tuple((places[it], value) for it, value in gives.items() if it in places)
        ended = request.ended if request.ended <= self.time else math.inf
        is_sure = bool(its_told) or bool(its_gives) and request.is_sure_by(self.time, self.history.errors)
        return Operation(request.came[0], ended, is_sure, its_told, its_gives)

    def explain(self, addresses: Sequence[int], told: Dict[Request, Dict[int, Value]]) -> bool:
        """Whether some order has these requests be told these values."""
        operations = (self.operation(it, addresses, told.get(it, {})) for it in self.requests)
        start = None if self.history.pages == "any" else 0
        return is_explained(tuple(it for it in operations if it.told or it.gives), (start,) * len(addresses))

    def explain_alone(self, request: Request, address: int, value: Value) -> bool:
        """Whether a request may be told a byte, whatever others were told. What nobody knows it may be told where it finds just that."""
        return self.explain([address], {request: {address: NO_BYTE if value is None else value}})

    def all_told(self) -> Dict[Request, Dict[int, Value]]:
        return {it: it.read_by(self.time, self.wrong) for it in self.requests}


def kind(orders: Orders, address: int) -> str:
    """What lies on a byte that no order explains, with all that was told of it, and that may be told: the first of these."""
    gives = [(it, it.gives_by(orders.time, orders.history.errors, orders.wrong)) for it in orders.requests]
    givers = [(it, given[address]) for it, given in gives if address in given]
    values = [value for _, value in givers if value is not None] + [0] * (orders.history.pages == "good")
    if any(it.cut <= orders.time or it.has_failed(orders.time, orders.history.errors) for it, _ in givers):
        return "a request failed or was cut off"
    if any(it.opcode not in PUTS for it, _ in givers):
        return "an atomic"
    return "bytes that are equal" if len(set(values)) < len(values) else "another was told something else"


# ---- what is reported


class Verdict(NamedTuple):
    """The lines of the beats that were found wrong, and how many bytes were compared of all that were told; or why there is no such."""

    wrong: Set[int]
    compared: int
    told: int
    odd: Optional[str] = None


def by_tlscore(program: str, history: History) -> Verdict:
    """All that it reports is the payload of beats. In the place of one whose bytes are known it has that which was due in order of
    acceptance."""
    ran = started([program], "".join(f"{it}\n" for it in history.lines).encode())
    text = ran.text.decode()
    found, last = [(int(line), rule, due) for line, rule, due in WRONG.findall(text)], COMPARED.search(text)
    wrong, are_due = {line for line, _, _ in found}, all(due == history.due[line] for line, rule, due in found if rule == "7 PAYLOAD")
    if ran.status != bool(wrong) or text.count("= wrong") != len(found) or not are_due or not last:
        return Verdict(set(), 0, 0, f"tlscore ended with status {ran.status}: {ran.line.decode()}{text}")
    return Verdict(wrong, int(last[1]), int(last[2]))


def by_the_rule(history: History) -> Verdict:
    tellings = ValueSets(history.lines).tellings
    wrong = {it.line for it in tellings if it.is_wrong([byte.value for byte in it.told])}
    whys = [byte.why for it in tellings for byte in it.told]
    return Verdict(wrong, whys.count(Why.COMPARED), len(whys))


def beats_of_replies(history: History) -> List[Tuple[int, Request]]:
    """The beats that tell bytes, by line, each with its request."""
    return sorted(((line, it) for it in history.requests for line in it.told), key=lambda it: it[0])


def in_no_order(history: History, line: int, request: Request, wrong: Set[int]) -> List[int]:
    """The bytes of a beat that no order has be told so."""
    orders = Orders(history, line, wrong | {line})
    return [it for it, value in request.told[line].items() if not orders.explain_alone(request, it, value)]


def faults(history: History, wrong: Set[int], counts: Counter) -> Iterator[str]:
    """How what was found wrong of a history isn't what the orders say of it."""
    for line, request in beats_of_replies(history):
        refused, beat = in_no_order(history, line, request, wrong), f"line {line}, {history.lines[line - 1]}"
        counts.update({"replies that tell": 1, "told so in no order": bool(refused), "told so in some order": not refused})
        counts["reported"] += line in wrong
        if line in wrong and not refused:
            counts["told so in some order, and reported"] += 1
            yield f"{beat}, is found wrong, and each of its bytes may be told so"
        if refused and line not in wrong:
            counts["told so in no order, and pass"] += 1
            yield f"{beat}, isn't found wrong, and no order has it be told so at {refused}"


def passed(history: History, wrong: Set[int], counts: Counter) -> None:
    """Counts by its kind the first beat that passes, and may be told so, where no order explains any more all that was told of a byte, or
    of all bytes."""
    for line, request in beats_of_replies(history):
        if line in wrong:
            continue
        if in_no_order(history, line, request, wrong):
            return
        orders = Orders(history, line, wrong)
        everything = orders.all_told()
        torn = [it for it in request.told[line] if not orders.explain([it], everything)]
        if torn:
            counts[f"pass first against all that was told of a byte: {kind(orders, torn[0])}"] += 1
            return
        if not orders.explain(range(BYTES), everything):
            counts["pass first against all that was told of all bytes"] += 1
            return


def features(history: History) -> Counter:
    """How much there is of each kind that is to be tried."""
    words = [it.split() for it in history.lines]
    early = sum(line < it.came[-1] for it in history.requests for line in it.replied)
    return Counter({
        "resets": words.count(["=", "reset"]),
        "error responses": sum(it[0] in ("B", "R") for it in words),
        "early replies": early,
        "corrupt beats": sum(it[0] == "A" and it[9] == "1" for it in words),
        "atomics": sum(it[0] == "A" and it[2] in "23" for it in words),
        "beats with bytes that nobody knows": sum(it[0] in "AD" and "x" in it[-2] for it in words),
    })  # fmt: skip


def tried(history: History, verdict: Verdict, counts: Counter) -> List[str]:
    """What was found wrong of a history, beside its orders."""
    counts.update(features(history))
    counts.update({"bytes compared": verdict.compared, "bytes told": verdict.told})
    passed(history, verdict.wrong, counts)
    return list(faults(history, verdict.wrong, counts))


def cases(given: argparse.Namespace) -> Iterator[Tuple[str, Optional[str]]]:
    of_tlscore, of_the_rule = Counter(), Counter()
    for number in range(given.histories):
        history, name = History(random.Random(f"{given.seed} {number}")), f"seed {given.seed}, history {number}"
        verdict, rule = by_tlscore(given.tlscore, history), by_the_rule(history)
        yield f"{name}, by the rule", "; ".join(tried(history, rule, of_the_rule))
        yield f"{name}, read", verdict.odd
        why = [] if verdict.odd else tried(history, verdict, of_tlscore)
        if verdict[1:3] != rule[1:3]:
            why.append(f"compared {verdict.compared} of {verdict.told}, and by the rule {rule.compared} of {rule.told}")
        if not given.measure:
            yield name, "; ".join(why)
    print(f"{'tlscore':>8} {'the rule':>8}")
    for what in sorted({*of_tlscore, *of_the_rule}):
        print(f"{of_tlscore[what]:8} {of_the_rule[what]:8} {what}")
    for what, least in WANTED.items():
        count, wanted = of_the_rule[what], least * given.histories
        yield f"seed {given.seed}, {what}", None if count >= wanted else f"{count}, not {wanted}"


def main() -> int:
    asked = argparse.ArgumentParser(description=__doc__)
    asked.add_argument("tlscore")
    asked.add_argument("histories", nargs="?", type=int, default=300)
    asked.add_argument("--seed", default=secrets.token_hex(4))
    asked.add_argument("--measure", action="store_true", help="count what tlscore reports, and ask for nothing of it")
    return told(cases(asked.parse_args()))


if __name__ == "__main__":
    sys.exit(main())
