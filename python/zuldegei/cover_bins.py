"""The bins of zuldegei-cover: the groups, what their bins say, which of them a set-up has, and which are the corners of which rule.

A bin's name is its group and what it says there, with `/` between. Names, pages and texts come from the tables here."""

from itertools import product
from typing import Callable, Dict, Iterator, List, NamedTuple, Optional, Sequence, Tuple

from .cover_setup import KIND, PARAMS, Setup, permits

TIMES, WAITS = "time", "waited"  # lines that a group needs
MASKS = ("full", "empty", "one-lane", "first-out", "last-out", "hole")
MESSAGES = ("differ", "first-beat-empty", "last-beat-empty", "all-empty")
OVERLAPS = ("same", "inside", "around", "beside-in-word", "beside-in-32B")
AFTER = ("get-after-put", "get-after-partial-put", "put-after-put", "put-after-get")
RESETS = ("idle", "in-flight", "put-begun", "reply-begun", "write-lacks-data", "read-open")
CLOCKS_BETWEEN = ((0, "0"), (1, "1"), (15, "2-15"))  # the most of each, and behind them all others
CLOCKS_WAITED = ((0, "0"), (1, "1"), (7, "2-7"))
OTHERS_BETWEEN, OTHERS_WAITED = "16+", "8+"
EACH_ID = 16  # IDs that have a bin each; of more there are ranges


def step(count: int) -> str:
    """The range of a count from 1 on: 1, 2, 3-4, 5-8 and so on, and 65+."""
    if count < 3:
        return str(count)
    high = 1 << (count - 1).bit_length()
    return f"{high // 2 + 1}-{high}" if high <= 64 else "65+"


def steps(most: int) -> List[str]:
    """The ranges of the counts from 1 to a number."""
    return list(dict.fromkeys(step(it) for it in range(1, most + 1)))


def id_range(number: int, ids: int) -> str:
    """An ID, or of more than 16 IDs the range that it lies in: 0, 1, 2-3, 4-7 and so on."""
    if ids <= EACH_ID or number < 2:
        return str(number)
    low = 1 << number.bit_length() - 1
    return f"{low}-{2 * low - 1}"


def clocks(count: int, ranges: Sequence[Tuple[int, str]], others: str) -> str:
    """The range of a count of clocks."""
    return next((name for most, name in ranges if count <= most), others)


def names(*axes: Sequence[object]) -> Iterator[str]:
    """Each combination of some axes, as the end of a bin's name."""
    return ("/".join(map(str, it)) for it in product(*axes))


def who(setup: Setup, needs: int = 2) -> List[str]:
    """Of which clients two requests may be: one client's needs room for them."""
    return ["same-client"] * (setup.config.quota >= needs) + ["other-client"] * (setup.config.clients > 1)


# ---- the bins of each group


def request(setup: Setup) -> Iterator[str]:
    for operation in setup.permitted:
        for client in setup.clients_of(operation):
            yield from (f"{operation}/{1 << size}B/client{client}" for size in setup.sizes(operation, client))


def param(setup: Setup) -> Iterator[str]:
    return (f"{operation}/{name}" for operation in setup.permitted for name in PARAMS.get(operation, ()))


def lane(setup: Setup) -> Iterator[str]:
    places = [(1 << size, at) for size in range(3) for at in range(0, 8, 1 << size)]
    return (f"{operation}/{bytes_}B/at{at}" for operation in setup.permitted for bytes_, at in places)


def mask(setup: Setup) -> Iterator[str]:
    if "PutPartial" in setup.permitted:
        yield from names(["one-beat"], MASKS)
    if "PutPartial" in setup.permitted and setup.has_long:
        yield from names(["beats"], MASKS)
        yield from names(["message"], MESSAGES)


def edge(setup: Setup) -> Iterator[str]:
    for operation in setup.permitted:
        sizes = [f"{1 << it}B" for it in setup.all_sizes(operation)]
        yield from names([operation], sizes, ("page-begin", "page-end"))
        behind = [it for it, _ in setup.ends() if permits(it, operation)]
        yield from names([operation], ["region-begin", "region-end", *["behind-region"] * bool(behind)])


def standing(setup: Setup) -> Iterator[str]:
    for operation in (it for it in KIND if setup.clients_of(it)):
        yield from names([operation], ["word", "beats"][: 1 + setup.is_long(operation)], setup.standings(operation))


def corrupt(setup: Setup) -> Iterator[str]:
    for operation in setup.writes:
        yield f"{operation}/only"
        if setup.is_long(operation):
            yield from names([operation], ["first", "last", "all", *["middle"] * (setup.config.largest > 4)])


def bad_word(setup: Setup) -> Iterator[str]:
    return (it for it in setup.permitted if KIND[it] != "intent" and setup.is_bad_reached(it))


def conflict(setup: Setup) -> Iterator[str]:
    pairs = [f"{first}-then-{second}" for first, second in product(setup.data_kinds, repeat=2) if (first, second) != ("get", "get")]
    return names(pairs, OVERLAPS, who(setup))


def after_ack(setup: Setup) -> Iterator[str]:
    pairs = [it for it in AFTER if {"get", "put"} & {*it.split("-")} <= {*setup.kinds}]
    return names(pairs, who(setup, 1), ["at-once", "later"])


def order(setup: Setup) -> Iterator[str]:
    pairs = [f"{first}-over-{second}" for first, second in product(setup.data_kinds, repeat=2)]
    return names(pairs, ["1", "2+"][: max(0, setup.config.quota - 1)])


def flight(setup: Setup) -> Iterator[str]:
    config = setup.config
    yield from names(["all"], steps(config.quota * config.clients))
    yield from names([f"client{it}" for it in setup.clients], steps(config.quota))
    if config.quota * config.clients > 1:
        yield from names(setup.kinds, ["alike", "mixed"][: 1 + (len(setup.kinds) > 1)])


def source(setup: Setup) -> Iterator[str]:
    yield "again-at-once"
    if len(setup.permitted) > 1:
        yield "again-other-operation"
    if setup.config.clients > 1:
        yield "of-two-clients"


def burst(setup: Setup) -> Iterator[str]:
    for side in setup.sides:
        most = setup.transfers(side)
        yield from names([side], [*steps(most), *["longest"] * (most > 1), "narrow", "begins-at-4K", "ends-at-4K"])


def id_(setup: Setup) -> Iterator[str]:
    return names(setup.sides, dict.fromkeys(id_range(it, setup.config.ids) for it in range(setup.config.ids)))


def open_(setup: Setup) -> Iterator[str]:
    return names(setup.sides, steps(setup.config.ids * setup.config.depth))


def depth(setup: Setup) -> Iterator[str]:
    return names(setup.sides, [*steps(setup.config.depth), *["deepest"] * (setup.config.depth > 1)])


def axi(setup: Setup) -> Iterator[str]:
    has_ids, both = setup.config.ids > 1, {*setup.sides} == {"AW", "AR"}
    has_reads, has_writes = "AR" in setup.sides, "AW" in setup.sides
    found = {
        "R-between-IDs": has_ids and has_reads and setup.transfers("AR") > 1,
        "R-out-of-order": has_ids and has_reads,
        "B-out-of-order": has_ids and has_writes,
        "AW-with-older-W-due": has_writes and setup.config.ids * setup.config.depth > 1,
        "W-ahead-of-AW": has_writes and setup.may_data_come_early,
        "read-and-write-of-ID": both,
    }
    return (name for name, is_there in found.items() if is_there)


def answer(setup: Setup) -> Iterator[str]:
    if "AW" in setup.sides:
        yield from names(["B"], ["OKAY", *setup.errors(setup.writes, False)])
    if "AR" in setup.sides:
        yield from names(["R"], ["OKAY", *setup.errors(setup.reads, True)], ["first", "later"][: 1 + (setup.transfers("AR") > 1)])


def reply(setup: Setup) -> Iterator[str]:
    for kind in setup.kinds:
        yield from names([kind], ["plain", *["denied"] * setup.is_denied(kind)])
        operations = [it for it in setup.reads if KIND[it] == kind]
        is_bad, is_slverr = any(map(setup.is_bad_reached, operations)), any("slverr" in setup.kinds_of_pages(it) for it in operations)
        yield from names([kind], ["corrupt"] * (is_bad or is_slverr))
        if kind == "get" and setup.has_long:
            yield from names([kind], ["corrupt-some-beats"] * is_bad + ["corrupt-all-beats"] * is_slverr)


def reset(setup: Setup) -> Iterator[str]:
    is_there = {
        "put-begun": setup.has_long and "put" in setup.kinds,
        "reply-begun": setup.has_long and "get" in setup.kinds,
        "write-lacks-data": "AW" in setup.sides,
        "read-open": "AR" in setup.sides,
    }
    return (it for it in RESETS if is_there.get(it, True))


def several(setup: Setup) -> List[str]:
    """The ports at which a message or burst may have several beats."""
    clients = [it for it in setup.clients if setup.has_long and setup.config.levels[it] == "h"]
    ports = [f"A{it}" for it in clients if "put" in setup.kinds] + [f"D{it}" for it in clients if "get" in setup.kinds]
    return ports + [port for port, side in (("W", "AW"), ("R", "AR")) if side in setup.sides and setup.transfers(side) > 1]


def gap(setup: Setup) -> Iterator[str]:
    return names(several(setup), [*(name for _, name in CLOCKS_BETWEEN), OTHERS_BETWEEN])


def together(setup: Setup) -> Iterator[str]:
    both = {*setup.sides} == {"AW", "AR"}
    found = {
        "A-of-two-clients": setup.config.clients > 1, "A-and-D-of-a-client": True, "AW-and-AR": both, "B-and-R": both, "B-and-last-R": both,
    }  # fmt: skip
    return (name for name, is_there in found.items() if is_there)


def wait(setup: Setup) -> Iterator[str]:
    ports = [f"{channel}{it}" for channel in "AD" for it in setup.clients]
    ports += ["AW", "W", "B"] * ("AW" in setup.sides) + ["AR", "R"] * ("AR" in setup.sides)
    yield from names(ports, [*(name for _, name in CLOCKS_WAITED), OTHERS_WAITED])
    yield from names(several(setup), ["within"])


class Group(NamedTuple):
    """A group of bins: its name, what its bins say, which of them there are, and the lines without which it has none."""

    name: str
    says: str
    bins: Callable[[Setup], Iterator[str]]
    needs: Optional[str] = None


GROUPS = (
    Group("request", "operation, bytes and client", request),
    Group("param", "the kind of an atomic or an Intent", param),
    Group("lane", "operation, bytes and place in the word of eight bytes", lane),
    Group("mask", "masks of PutPartialData, in one beat and in several", mask),
    Group("edge", "a request at the edge of its page, at that of a region, or just behind one", edge),
    Group("standing", "the page of a request: its kind, or why the memory isn't asked", standing),
    Group("corrupt", "which beats of a message are corrupt", corrupt),
    Group("bad-word", "a request that has a bad word", bad_word),
    Group("conflict", "two requests in flight whose bytes meet, of which one isn't a Get", conflict),
    Group("after-ack", "a request for bytes of one whose reply has ended", after_ack),
    Group("order", "a reply that passes older requests of its client", order),
    Group("flight", "how many requests are in flight, and of which kinds", flight),
    Group("source", "a source that is used again, or by two clients", source),
    Group("burst", "a burst's transfers, and where it lies", burst),
    Group("id", "the ID of a burst", id_),
    Group("open", "how many bursts are open on a side", open_),
    Group("depth", "how many bursts of an ID are open on a side", depth),
    Group("axi", "orders of the AXI4 port", axi),
    Group("answer", "responses of the memory", answer),
    Group("reply", "what replies say", reply),
    Group("reset", "what is under way when the reset comes", reset),
    Group("gap", "clocks between two beats of a message or burst", gap, TIMES),
    Group("together", "what passes in one clock", together, TIMES),
    Group("wait", "clocks for which a beat waited for ready", wait, WAITS),
)
RANK = {it.name: at for at, it in enumerate(GROUPS)}

# For each rule of docs/RULES.md the bins in which a fault against it would show, as patterns.
CORNERS: Dict[str, Tuple[str, ...]] = {
    "request 1 OPCODE": ("request/*",),
    "request 2 LEVEL": ("request/*",),
    "request 3 SIZE": ("request/*",),
    "request 4 ATOMIC_SIZE": ("request/Arithmetic/*", "request/Logical/*"),
    "request 5 ALIGN": ("lane/*", "edge/*/page-*"),
    "request 6 PARAM": ("param/*",),
    "request 7 MASK": ("lane/*", "mask/*"),
    "request 8 CORRUPT": ("corrupt/*",),
    "request 9 SOURCE_BUSY": ("source/*", "flight/client*"),
    "request 10 BURST_CONTROL": ("gap/A*", "corrupt/*/middle", "mask/message/*", "together/A-of-two-clients"),
    "request 11 D_OPCODE": ("request/*", "flight/*/mixed"),
    "request 12 D_SIZE": ("request/*", "flight/*/mixed"),
    "request 13 D_SOURCE": ("order/*", "source/*"),
    "request 14 D_BEATS": ("request/*", "gap/D*", "reset/reply-begun"),
    "request 15 D_DENIED": ("reply/*/denied", "reply/get/corrupt-*"),
    "request 16 D_CORRUPT": ("reply/*", "answer/R/*"),
    "request 17 X": ("lane/*", "mask/*"),
    "request 18 UNFINISHED": ("gap/A*", "reset/put-begun"),
    "axi 1 SIZE": ("burst/*/narrow", "lane/*"),
    "axi 2 BURST_KIND": ("burst/*",),
    "axi 3 CROSS_4K": ("burst/*-at-4K", "edge/*/page-end"),
    "axi 4 ID_RANGE": ("id/*",),
    "axi 5 DEPTH": ("depth/*", "open/*"),
    "axi 6 W_WITHOUT_AW": ("axi/AW-with-older-W-due", "axi/W-ahead-of-AW", "wait/AW/*"),
    "axi 7 STROBE": ("lane/Put*", "mask/*", "burst/AW/narrow"),
    "axi 8 WLAST": ("burst/AW/*", "gap/W/*", "wait/W/*"),
    "axi 9 B_WITHOUT_WRITE": ("axi/B-*", "depth/AW/*"),
    "axi 10 R_WITHOUT_READ": ("axi/R-*", "depth/AR/*"),
    "axi 11 RLAST": ("burst/AR/*", "axi/R-between-IDs", "gap/R/*"),
    "axi 12 EXOKAY": ("answer/*",),
    "axi 13 X": ("lane/*", "mask/*", "burst/*/narrow"),
    "axi 14 UNANSWERED": ("open/*", "axi/*-out-of-order", "together/B-and-last-R"),
    "axi 15 PLACE": ("standing/*/no-region", "edge/*-region", "edge/*/region-*"),
    "reply 1 UNASKED": ("source/*", "order/*", "reset/*"),
    "reply 2 INTERLEAVED": ("flight/get/*", "gap/D*", "wait/D*", "axi/R-between-IDs"),
    "reply 3 OPCODE": ("request/*", "flight/*/mixed"),
    "reply 4 SIZE": ("request/*", "flight/*/mixed"),
    "reply 5 DENIED": ("standing/*", "corrupt/*", "reply/*/denied", "answer/*"),
    "reply 6 CORRUPT": ("bad-word/*", "reply/*/corrupt*", "answer/R/*"),
    "reply 7 PAYLOAD": ("conflict/*", "after-ack/*", "lane/*", "mask/*", "param/*"),
    "reply 8 X": ("lane/*", "mask/*"),
    "reply 9 UNANSWERED": ("flight/*", "wait/D*", "together/*"),
}


def bins_of(setup: Setup, lines: Sequence[str]) -> List[str]:
    """The names of the bins that a set-up has; `lines` names the lines that the observation had, of those that a group may need."""
    groups = [it for it in GROUPS if it.needs is None or it.needs in lines]
    return [f"{it.name}/{name}" for it in groups for name in it.bins(setup)]
