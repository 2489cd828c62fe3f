"""What a set-up lets requests reach: which operations, sizes and kinds of pages there are, for the bins of zuldegei-cover."""

from functools import lru_cache
from typing import Dict, Iterator, List, NamedTuple, Optional, Sequence, Tuple

from .command import Fault
from .observation import LAST_WITH_DATA, OPERATIONS, PAGE, PERMITS, WORD, Observation, Region

KIND = {"PutFull": "put", "PutPartial": "put", "Arithmetic": "atomic", "Logical": "atomic", "Get": "get", "Intent": "intent"}
KINDS = tuple(KIND[it] for it in OPERATIONS)  # by opcode
OF_TL_UL = ("PutFull", "PutPartial", "Get")
LARGEST_OF_A_BEAT, PAGES = 3, 1 << 20  # the size of a message of one beat, and how many pages there are
# The words of a config line: name, least and most, as docs/SCOREBOARD.md has them.
RANGES = (("CLIENTS", 1, 8), ("QUOTA", 1, 8), ("IDS", 1, 256), ("DEPTH", 1, 256), ("MAXLEN", 1, 256), ("MAXSIZE", 3, 12))
NO_REGION, NOT_PERMITTED, ABSENT = "no-region", "not-permitted", "absent"
KEPT_PAGES = 4096


class Config(NamedTuple):
    """The words of a config line."""

    clients: int
    quota: int
    ids: int
    depth: int
    most_transfers: int
    largest: int
    levels: str
    bus: int


class Place(NamedTuple):
    """Where the page of a TileLink address lies: what is added to the address on the AXI4 port, and the permissions of its region."""

    added: int
    region: Region
    kind: str


def config_of(words: Sequence[str]) -> Config:
    """Reads what stands behind the first word of a config line."""
    numbers = [int(it) for it in words[:6]]
    for (name, least, most), value in zip(RANGES, numbers):
        if not least <= value <= most:
            raise Fault(f"can't be: {name} is {value}, and may be {least} to {most}")
    if len(words[6]) != numbers[0]:
        raise Fault(f"can't be: LEVELS needs a letter for each of {numbers[0]} clients")
    return Config(*numbers, words[6], int(words[7]) if len(words) > 7 else WORD)


class Setup:
    """The set-up of an observation."""

    def __init__(self, config: Config, observation: Observation):
        self.config, self.regions, self.pages = config, observation.regions, observation.pages
        self.bad, self.observation = observation.bad, observation
        self.clients = range(config.clients)
        self.may_data_come_early = observation.is_by_tilelink
        self.may_replies_come_early = observation.are_errors_any
        self.place = lru_cache(KEPT_PAGES)(self.place_of_page)
        self.has_long = config.largest > LARGEST_OF_A_BEAT and "h" in config.levels
        self.permitted = [it for it in OPERATIONS if self.clients_of(it) and any(permits(at, it) for at in self.regions)]
        self.kinds = list(dict.fromkeys(KIND[it] for it in self.permitted))
        self.data_kinds = [it for it in self.kinds if it != "intent"]
        self.reads = [it for it in self.permitted if KIND[it] in ("get", "atomic")]
        self.writes = [it for it in self.permitted if KIND[it] in ("put", "atomic")]
        self.sides = ["AW"] * bool(self.writes) + ["AR"] * bool(self.reads)

    # ---- what there is

    def clients_of(self, operation: str) -> List[int]:
        """The clients whose level has an operation."""
        return [it for it in self.clients if operation in OF_TL_UL or self.config.levels[it] == "h"]

    def sizes(self, operation: str, client: int) -> range:
        """The sizes that a client may ask for."""
        is_short = self.config.levels[client] == "l" or KIND[operation] == "atomic"
        return range((LARGEST_OF_A_BEAT if is_short else self.config.largest) + 1)

    def all_sizes(self, operation: str) -> range:
        return max((self.sizes(operation, it) for it in self.clients_of(operation)), key=len)

    def is_long(self, operation: str) -> bool:
        """Whether an operation may be of more than a word."""
        return self.has_long and KIND[operation] != "atomic"

    def transfers(self, side: str) -> int:
        """The most transfers of a burst on a side: atomics have a word."""
        operations = self.writes if side == "AW" else self.reads
        largest = max(len(self.all_sizes(it)) - 1 for it in operations)
        return min(self.config.most_transfers, max(1, (1 << largest) // self.config.bus))

    # ---- where requests go

    def place_of_page(self, page: int) -> Optional[Place]:
        """Where a TileLink page lies; nowhere, if no region leads there."""
        for region in self.regions:
            if region.first <= page < region.first + region.pages:
                added = (region.leads_to - region.first) * PAGE
                return Place(added, region, self.observation.kind_of(page * PAGE + added) or ABSENT)
        return None

    def kinds_of_pages(self, operation: str) -> List[str]:
        """The kinds of pages to which regions lead that permit an operation."""
        found: Dict[str, None] = {}
        for region in self.regions:
            if permits(region, operation):
                found.update(dict.fromkeys(self.kinds_in(region)))
        return list(found)

    def kinds_in(self, region: Region) -> Iterator[str]:
        """The kinds of pages in a region: `absent` where no line lists one."""
        listed = 0
        for numbers, kind in self.pages:
            shared = min(numbers.stop, region.leads_to + region.pages) - max(numbers.start, region.leads_to)
            if shared > 0:
                listed += shared
                yield kind
        if listed < region.pages:
            yield ABSENT

    def standings(self, operation: str) -> List[str]:
        """How a request may stand: by the kind of its page, or as one that isn't asked of the memory."""
        nowhere = [NO_REGION] * (sum(it.pages for it in self.regions) < PAGES)
        refused = [NOT_PERMITTED] * any(not permits(it, operation) for it in self.regions)
        return self.kinds_of_pages(operation) + nowhere + refused

    def is_bad_reached(self, operation: str) -> bool:
        """Whether a region that permits an operation leads to a bad word."""
        regions = [it for it in self.regions if permits(it, operation)]
        return any(it.leads_to <= bad // PAGE < it.leads_to + it.pages for bad in self.bad for it in regions)

    def errors(self, operations: Sequence[str], is_read: bool) -> List[str]:
        """The errors with which the memory may answer bursts of operations."""
        kinds = {kind for it in operations for kind in self.kinds_of_pages(it)}
        is_slverr = "slverr" in kinds or is_read and any(self.is_bad_reached(it) for it in operations)
        return ["SLVERR"] * is_slverr + ["DECERR"] * (ABSENT in kinds)

    def is_denied(self, kind: str) -> bool:
        """Whether a request of a kind may be denied: one with data always, by a corrupt beat."""
        operations = [it for it in self.permitted if KIND[it] == kind]
        denying = {NO_REGION, NOT_PERMITTED} | ({ABSENT} if kind == "get" else set())
        return kind in ("put", "atomic") or any(denying & {*self.standings(it)} for it in operations)

    def ends(self) -> List[Tuple[Region, int]]:
        """The regions behind which no other one begins, each with the address behind it."""
        behind = ((it, it.first + it.pages) for it in self.regions)
        return [(it, page * PAGE) for it, page in behind if page < PAGES and self.place_of_page(page) is None]

    # ---- which beats are legal

    def is_legal(self, client: int, opcode: int, param: int, size: int, address: int) -> bool:
        """Whether the first beat of a message keeps rules 1 to 6 of docs/RULES.md."""
        if opcode >= len(OPERATIONS) or size > self.config.largest or address & (1 << size) - 1:
            return False
        if self.config.levels[client] == "l" and (size > LARGEST_OF_A_BEAT or OPERATIONS[opcode] not in OF_TL_UL):
            return False
        is_atomic = KINDS[opcode] == "atomic"
        return param <= LARGEST_PARAMS[opcode] and not (is_atomic and size > LARGEST_OF_A_BEAT)


PARAMS = {
    "Arithmetic": ("MIN", "MAX", "MINU", "MAXU", "ADD"),
    "Logical": ("XOR", "OR", "AND", "SWAP"),
    "Intent": ("PrefetchRead", "PrefetchWrite"),
}
LARGEST_PARAMS = [len(PARAMS.get(it, ("none",))) - 1 for it in OPERATIONS]


def permits(region: Region, operation: str) -> bool:
    return PERMITS[OPERATIONS.index(operation)] in region.permits


def full_mask(size: int, address: int) -> int:
    """The lanes of a message in one beat of it."""
    return 0xFF if size >= LARGEST_OF_A_BEAT else ((1 << (1 << size)) - 1) << address % WORD


def has_data(opcode: int) -> bool:
    return opcode <= LAST_WITH_DATA


def beats_of(opcode: int, size: int) -> int:
    return max(1, (1 << size) // WORD) if has_data(opcode) else 1


def replies_of(opcode: int, size: int) -> int:
    return max(1, (1 << size) // WORD) if KINDS[opcode] in ("get", "atomic") else 1
