"""What a run did, as the monitor of this folder printed it: how much was under way at once, and what overtook what."""

from collections import Counter, defaultdict
from typing import NamedTuple

REGION_END = 0x6000  # setup.lines: what lies below is sent to the memory, a burst for each Put
IS_REPLY_DATA, IS_GET = 1, 4  # opcodes


def beats(size):
    return max(1, 2**size // 8)


class Traffic(NamedTuple):
    """The counts of a run, or of several."""

    at_once: int = 0  # requests under way together, at the most: begun, and their replies not yet whole
    sources: frozenset = frozenset()  # with their clients
    ids: frozenset = frozenset()  # of AW and AR
    overtaking: int = 0  # replies that came before that of a request which the same client asked earlier
    streamed: int = 0  # addresses that left before the Put's last beat came
    foretold: int = 0  # replies that came before their request's last beat

    def __or__(self, other):
        """Of both: the most, all, and the sum."""
        both = self.overtaking + other.overtaking, self.streamed + other.streamed, self.foretold + other.foretold
        return Traffic(max(self.at_once, other.at_once), self.sources | other.sources, self.ids | other.ids, *both)


class Counting:
    """Counts the beats of a run, from its first on."""

    def __init__(self):
        self.waiting = defaultdict(list)  # of each client the sources whose replies aren't whole, in the order of their requests
        self.came, self.replied = Counter(), Counter()  # beats of the message of each client that goes on
        self.sent = self.whole = 0  # write addresses, and Puts to the region whose last beat came
        self.sources, self.ids = set(), set()
        self.at_once = self.overtaking = self.streamed = self.foretold = 0

    def ask(self, client, opcode, size, source, address):
        if not self.came[client]:
            self.waiting[client].append(source)
            self.sources.add((client, source))
            self.at_once = max(self.at_once, sum(map(len, self.waiting.values())))
        self.came[client] += 1
        if opcode == IS_GET or self.came[client] == beats(size):
            self.came[client] = 0
            self.whole += opcode != IS_GET and address < REGION_END

    def reply(self, client, opcode, size, source):
        self.replied[client] += 1
        if opcode == IS_REPLY_DATA and self.replied[client] < beats(size):
            return
        self.replied[client] = 0
        if source not in self.waiting[client]:
            return
        self.overtaking += self.waiting[client][0] != source
        self.foretold += self.waiting[client][-1] == source and self.came[client] > 0
        self.waiting[client].remove(source)

    def write(self):
        self.sent += 1
        self.streamed += self.sent > self.whole

    def reset(self):
        """Nothing is under way any more."""
        for under_way in (self.waiting, self.came, self.replied):
            under_way.clear()
        self.sent = self.whole = 0

    def take(self, line):
        kind, *words = line.split()
        if kind == "A":
            client, opcode, _, size, source, address, *_ = words
            self.ask(int(client), int(opcode), int(size), int(source), int(address, 16))
        elif kind == "D":
            client, opcode, _, size, source, *_ = words
            self.reply(int(client), int(opcode), int(size), int(source))
        elif kind in ("AW", "AR"):
            self.ids.add(int(words[0]))
            if kind == "AW":
                self.write()
        elif kind == "=":
            self.reset()

    def told(self):
        sets = frozenset(self.sources), frozenset(self.ids)
        return Traffic(self.at_once, *sets, self.overtaking, self.streamed, self.foretold)


def of(text):
    """Counts all the lines of a run."""
    counting = Counting()
    for line in text.splitlines():
        counting.take(line)
    return counting.told()
