"""What is behind a wrong beat: the request, who wrote its bytes, which bursts carried them, and on which side of a bridge to look."""

from enum import Enum
from itertools import islice
from typing import Dict, Iterator, List, NamedTuple, Optional, Tuple

from .command import Fault
from .compared import Comparison
from .history import Burst, Given, History, Request, Transfer
from .index import Index, Part, data_of
from .observation import AR, AT_END, AW, PAGE, W, WORD, Beat, Wrong, byte_of, number, plural, spans

MOST_LISTED = 4  # requests of a list
MOST_LOOKED = 256  # beats with the same data, of which one may be of a request in flight
SHIFTS = (4, 1, 2, 3, 5, 6, 7)  # of lanes, by which bytes may have come elsewhere: first by half a word
TOO_SOON = "The reply came before R brought this byte."
NOT_SHOWN = "R brought the due byte, and the reply shows another one."


class Side(Enum):
    """Where to look: a part of a bridge, or what is beside it."""

    WRITE = "write data: the way from channel A to W"
    READ = "read data: the way from R to channel D"
    REPLY = "reply: how channel D is told that a request is done"
    ORDER = "order: what is done before what"
    LIMIT = "limit: where and how large bursts are, and how many"
    REQUEST = "request: what is taken on channel A"
    ANSWER = "answer: B and R, which the memory gives"


class Cause(NamedTuple):
    """The side to look at, the sentence that says why, what it rests on, in lines of text, and the requests and bursts behind it."""

    side: Side
    sentence: str
    grounds: List[str]
    behind: Tuple[object, ...] = ()

    def text(self) -> str:
        return "\n".join([f"  look at the {self.side.value}", f"  {self.sentence}", *(f"    {it}" for it in self.grounds)])


BY_AXI_RULE = {
    "SIZE": (Side.LIMIT, "Its transfers are wider than the bus"),
    "BURST_KIND": (Side.LIMIT, "Its burst isn't INCR"),
    "CROSS_4K": (Side.LIMIT, "Its first byte and its last lie in different pages of 4 KB"),
    "ID_RANGE": (Side.LIMIT, "Its ID is none of the port's"),
    "DEPTH": (Side.LIMIT, "Its ID has as many bursts open as it may have"),
    "PLACE": (Side.LIMIT, "No region leads to its page"),
    "W_WITHOUT_AW": (Side.WRITE, "No address asks for these data"),
    "STROBE": (Side.WRITE, "It has a strobe in a lane that its transfer doesn't cover"),
    "WLAST": (Side.WRITE, "Its `last` isn't as the length of its burst has it"),
    "B_WITHOUT_WRITE": (Side.ANSWER, "No write of its ID waits for an answer, or its data aren't all there"),
    "R_WITHOUT_READ": (Side.ANSWER, "No read of its ID waits for data"),
    "RLAST": (Side.ANSWER, "Its `last` isn't as the length of its burst has it"),
    "EXOKAY": (Side.ANSWER, "EXOKAY answers exclusive accesses, and there are none"),
}


class Explainer:
    """Explains wrong beats from the history of an observation."""

    def __init__(self, history: History, comparison: Optional[Comparison] = None):
        self.history, self.at = history, history.observation.place
        self.index, self.comparison = Index(history), comparison or Comparison(history)

    def cause(self, wrong: Wrong) -> Cause:
        """What is behind a wrong line."""
        found = self.history.of_line.get(wrong.line)
        cause = self.at_end(wrong) if wrong.name in AT_END else self.of_beat(wrong, found)
        related = (found.request,) if isinstance(found, Burst) else tuple(found.bursts) if isinstance(found, Request) else ()
        behind = [it for it in (found, *related, *cause.behind) if it is not None]
        return cause._replace(behind=tuple({id(it): it for it in behind}.values()))

    def in_order(self, wrong: List[Wrong]) -> List[Wrong]:
        """Wrong lines by their place; of what is unanswered at the end the oldest first, which may hold up the others."""
        return sorted(wrong, key=lambda it: (it.line, self.begun(it)))

    def begun(self, wrong: Wrong) -> int:
        """The line in which a request or burst began that isn't over at the end; of any other wrong beat no line."""
        if wrong.name not in AT_END:
            return 0
        if wrong.side == "data":
            return next((it[0].line for it in self.index.data_alone), wrong.line)
        if wrong.side:
            burst = self.unanswered_burst(wrong)
            return burst.beat.line if burst else wrong.line
        request = self.last_of(wrong.client, wrong.source, wrong.line, is_open=True)
        return request.begun if request else wrong.line

    def unanswered_burst(self, wrong: Wrong) -> Optional[Burst]:
        """The oldest burst of an ID that has no answer."""
        return self.index.unanswered.get((wrong.side == "write", wrong.id))

    def of_beat(self, wrong: Wrong, found: object) -> Cause:
        """What is behind a wrong beat."""
        if wrong.kind in ("request", "client"):
            return self.of_request(wrong, found)
        if wrong.kind == "axi":
            return self.of_axi(wrong, found)
        beat = self.beat(wrong.line)
        if isinstance(found, Request) and wrong.name in ("PAYLOAD", "X") and wrong.due:
            return self.payload(wrong, found, beat)
        return self.of_reply(wrong, found, beat)

    def beat(self, line: int) -> Optional[Beat]:
        return self.index.beats.get(line)

    def named(self, request: Request) -> str:
        """A request, with the place where it began."""
        return f"{request.name()} ({self.at(request.begun)})"

    def of_request(self, wrong: Wrong, found: object) -> Cause:
        """A beat that the client gave wrong."""
        grounds = [self.named(found)] if isinstance(found, Request) else []
        if wrong.name == "SOURCE_BUSY":
            beat = self.beat(wrong.line)
            last = self.last_of(number(beat.words[0]), number(beat.words[4]), wrong.line) if beat else None
            grounds += [f"the source is busy with {self.named(last)}"] if last else []
        sentence = f"The client breaks the rule {wrong.name} of channel A: nothing of the bridge is wrong yet."
        return Cause(Side.REQUEST, sentence, grounds)

    # ---- the AXI4 port

    def of_axi(self, wrong: Wrong, found: object) -> Cause:
        """A beat that breaks a rule of the AXI4 port."""
        beat = self.beat(wrong.line)
        if wrong.name == "X":
            side = Side.WRITE if beat and beat.kind == W else Side.ANSWER if beat and beat.kind in "BR" else Side.LIMIT
            return Cause(side, "A digit of it isn't known, where it tells something.", self.burst_grounds(found))
        if wrong.name not in BY_AXI_RULE:
            raise Fault(f"{wrong.text[:80]!r} names no rule of the AXI4 port")
        side, sentence = BY_AXI_RULE[wrong.name]
        grounds = self.burst_grounds(found)
        if isinstance(found, Burst) and beat and beat.kind in (AW, AR):
            grounds += self.shifted(found)
        if isinstance(found, Burst) and wrong.name == "WLAST":
            return self.wrong_last(wrong, found, sentence, grounds)
        return Cause(side, f"{sentence}.", grounds)

    def wrong_last(self, wrong: Wrong, burst: Burst, sentence: str, grounds: List[str]) -> Cause:
        """A W beat whose `last` is wrong, or an AW ahead of which such a beat came; and whose data stand in the midst of the burst's."""
        is_last = [it.beat.words[2] == ("1" if at == burst.length else "0") for at, it in enumerate(burst.transfers)]
        places = [at for at, it in enumerate(burst.transfers) if it.beat.line == wrong.line or it.beat.line < wrong.line and not is_last[at]]
        if not places:
            return Cause(Side.WRITE, f"{sentence}.", grounds)
        last = burst.transfers[places[-1]].beat
        its = "it" if last.line == wrong.line else self.at(last.line)
        sentence += f": {its} is beat {places[-1] + 1} of {burst.length + 1}, and `last` is {last.words[2]}"
        others, more = self.strange_data(burst, last.line)
        whose = "of another request" if others else "that its request doesn't give"
        return Cause(Side.WRITE, f"{sentence}{f'; among its data stand those {whose}' if more else ''}.", grounds + more, (*others,))

    def strange_data(self, burst: Burst, line: int) -> Tuple[List[Request], List[str]]:
        """Of the beats of a burst, up to a line, those that haven't the data of its own request: the requests in flight that gave these, and
        what is said of them, and of beats of other clients in the midst of its message."""
        is_put = burst.request is not None and burst.request.is_put
        parts = [it for it in burst.transfers if is_put and it.beat.line <= line and not gives_all(burst.request, it)]
        found = [(it, self.stranger(burst, it)) for it in parts[:MOST_LISTED]]
        others = list(dict.fromkeys(other for _, other in found if other))
        between = self.between(burst.request) if parts else []
        if not others and not between:
            return [], []
        said = [(part, f"is given by {self.named(other)}" if other else "its request doesn't give") for part, other in found]
        return others, [f"{self.at(part.beat.line)}, W has what {text}" for part, text in said] + between

    def stranger(self, burst: Burst, part: Transfer) -> Optional[Request]:
        """The request in flight, but that of the burst, that gave last what a W beat has."""
        data = data_of(part.beat.words[1], part.beat.words[0], burst.bus)
        given = self.index.given_data.get(data[0]) if data else None
        others = (it.request for it in islice(given.before(part.beat.line), MOST_LOOKED)) if given else ()
        return next((it for it in others if it is not burst.request and (it.ended is None or it.ended > burst.beat.line)), None)

    def between(self, request: Request) -> List[str]:
        """The beats of other clients in the midst of a request's message on channel A."""
        lines = range(request.begun + 1, request.accepted or request.begun)
        beats = [self.index.beats[it] for it in lines if it in self.index.beats]
        others = [it for it in beats if it.kind == "A" and number(it.words[0]) != request.client]
        return [f"in the midst of its message on channel A: {self.at(it.line)}, of client {it.words[0]}" for it in others[:MOST_LISTED]]

    def burst_grounds(self, found: object) -> List[str]:
        """A burst, and the request that it may be of."""
        if not isinstance(found, Burst):
            return []
        lines = [f"{found.name()} ({self.at(found.beat.line)})"]
        return lines + ([f"perhaps for {self.named(found.request)}"] if found.request else [])

    def shifted(self, burst: Burst) -> List[str]:
        """How far a burst is from the request that it may be of, or which request asks for what is in no region."""
        request = burst.request
        if request is not None and request.port_address != burst.address:
            return [f"that request's bytes begin at {request.port_address:08x} on this port, and the burst {burst.address:08x}"]
        if request is None:
            alike = self.index.unmapped.get(burst.address % PAGE)
            before = alike.before(burst.beat.line) if alike else ()
            near = next((it for it in before if it.ended is None or it.ended > burst.beat.line), None)
            return [f"perhaps for {self.named(near)}, whose address lies in no region"] if near else []
        return []

    # ---- replies

    def at_end(self, wrong: Wrong) -> Cause:
        """What wasn't over at the observation's end."""
        if wrong.name == "UNFINISHED":
            return self.unfinished(wrong)
        if wrong.side == "data":
            return self.data_alone()
        if wrong.side:
            burst = self.unanswered_burst(wrong)
            return Cause(Side.ANSWER, f"A {wrong.side} of ID {wrong.id} got no answer.", self.burst_grounds(burst), (burst,))
        request = self.last_of(wrong.client, wrong.source, wrong.line, is_open=True)
        if request is None:
            return Cause(Side.REPLY, "A reply that is due didn't come.", [])
        return self.never_replied(request)._replace(behind=(request, *request.bursts))

    def unfinished(self, wrong: Wrong) -> Cause:
        """A message that lacks beats."""
        request = self.last_of(wrong.client, wrong.source, wrong.line, is_open=True)
        if request is None:
            return Cause(Side.REQUEST, "A message on channel A has begun, and isn't whole.", [])
        sentence = f"Its message on channel A stopped after {plural(len(request.beats), 'beat')} of {request.beats_due}."
        return Cause(Side.REQUEST, sentence, [self.named(request), *self.its_bursts(request)], (request, *request.bursts))

    def data_alone(self) -> Cause:
        """W beats for which no AW came. Each AW takes the data that came first, so that those left over may be another write's."""
        writes = self.index.data_alone
        grounds = [f"{plural(len(it), 'W beat')} from {self.at(it[0].line)} on" for it in writes[:MOST_LISTED]]
        sentence = "Data of a write came on W, and no AW asks for them: an AW is lost, here or earlier, or wasn't printed."
        return Cause(Side.WRITE, sentence, grounds)

    def never_replied(self, request: Request) -> Cause:
        """How far a request came that got no whole reply."""
        grounds = [self.named(request), *self.its_bursts(request)]
        if request.replies:
            return Cause(Side.REPLY, f"Its reply stopped after {plural(len(request.replies), 'beat')} of {request.replies_due}.", grounds)
        if request.port_address is None:
            return Cause(Side.REPLY, "No region leads to it, so that it is to be denied, and no reply came.", grounds)
        if not request.bursts:
            return Cause(Side.REQUEST, "It was taken on channel A, and no burst of its bytes went out: it was lost before that.", grounds)
        if all(it.answer for it in request.bursts):
            return Cause(Side.REPLY, "Its bursts were all answered, and no reply came of it.", grounds)
        return Cause(Side.ANSWER, "A burst of its bytes has no answer.", grounds)

    def its_bursts(self, request: Request) -> List[str]:
        """The bursts of a request, and whether they were answered."""
        lines = []
        for burst in request.bursts:
            answer = f"answered {self.at(burst.answer.line)}" if burst.answer else "not answered"
            lines.append(f"{burst.name()} ({self.at(burst.beat.line)}), {answer}")
        return lines

    def last_of(self, client: Optional[int], source: Optional[int], line: int, is_open: bool = False) -> Optional[Request]:
        """The last request of a client's source ahead of a line, or the last that isn't answered."""
        return self.index.last_of(client, source, line, is_open)

    def of_reply(self, wrong: Wrong, found: object, beat: Optional[Beat]) -> Cause:
        """A reply's beat of which anything but the payload is wrong."""
        if isinstance(found, Request) and wrong.name not in ("UNASKED", "INTERLEAVED"):
            number_of = [it.line for it in found.replies].index(wrong.line) + 1
            grounds = [f"beat {number_of} of {found.replies_due} of the reply to {self.named(found)}"]
            grounds += [*self.its_bursts(found), *self.errors(found)]
            if wrong.name == "X":
                return Cause(Side.REPLY, "A digit of it isn't known, where it tells something.", grounds)
            side, sentence = self.of_field(wrong, found)
            return Cause(side, sentence, grounds)
        if wrong.name == "INTERLEAVED":
            return self.interleaved(wrong, found, beat)
        return self.unasked(wrong, beat)

    def of_field(self, wrong: Wrong, request: Request) -> Tuple[Side, str]:
        """Why another field than the payload differs: an error may have come too late, or of a burst beside its bytes."""
        late = [it for it in request.bursts if it.answer is None or it.answer.line > wrong.line]
        first, behind = request.port_address or 0, (request.port_address or 0) + request.bytes
        astray = [it for it in request.bursts if not first <= it.address <= it.last_byte < behind]
        if wrong.name in ("DENIED", "CORRUPT") and astray:
            return Side.LIMIT, f"A burst of it lies beside its bytes, {first:08x} to {behind - 1:08x} on the port: due is {wrong.due}."
        if wrong.name in ("DENIED", "CORRUPT") and late:
            return Side.ORDER, f"It came before the answer to its burst, which tells of errors: due is {wrong.due}."
        return Side.REPLY, f"Its {wrong.name} isn't as due: {wrong.due}."

    def errors(self, request: Request) -> List[str]:
        """The answers to its bursts that weren't OKAY."""
        answers = [(it.answer, it.answer.words[1]) for it in request.bursts if it.is_write and it.answer]
        answers += [(part.beat, part.beat.words[2]) for it in request.bursts if not it.is_write for part in it.transfers]
        return [f"{self.at(beat.line)} told {response}" for beat, response in answers if response != "OKAY"]

    def interleaved(self, wrong: Wrong, found: object, beat: Optional[Beat]) -> Cause:
        """A reply begins, or goes on, where another lacks beats."""
        cut, begun = self.history.cut.get(wrong.line), self.history.in_place_of.get(wrong.line)
        grounds = [f"the reply that stopped is to {self.named(cut)}"] if cut else []
        grounds += [f"the reply that has begun is to {self.named(begun)}"] if begun else []
        grounds += [f"this beat is of the reply to {self.named(found)}"] if isinstance(found, Request) else []
        if cut:
            have = f"after {plural(len(cut.replies), 'beat')} of {cut.replies_due}"
            sentence = f"Another reply comes {have} of the one that has begun: that one is cut short, or both are mixed."
            return Cause(Side.REPLY, sentence, grounds, (cut,))
        return Cause(Side.REPLY, "Its source isn't that of the reply that has begun.", grounds, (begun,))

    def unasked(self, wrong: Wrong, beat: Optional[Beat]) -> Cause:
        """A reply that nobody waits for: given twice, to another source, or before its request is whole."""
        client, source = number(beat.words[0]), number(beat.words[4])
        last = self.last_of(client, source, wrong.line)
        if last and (last.accepted is None or last.accepted > wrong.line):
            return Cause(Side.ORDER, "It comes before the last beat of its request.", [self.named(last)], (last,))
        waiting = self.index.in_flight.get(wrong.line, [])
        alike = [it for it in waiting if number(beat.words[3]) == it.size and (beat.words[1] == "0") == it.is_put]
        lost = [it for it in alike if it.ended is None]
        grounds = [f"the client waits for the reply to {self.named(it)}" for it in waiting[:MOST_LISTED]]
        is_again = bool(last and last.replies and last.replies[-1].words[1:] == beat.words[1:])
        if last and last.replies:
            replied_at = self.at(last.replies[-1].line)
            grounds.insert(0, f"the last request of this source, {self.named(last)}, got its reply in {replied_at}")
            late = [it for it in last.bursts if it.answer is None or it.answer.line > last.replies[-1].line]
            grounds[1:1] = [f"that reply came before the answer to its {it.name()} ({self.at(it.beat.line)})" for it in late]
        if lost or alike and not is_again:
            its = (lost or alike)[0]
            sentence = f"No reply is due to source {source}; one like it is due to source {its.source}: it may have the wrong source."
            return Cause(Side.REPLY, sentence, grounds, (its, *its.bursts, last))
        sentence = "The last reply of this source comes again." if is_again else "No reply is due to this source."
        return Cause(Side.REPLY, sentence, grounds, (last, *last.bursts) if last else ())

    # ---- payloads

    def payload(self, wrong: Wrong, request: Request, beat: Beat) -> Cause:
        """A reply's beat with other bytes than are due: each byte has its story, and the first decides on the side, but that one came before
        its answer goes ahead of all others."""
        number_of = [it.line for it in request.replies].index(wrong.line)
        got, due = beat.words[6], wrong.due.split()[7]
        base = request.address // WORD * WORD + number_of * WORD
        lanes = self.differing(request, beat, base, due)
        by_lane = {it: ByteStory(self, request, beat, base + it, byte_of(got, it), byte_of(due, it)) for it in lanes}
        causes = {lane: story.told() for lane, story in by_lane.items()}
        stories: Dict[Tuple, List[int]] = {}
        for lane, cause in causes.items():
            stories.setdefault((cause.side, cause.sentence, *cause.grounds), []).append(lane)
        grounds = [f"beat {number_of + 1} of {request.replies_due} of the reply to {self.named(request)}"]
        for (_, sentence, *its_grounds), its_lanes in stories.items():
            values = [" ".join(hexed(byte_of(text, it)) for it in its_lanes) for text in (due, got)]
            grounds.append(f"at {spans([base + it for it in its_lanes])}: due {values[0]}, came {values[1]}")
            grounds += [f"  {it}" for it in ([sentence] if len(stories) > 1 else []) + its_grounds]
        told = [it[:2] for it in stories] or [(Side.READ, "It differs in bytes that its request doesn't ask for.")]
        side, sentence = next((it for it in told if it[1] == TOO_SOON), told[0])
        if sentence == NOT_SHOWN:
            sentence, more = self.elsewhere({it: story for it, story in by_lane.items() if story.is_brought()}, base)
            grounds += more
        writers = [it.writer for it in by_lane.values() if it.writer]
        behind = [*(it for cause in causes.values() for it in cause.behind), *writers, *(it for writer in writers for it in writer.bursts)]
        return Cause(side, sentence, grounds + self.races(request), tuple(behind))

    def differing(self, request: Request, beat: Beat, base: int, due: str) -> List[int]:
        """The lanes in which a beat isn't as it is due: of those that are compared, else of those that the request asks for, else any."""
        lanes = [it for it in range(WORD) if byte_of(beat.words[6], it) != byte_of(due, it)]
        looked = self.comparison.looked.get(beat.line, ())
        asked = [it for it in lanes if request.address <= base + it < request.address + request.bytes]
        return [it for it in lanes if it in looked] or asked or lanes

    def elsewhere(self, stories: Dict[int, "ByteStory"], base: int) -> Tuple[str, List[str]]:
        """What R brought isn't what the reply shows: whether the bytes that came stand in other lanes of what R brought, either all that the
        request asks for or, where several came wrong, these."""
        first = next(iter(stories.values()))
        request, payload = first.request, first.reply.words[6]
        word = {lane: first.beside(base + lane) for lane in range(WORD)}
        asked = [it for it in range(WORD) if request.address <= base + it < request.address + request.bytes]
        wrong = {lane: byte_of(payload, lane) for lane in stories}
        if None in wrong.values() or not any(wrong.values()):
            return NOT_SHOWN, []
        moves = [[lane ^ by for lane in range(WORD)] for by in SHIFTS] + [[(lane + by) % WORD for lane in range(WORD)] for by in SHIFTS]
        whole = [it for it in moves if all(word[it[lane]] == byte_of(payload, lane) for lane in asked)]
        part = [it for it in moves if len(wrong) > 1 and all(word[it[lane]] == wrong[lane] for lane in wrong)]
        if not whole and not part:
            return NOT_SHOWN, []
        move, lanes = (whole[0], asked) if whole else (part[0], [*wrong])
        place = "the other half" if all(move[lane] == lane ^ WORD // 2 for lane in lanes) else "other lanes"
        came, stand = (" ".join(map(str, it)) for it in (lanes, [move[lane] for lane in lanes]))
        noun = "lane" if len(lanes) == 1 else "lanes"
        sentence = f"R brought the due byte, and the reply shows what stands in {place} of the R beat."
        return sentence, [f"what came in {noun} {came} stands in {noun} {stand} of R"]

    def races(self, request: Request) -> List[str]:
        """The requests that may write a byte of it and were in flight with it."""
        return [f"in flight with it: {self.named(it)}" for it in self.index.races.get(request, [])[:MOST_LISTED]]


def gives_all(request: Request, part: Transfer) -> bool:
    """Whether a request gives, in their places, all the bytes that a W beat writes."""
    for address in range(part.first, part.last + 1):
        if part.is_written(address):
            given = request.gives(request.own_address(address)) if request.covers(address) else None
            if given is None or given.value != part.byte(address):
                return False
    return True


def hexed(value: Optional[int]) -> str:
    return "xx" if value is None else f"{value:02x}"


class ByteStory:
    """What became of a byte up to the reply that shows it: who gave it last, which W beats had it, and which R beat brought it."""

    def __init__(self, explainer: Explainer, request: Request, reply: Beat, address: int, got: Optional[int], due: Optional[int]):
        self.history, self.index, self.at, self.named = explainer.history, explainer.index, explainer.at, explainer.named
        self.request, self.reply, self.got, self.due = request, reply, got, due
        observation = explainer.history.observation
        self.place = observation.on_the_port(address)
        self.writer, self.given = self.last_writer()
        self.carried = self.brought(self.place)

    def last_writer(self) -> Tuple[Optional[Request], Optional[Given]]:
        """The request accepted last before this one that gives the byte."""
        found = self.index.writers.get(self.place // WORD) if self.place is not None else None
        for other in found.before(self.request.accepted) if found and self.request.accepted else ():
            given = other.gives(other.own_address(self.place)) if other.covers(self.place) else None
            if given and not any(it.words[8] == "1" for it in other.beats):
                return other, given
        return None, None

    def brought(self, address: Optional[int]) -> Optional[Tuple[Burst, Transfer]]:
        """The R beat of a byte on the port that came last before the reply, by a burst of this request, or else by any that it may be of."""
        found = None
        for line, burst, part in self.index.parts(address, False).before(self.reply.line + 1) if address is not None else ():
            if line < self.request.begun:
                break
            if self.request.begun < burst.beat.line and part.first <= address <= part.last:
                if burst.request is self.request:
                    return burst, part
                found = found or (burst, part)
        return found

    def is_brought(self) -> bool:
        """Whether R had the due byte."""
        return self.carried is not None and self.carried[1].byte(self.place) == self.due

    def beside(self, address: int) -> Optional[int]:
        """What R brought in the place of another byte of the same word of the reply: in the same R beat, or in the one of that byte."""
        part, place = self.carried[1], self.history.observation.on_the_port(address)
        if part.word <= place < part.word + self.history.observation.bus:
            return part.byte(place)
        other = self.brought(place)
        return other[1].byte(place) if other else None

    def told(self) -> Cause:
        """The side, the sentence and its grounds."""
        grounds = [self.origin()]
        own = [it for it in self.request.bursts if not it.is_write and (it.answer is None or it.answer.line > self.reply.line)]
        late = [it for it in own if it.covers(self.place)] or own
        if late and (self.carried is None or self.carried[0].request is not self.request and late[0].covers(self.place)):
            its_read = f"read: {late[0].name()} ({self.at(late[0].beat.line)})"
            return Cause(Side.REPLY, TOO_SOON, [*grounds, its_read])
        if self.carried is None:
            return Cause(Side.READ, "No R beat of this byte came since the request: look at the addresses of reads.", grounds)
        burst, part = self.carried
        value = part.byte(self.place)
        its_read = f"read: {self.at(burst.beat.line)}, AR of ID {burst.id}; {self.at(part.beat.line)}, R"
        if value == self.due:
            grounds.append(f"{its_read} has the due byte")
            return Cause(Side.READ, NOT_SHOWN if self.got is not None else "R brought the due byte, and the reply shows x or z.", grounds)
        if value != self.got:
            sentence = "R brought another byte than is due, and the reply shows neither."
            return Cause(Side.READ, sentence, [*grounds, f"{its_read} has {hexed(value)}"])
        grounds.append(f"{its_read} has {hexed(value)}, as the reply shows")
        return self.written(grounds, burst, part)

    def origin(self) -> str:
        """Who gave the byte."""
        if self.writer:
            its_beat = "" if self.given.line == self.writer.begun else f", in {self.at(self.given.line)}"
            return f"last given by {self.named(self.writer)}{its_beat}"
        for line, first, values in self.history.observation.fills:
            if self.place is not None and first <= self.place < first + len(values):
                return f"given by no request: the memory began with {values[self.place - first]:02x} ({self.at(line)})"
        return "given by no request: the memory began with it"

    def writes(self, since: int, until: int) -> List[Tuple[Burst, Transfer]]:
        """The W beats between two lines whose transfers cover the byte."""
        parts = self.index.parts(self.place, True).between(since, until) if self.place is not None else []
        covering = [it for it in parts if it.transfer.first <= self.place <= it.transfer.last]
        return [(it.burst, it.transfer) for it in covering if since < it.burst.beat.line < until]

    def written(self, grounds: List[str], read: Burst, brought: Transfer) -> Cause:
        """The memory gave a byte that isn't due: it wasn't written, was written wrong, too late, or over."""
        since = self.writer.begun if self.writer else 0
        beats = self.writes(since, brought.beat.line)
        others = [it for it in beats if it[0].request is not self.writer or self.writer is None]
        over = [it for it in others if it[1].is_written(self.place) and it[1].byte(self.place) == self.got]
        for burst, part in reversed(over):
            request, giver = burst.request, None
            if request and request.covers(self.place):
                giver = request.gives(request.own_address(self.place))
            if giver is None or giver.value != self.got:
                why = f"write: {self.at(part.beat.line)}, W of {burst.name()}, has a strobe for this byte"
                asked = f"its request, {self.named(request)}, doesn't give it" if request else "no request asks for it"
                sentence = "A W beat writes this byte over, which its request doesn't give: look at strobes and addresses of writes."
                return Cause(Side.WRITE, sentence, [*grounds, why, asked], (burst, request))
        if self.writer:
            return self.by_its_writer(grounds, read, over)
        return Cause(Side.ANSWER, "No write gave this byte, and the memory gave it for a read.", grounds)

    def by_its_writer(self, grounds: List[str], read: Burst, over: List[Tuple[Burst, Transfer]]) -> Cause:
        """What the bursts of the request that gave the byte last did with it."""
        parts = [(it, it.transfer_of(self.place)) for it in self.writer.bursts if it.is_write]
        later = sorted((it for it in parts if it[1]), key=lambda it: it[1].beat.line)
        if not later:
            return self.unwritten(grounds)
        burst, part = later[-1]
        its_write = f"write: {self.at(burst.beat.line)}, AW of ID {burst.id}; {self.at(part.beat.line)}, W"
        if not part.is_written(self.place):
            grounds.append(f"{its_write}, strobes {part.beat.words[1]}")
            return Cause(Side.WRITE, "The W beat of this byte has no strobe for it.", grounds)
        if part.byte(self.place) != self.due:
            grounds.append(f"{its_write} has {hexed(part.byte(self.place))}")
            return Cause(Side.WRITE, "The W beat of this byte has another one.", grounds)
        answer = self.at(burst.answer.line) if burst.answer else "never"
        grounds = [*grounds, f"{its_write} has the due byte; B {answer}"]
        is_late = burst.answer is None or read.beat.line < burst.answer.line
        if self.writer.replies and (burst.answer is None or self.writer.replies[-1].line < burst.answer.line):
            grounds.append(f"the Put was acknowledged before its B, in {self.at(self.writer.replies[-1].line)}")
            return Cause(Side.ORDER, "The read was made before the write was answered, whose acknowledgement came too soon.", grounds)
        if is_late:
            return Cause(Side.ORDER, "The read was made before the write was answered: it overtook it.", grounds)
        if over:
            grounds.append(f"write: {self.at(over[-1][1].beat.line)}, W of {over[-1][0].name()}, has the byte that came")
            return Cause(Side.ORDER, "An older byte was written over it: a write overtook another.", grounds)
        return Cause(Side.ANSWER, "The byte was written and answered, and the memory gave another one for the read.", grounds)

    def unwritten(self, grounds: List[str]) -> Cause:
        """No W beat of the request that gave the byte last is of this byte: where its data went, if they are found."""
        for line, burst, part in self.astray():
            grounds.append(f"write: {self.at(burst.beat.line)}, AW of ID {burst.id}; {self.at(line)}, W has what that request gives")
            sentence = f"The byte that was given last was never written: its data went to {written_at(part):08x} (line {line})."
            return Cause(Side.WRITE, sentence, grounds, (burst,))
        others = [it for it in self.writer.bursts if it.is_write]
        grounds.append("write: no W beat of this byte came of that request" if others else "write: no W beat came of that request")
        grounds += [f"perhaps of that request: {it.name()} ({self.at(it.beat.line)})" for it in others[:MOST_LISTED]]
        return Cause(Side.WRITE, "The byte that was given last was never written.", grounds)

    def astray(self) -> Iterator[Part]:
        """W beats with the data that the request gave with the byte, which don't cover it, and aren't as another request gives them."""
        beat = self.writer.beats[self.own_beat()]
        for data in data_of(beat.words[6], beat.words[7], self.history.observation.bus):
            found = self.index.written_data.get(data)
            for it in found.between(self.given.line, self.reply.line) if found else ():
                is_elsewhere = not it.transfer.first <= self.place <= it.transfer.last
                if is_elsewhere and not (it.burst.request and gives_all(it.burst.request, it.transfer)):
                    yield it

    def own_beat(self) -> int:
        """Which beat of the request that gave the byte last gave it."""
        return next(at for at, it in enumerate(self.writer.beats) if it.line == self.given.line)


def written_at(part: Transfer) -> int:
    """The first byte that a W beat writes."""
    return next((it for it in range(part.first, part.last + 1) if part.is_written(it)), part.first)
