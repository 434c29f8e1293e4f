"""What lns-sim may write of a script if one request for memory is refused, predicted before it is
played: each is what the same program, with memory to spare, writes of a rewritten script.

Let step N be the one that wants for memory. That may be so in these ways:

- of an event, "its own": only its moment counts, so N becomes a `tick`; after the tick's answer
  stands `refused 30`;
- of an event whose turn closes a window, "its window": the window stays open, and only the moment
  counts. So N is left out, and what comes later in that life isn't earlier than it;
- of `take` and `next`, "lost": the batch is given up. So N and all that are begun later in that
  life are left out, and `refused 42` is the answer to each of these that would have begun;
- of `crash`, "its opening": the disk has crashed, and all is `idle` up to the next crash;
- of any other step that may ask for memory, and of these two, "nothing": N is left out.

`call`, `release` and `fail` never want for memory."""
import re
from itertools import takewhile

REQUESTS = ("provision", "queue", "mac")
NEVER = ("call", "release", "fail")
BEGIN = ("take", "next")
# a window is due this many milliseconds after its first copy
WINDOW = 200
OUT_OF_MEMORY = "refused 30"
TURN = re.compile(r"turn (\d+) (\d+)( refused \d+)?")


class Unfit(Exception):
    """A script whose outputs can't be predicted."""


def word_of(line):
    return line.partition(" ")[0]


def moment_of(line):
    return int(line.split(" ")[1])


def with_moment(line, moment):
    """An event's line with another moment."""
    word, _, *rest = line.split(" ")
    return " ".join([word, str(moment), *rest])


def answers_of(lines, wrote):
    """What was written, as an answer a line. That of a list is a line a device and one more."""
    rest, answers = wrote.split("\n"), []
    for line in lines:
        size = 1
        if line == "list":
            size += len(list(takewhile(lambda line: line[:1].isdigit(), rest)))
        answers.append("\n".join(rest[:size]))
        del rest[:size]
    if rest != [""] or not all(answers):
        raise Unfit("its lines and answers aren't as many")
    return answers


class Script:
    """A script, and what is written of it with memory to spare. `play` answers lines."""

    def __init__(self, lines, play):
        self.lines, self.play = lines, play
        self.ample = play(lines)
        if not self.ample[0].startswith("formatted "):
            raise Unfit("its first line makes no store")
        self.due = self.windows_due()

    def crash_behind(self, place):
        """The place of the next crash, or the script's length."""
        places = range(place + 1, len(self.lines))
        return next((at for at in places if word_of(self.lines[at]) == "crash"), len(self.lines))

    def life_of(self, place):
        """The place of the line that began this life."""
        return max([0, *(at for at in range(place) if word_of(self.lines[at]) == "crash")])

    def windows_due(self):
        """How many windows are due at each event."""
        due, now = {}, 0
        opened: dict[str, int] = {}
        for place, (line, answer) in enumerate(zip(self.lines, self.ample)):
            if word_of(line) == "crash":
                opened, now = {}, 0
            turn = TURN.fullmatch(answer)
            if not turn:
                continue
            now = max(now, moment_of(line))
            closed = [frame for frame, since in opened.items() if now - since >= WINDOW]
            if len(closed) > 1:
                raise Unfit(f"several windows are due at line {place + 1}")
            due[place] = len(closed)
            for frame in closed:
                del opened[frame]
            if word_of(line) == "hear" and not turn[3]:
                opened.setdefault(line.rpartition(" ")[2], now)
        return due

    def made_before(self, place):
        """How many decisions this life had made before a place."""
        turns = (TURN.fullmatch(answer) for answer in self.ample[self.life_of(place) + 1 : place])
        return max([0, *(int(turn[2]) for turn in turns if turn)])

    def ways(self):
        """Each step that may want for memory, with each of its ways, and whether that has to be
        seen. What is idle asks for none; an event that is refused may, and so may a window whose
        frame is."""
        for place, line in enumerate(self.lines[1:], 1):
            word, answer = word_of(line), self.ample[place]
            turn = TURN.fullmatch(answer)
            if turn:
                if word != "tick":
                    yield place, "its own", not turn[3]
                if self.due[place]:
                    yield place, "its window", self.is_decided(place)
            elif not re.fullmatch(r"idle|full|bad line|refused \d+", answer) and word not in NEVER:
                yield place, "its opening" if word == "crash" else "nothing", True
                if word in BEGIN:
                    yield place, "lost", True

    def is_decided(self, place):
        """Whether the frame of a window that an event closes is decided: the turn has a decision
        beside the event's own."""
        turn = TURN.fullmatch(self.ample[place])
        assert turn
        own = word_of(self.lines[place]) in REQUESTS and not turn[3]
        return int(turn[2]) - int(turn[1]) > own

    def output(self, place, way):
        """What is written where the step at this place wants for memory in this way."""
        lines, said = self.rewritten(place, way)
        came = dict(zip(lines, self.play(list(lines.values()))))
        return "\n".join([*(said.get(at, came.get(at)) for at in range(len(self.lines))), ""])

    def rewritten(self, place, way):
        """The rewritten script, its lines by their places; and the answers that stand for its own,
        and for those of lines that are left out."""
        lines = dict(enumerate(self.lines))
        said = {}
        if way == "its own":
            lines[place] = f"tick {moment_of(lines[place])}"
            said[place] = f"{self.play(list(lines.values()))[place]} {OUT_OF_MEMORY}"
        elif way == "its window":
            made = self.made_before(place)
            said[place] = f"turn {made} {made} {OUT_OF_MEMORY}"
            self.not_before(lines, place)
            del lines[place]
        elif way == "its opening":
            said[place] = OUT_OF_MEMORY
            for at in range(place + 1, self.crash_behind(place)):
                said[at] = self.ample[at] if self.ample[at] == "bad line" else "idle"
                del lines[at]
        elif way == "lost":
            said = self.lost(lines, place)
        else:
            said[place] = OUT_OF_MEMORY
            del lines[place]
        return lines, said

    def not_before(self, lines, place):
        """Lets no later event of this life be before the moment of this one."""
        moment = moment_of(lines[place])
        for at in range(place + 1, self.crash_behind(place)):
            if at in self.due and moment_of(lines[at]) < moment:
                lines[at] = with_moment(lines[at], moment)

    def lost(self, lines, place):
        """Takes a lost batch and those of its life after it out of the lines; their answers."""
        said, waiting = {}, 0
        for at in range(self.life_of(place) + 1, self.crash_behind(place)):
            turn, taken = TURN.fullmatch(self.ample[at]), re.match(r"taken (\d+)", self.ample[at])
            if turn:
                waiting += int(turn[2]) - int(turn[1])
            if word_of(self.lines[at]) not in BEGIN or self.ample[at] == "bad line":
                continue
            if at < place:
                waiting -= int(taken[1]) if taken else 0
                continue
            # what it would begin is asked of the script up to it
            asked = self.play([line for number, line in lines.items() if number <= at])[-1]
            del lines[at]
            begins = asked.startswith("taken ")
            said[at] = asked if waiting or asked == "refused 41" else "idle"
            if waiting and begins:
                waiting -= min(waiting, int(self.lines[at].split(" ")[1]))
                said[at] = OUT_OF_MEMORY if at == place else "refused 42"
        return said

    def outputs(self):
        """All that may be written, each with its meaning; and which of these have to be."""
        found = {
            "\n".join([*self.ample, ""]): "all is as with memory",
            f"{OUT_OF_MEMORY}\n": "nothing is done",
        }
        needed = set(found)
        for place, way, has_to in self.ways():
            wrote = self.output(place, way)
            found.setdefault(wrote, f"line {place + 1}, {self.lines[place][:60]}: {way}")
            if has_to:
                needed.add(wrote)
        return found, needed
