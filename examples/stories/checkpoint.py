"""A checkpoint, and power cuts in it."""

from .people import APP_KEY, JOIN_EUI, told
from .story import Story

METERS = [f"{number:016X}" for number in (0xA1, 0xA2, 0xA3, 0xA4)]
BUSY, QUIET = METERS[:3], METERS[3]
SLOTS = len(METERS)
PIECE = 242
DEV_STATUS_REQ = "06"

# of docs/FORMATS.md, in bytes
HEADER, RECORD_ROOM, JOURNAL_ROOM = 30, 4305, 1_048_576


def area_length():
    """The length of an area."""
    return HEADER + SLOTS * RECORD_ROOM + JOURNAL_ROOM


class Books:
    """What must have come of the decisions."""

    def __init__(self):
        self.untaken = 0
        self.made = 0
        self.seq = 0
        # the items that wait
        self.items = dict.fromkeys(METERS, 0)

    def decided(self):
        """A decision; answers its turn."""
        self.untaken += 1
        self.made += 1
        return f"turn {self.made - 1} {self.made}"

    def taken(self):
        """A batch of all that waits, at most 64; answers how many."""
        count = min(self.untaken, 64)
        self.untaken -= count
        self.seq += count
        return count

    def crashed(self):
        """A new life: nothing waits to be taken."""
        self.made = self.untaken = 0

    def listed(self):
        """The list; no device has joined."""
        lines = [
            f"{slot} {story} 0 - - - {self.items[story]} 0" for slot, story in enumerate(METERS)
        ]
        return *lines, f"devices {SLOTS} seq {self.seq + self.untaken}"


def commit(story, books):
    """A commit, whose effects are released and left to wait."""
    count = books.taken()
    story.take(count)
    story.call(4)
    story.line("release", f"released {count}")


def filled(story, books):
    """The journal gets some batches."""
    story.part("A journal")
    story.line(f"format 00002A {SLOTS}", f"formatted {32 + 2 * area_length()}")
    for meter in METERS:
        story.line(f"provision 0 3 {meter} {JOIN_EUI} {APP_KEY} 0 1", books.decided())
    commit(story, books)
    for slot, meter in enumerate(METERS):
        story.line("emit", told(f"provisioned {meter} {slot}"))
    story.say(
        f"A store of {SLOTS} devices has two areas of {area_length():,} bytes. The four devices "
        "are provisioned."
    )
    for meter in BUSY:
        for tag in range(16):
            piece = bytes((tag * PIECE + place) % 251 for place in range(PIECE)).hex().upper()
            books.items[meter] += 1
            story.line(f"queue 0 3 {meter} {tag} 9 u {piece}", books.decided())
        story.line(f"queue 0 3 {meter} 16 9 u 00", f"turn {books.made} {books.made} refused 12")
        commit(story, books)
    story.say(
        "For each of three devices the application queues 16 items of 242 bytes, pieces of an "
        "update. A seventeenth item is refused (12, QueueFull). No gateway hears the devices, so "
        "nothing leaves the queues. Each decision writes only what it changes, here an item, and "
        "not the whole record."
    )


def request(meter):
    """The application asks a device for its state."""
    return f"mac 0 3 {meter} {DEV_STATUS_REQ}"


def cut(story, books):
    """Power cuts while the checkpoint is written."""
    story.part("A checkpoint, and power cuts in it")
    opened = f"opened {SLOTS} {books.seq}"
    for _ in range(2):
        story.line(request(QUIET), books.decided())
    lost = books.untaken
    story.line("checkpoint", "begun")
    story.line("take 64", "idle")
    story.call(1)
    story.line("crash fill", opened)
    books.crashed()
    story.line("list", *books.listed())
    story.say(
        "A checkpoint writes the durable table into the other area, after that area's closed "
        "gate. The power is cut before the sync, and the disk has A5 everywhere the checkpoint "
        f"wrote. The area doesn't count, since its gate is closed. {lost} decisions waited "
        "meanwhile and are lost. Nothing of them had left."
    )
    for calls, image, words in (
        (2, "new", "The table is written and synced, and the gate is closed: the old area counts."),
        (3, "old", "The gate was opened but not synced. The disk lost it: the old area counts."),
    ):
        story.line("checkpoint", "begun")
        story.call(calls)
        story.line(f"crash {image}", opened)
        story.say(words)
    story.line("checkpoint", "begun")
    story.call(3)
    story.line("crash new", opened)
    story.say(
        "Now the disk kept the gate. Both areas are open. The new one counts, since its "
        "generation is greater. It holds the same table and number."
    )


def goes_on(story, books):
    """The journal begins anew, and a second checkpoint goes back."""
    story.part("The store goes on")
    story.line(request(QUIET), books.decided())
    commit(story, books)
    story.line("emit", told(f"macqueued {QUIET} {DEV_STATUS_REQ}"))
    story.line("list", *books.listed())
    story.say("After the checkpoint the next decision is committed as before.")
    story.line("checkpoint", "begun")
    story.call(6)
    story.line("call", "idle")
    story.line(request(QUIET), books.decided())
    commit(story, books)
    story.line("crash old", f"opened {SLOTS} {books.seq}")
    story.line("list", *books.listed())
    story.say(
        "The second checkpoint goes into the first area again. That area's gate is open and must "
        "be closed first, so there are six calls. After a last cut everything is there."
    )


def story():
    """All of it."""
    story = Story(
        "a-checkpoint",
        "A checkpoint, and power cuts in it",
        "Each decision adds to the journal of the live area, which has a mebibyte. Before the "
        "journal is full, a checkpoint writes the whole table into the other area, and a new "
        "journal begins after it. This script asks for checkpoints earlier.",
    )
    books = Books()
    filled(story, books)
    cut(story, books)
    goes_on(story, books)
    return story
