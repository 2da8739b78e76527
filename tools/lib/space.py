"""What the space has at one moment: for each page how much of it is live, available and freed, and the slots by class."""
from collections import Counter, defaultdict

from policy import LONE, PAGE, UNIT, UNITS

LIVE, AVAILABLE, FREED, CARRYING = 'live', 'available', 'freed', 'carrying a group'
BANDS = 6
AREA, LONE_BAND = 'meta areas', 'lone blocks'


def band_of(klass):
    return LONE_BAND if klass == LONE else klass * BANDS // len(UNITS)


def band_words(band):
    """The sizes of a band's slots."""
    if not isinstance(band, int):
        return band
    each = len(UNITS) // BANDS
    return f'slots of {UNIT * UNITS[band * each]:,} to {UNIT * UNITS[band * each + each - 1]:,} bytes'


def state_of(group, index):
    if index in group.blocks:
        return LIVE
    if index in group.carried:
        return CARRYING
    return AVAILABLE if group.avail >> index & 1 else FREED


class Space:
    """Pages by number, each with its band's and state's bytes; and the slots of each class by state."""

    def __init__(self, heap):
        self.pages = defaultdict(Counter)
        self.slots = defaultdict(Counter)
        self.groups = Counter()
        self.runs = set(area // PAGE for area in heap.core.areas)
        self.mapped, self.size = heap.mapper.live, len(heap.mapper.used)
        for area in heap.core.areas:
            self.add_bytes(area, PAGE, (AREA, LIVE))
        for group in heap.core.groups.values():
            self.groups[group.klass] += 1
            for index in range(group.last + 1):
                self.slots[group.klass][state_of(group, index)] += 1
            if group.pages:
                self.add_run(group)
        self.end = max(self.pages, default=0) + 1

    def add_run(self, group):
        """All of its pages are there, also where nothing is in them."""
        self.runs.add(group.base // PAGE)
        for page in range(group.base // PAGE, group.base // PAGE + group.pages):
            self.pages[page][band_of(group.klass), LIVE] += 0
        self.add_slots(group)

    def add_slots(self, group):
        for index in range(group.last + 1):
            state = state_of(group, index)
            if state == CARRYING:
                self.add_slots(group.carried[index])
            else:
                self.add_bytes(group.start(index), group.stride(), (band_of(group.klass), state))

    def add_bytes(self, start, size, kind):
        end = start + size
        while start < end:
            upto = min(end, (start // PAGE + 1) * PAGE)
            self.pages[start // PAGE][kind] += upto - start
            start = upto
