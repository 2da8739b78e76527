"""Where blocks lie in mng's heap and in musl's, call by call, and why an offset differs."""
import os
import subprocess
import tempfile
from dataclasses import dataclass

from heap import NESTED_MARK, TOO_LARGE, Group, cycle
from policy import HEADER, LONE, THRESHOLD, UNIT

FIELDS = ('class', 'slots', 'index', 'pages', 'offset')
REUSED = "a re-used parent slot's header"
LONG = "the offset's bound in a long lone slot"
RESIZED = 'a resized lone block'


@dataclass(slots=True)
class Placed:
    """A block that came, as mng has it: the call, its group and place, and what its offset came from."""
    number: int
    words: str
    group: Group
    values: tuple
    size: int
    counter: int
    found: tuple
    stays: bool

    def is_long(self):
        """One slot on a run of its own, with more than its class."""
        group = self.group
        return group.klass != LONE and group.last == 0 and group.pages and group.stride() > group.class_bytes()


class Calls:
    """The calls for musl, and beside each block that comes where mng has it.

    A call that is refused for want of pages leaves marks in rings, metas and bounces, which musl's heap then has not, since
    its system doesn't refuse. So what is behind the first one is left out.
    """

    def __init__(self):
        self.lines, self.placed = [], []
        self.made = {}
        self.frees = self.moves = self.large = self.resized_lone = self.behind = 0
        self.refused = None

    def add(self, event):
        """A resize in place is one of musl's too; a move is a make and a free; a request that is too large is none."""
        if self.refused is not None:
            self.behind += 1
            return
        if event.is_refused:
            self.large += event.size >= TOO_LARGE
            self.refused = event.number if event.size < TOO_LARGE else None
            return
        self.moves += event.kind == 'realloc'
        if event.stays:
            self.place(event, f'r {self.made[event.came]} {event.size}\n')
            return
        if event.came is not None:
            self.place(event, f'm {event.size}\n')
        if event.went is not None:
            self.resized_lone += self.is_lone_resize(event)
            self.frees += 1
            self.lines.append(f'f {self.made.pop(event.went)}\n')

    @staticmethod
    def is_lone_resize(event):
        return event.came is not None and event.went.slot.group.klass == LONE and event.size >= THRESHOLD

    def place(self, event, line):
        block, group = event.came, event.came.slot.group
        self.made[block] = len(self.lines)
        self.lines.append(line)
        values = (group.klass, group.last + 1, block.slot.index, group.pages, block.offset)
        words = f'{event.kind} 0x{event.size:x}'
        self.placed.append(Placed(event.number, words, group, values, event.size, block.counter, block.found, event.stays))


def places_of(calls):
    """Where musl puts the blocks of these calls, with 1 for each that it would have moved."""
    source = os.path.join(os.path.dirname(os.path.abspath(__file__)), 'musl_places.c')
    with tempfile.TemporaryDirectory() as folder:
        program = os.path.join(folder, 'musl_places')
        subprocess.run(['musl-gcc', '-O2', '-fno-builtin', '-static', '-o', program, source], check=True)
        done = subprocess.run([program], input=''.join(calls), stdout=subprocess.PIPE, text=True, check=True)
    return [tuple(map(int, line.split())) for line in done.stdout.splitlines()]


class Comparison:
    """Counts what is the same. An offset of musl's must be the one that its own earlier ones give, or be unknown."""

    def __init__(self, calls):
        self.calls = calls
        self.same = dict.fromkeys(FIELDS, 0)
        self.causes = {REUSED: [], LONG: []}
        self.others = []
        self.last = {}
        self.left = 0

    def compare(self, places):
        if len(places) != len(self.calls.placed):
            raise RuntimeError(f'musl told {len(places)} places of {len(self.calls.placed)}')
        for placed, (klass, slots, index, offset, pages, was_left) in zip(self.calls.placed, places):
            theirs = (klass, slots, index, pages, offset)
            self.left += was_left
            for field, here, there in zip(FIELDS, placed.values, theirs):
                self.same[field] += here == there
            if placed.values[:4] != theirs[:4]:
                self.others.append(self.words(placed, theirs))
            else:
                self.compare_offset(placed, theirs)
            self.last[placed.group, index] = offset

    def compare_offset(self, placed, theirs):
        here, there = placed.values[4], theirs[4]
        wanted = self.wanted_offset(placed)
        if wanted is not None and there != wanted:
            self.others.append(self.words(placed, theirs) + f", where musl's rules give {wanted}")
        elif here != there:
            cause = REUSED if placed.group.is_reused else LONG if placed.is_long() else None
            (self.others if cause is None else self.causes[cause]).append(self.words(placed, theirs))

    def wanted_offset(self, placed):
        """What musl's offset must be, by the last one in the slot, or None where that lies in cells from before."""
        last = self.last.get((placed.group, placed.values[2]))
        if placed.stays:
            return last
        if placed.found[0] & 0xe0 == NESTED_MARK:
            found = placed.found
        elif last is not None:
            found = (1, last)
        elif placed.group.is_reused:
            return None
        else:
            found = (0, 0)
        stride = placed.group.stride()
        return cycle(found, (stride - HEADER - placed.size) // UNIT, placed.counter)

    @staticmethod
    def words(placed, theirs):
        parts = [f'{field} {here} here and {there} in musl'
                 for field, here, there in zip(FIELDS, placed.values, theirs) if here != there]
        return f'call {placed.number}, {placed.words}: ' + ', '.join(parts)

    def is_same(self):
        return not self.others

    def lines(self, most):
        """The figures, and the first differences of each kind."""
        calls, total = self.calls, len(self.calls.placed)
        yield f'{total} blocks placed, {calls.frees} ended, {calls.moves} moves, {calls.large} requests too large left out'
        if calls.refused is not None:
            yield (f'compared up to call {calls.refused}, which mng refuses for want of pages: {calls.behind} calls behind it '
                   'left out (--pages gives more room)')
        yield ', '.join(f'{field} {count} of {total}' for field, count in self.same.items())
        for cause, found in self.causes.items():
            yield f'offsets that differ by {cause}: {len(found)}'
            yield from (f'  {words}' for words in found[:most])
        yield f'{RESIZED}, moved in both: {calls.resized_lone}'
        yield f'resized in place here, and left by musl for its own offset: {self.left}'
        yield f'other differences: {len(self.others)}'
        yield from (f'  {words}' for words in self.others[:most])
