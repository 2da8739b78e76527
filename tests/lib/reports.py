"""Holds a report of `mng replay --calls` to what every report must show, whatever order its threads came in.

- Each op has the reply that fits its line and what stands for the op whose block it takes, by the plan and log by log.
- A block lies at a multiple of 16, with header and trailer inside the space.
- TooLarge and BadAlign come exactly by size and alignment. Refusals have numbers of their own, from 1 on, which rise along
  each log.
- A move whose address stays is a resize in place; else it is a make and then a free.
- The twelve counts follow from the replies.
- No two live blocks overlap, in some order of all calls that keeps each log's own and has the giver of a hand-off before
  its taker. What the order must be so that two blocks are apart is followed until nothing more follows; an order that
  contradicts itself is a fault.
"""
import re
from collections import Counter, deque
from dataclasses import dataclass, field

from following import Mode
from heap import TOO_LARGE, TOO_LARGE_ALIGN
from logs import ops_of, read_logs
from policy import GROUP_HEAD, HEADER, PAGE, THRESHOLD, UNIT, pages_of

COUNTS = ('logs', 'calls', 'given', 'taken', 'resized', 'nomemory', 'toolarge', 'badalign', 'skipped', 'absent', 'left',
          'pages')
ADDRESS = re.compile(r'0x[1-9a-f][0-9a-f]*')
REFUSAL = re.compile(r'NoMemory ([1-9][0-9]*)')


class Fault(Exception):
    """The report can't be that of any run."""


@dataclass(eq=False, slots=True)
class Moment:
    """A place in a log's order. Its clock has for each log how many of that log's moments have come, this one included."""
    log: int
    place: int
    clock: list
    later: list = field(default_factory=list)

    def is_before(self, other):
        return other.clock[self.log] >= self.place


@dataclass(eq=False, slots=True)
class Block:
    """A block, with the units of 16 bytes that nobody else's may touch while it lives, and the moments of its life."""
    address: int
    units: range
    given: Moment
    is_aligned: bool
    taken: Moment = None

    def begins_in_life_of(self, other):
        """Surely given before the other was taken."""
        return other.taken is None or self.given.is_before(other.taken)


def units_of(address, size, is_aligned):
    """A unit begins 4 bytes early, at a header. A block that is of no class has a run of pages, but where in it an aligned one
    lies can't be told."""
    if size < THRESHOLD or is_aligned:
        return range(address // UNIT, (address + size + HEADER - 1) // UNIT + 1)
    first = (address - GROUP_HEAD) // PAGE
    return range(first * PAGE // UNIT, (first + pages_of(size + HEADER + GROUP_HEAD)) * PAGE // UNIT)


class Order:
    """What is known of the order of all moments."""

    def __init__(self, logs):
        self.last = [Moment(log, 0, [0] * logs) for log in range(logs)]

    def next(self, log):
        """The log's next moment."""
        before = self.last[log]
        moment = Moment(log, before.place + 1, list(before.clock))
        moment.clock[log] += 1
        before.later.append(moment)
        self.last[log] = moment
        return moment

    @staticmethod
    def add(earlier, later):
        """Takes in that a moment came before another, and what follows for all behind."""
        if later.is_before(earlier):
            raise Fault('the order contradicts itself')
        earlier.later.append(later)
        work = [(earlier, later)]
        while work:
            first, then = work.pop()
            joined = [max(pair) for pair in zip(first.clock, then.clock)]
            if joined != then.clock:
                then.clock = joined
                work.extend((then, each) for each in then.later)

    def parts(self, first, second):
        """Takes in what follows for the order so that two overlapping blocks don't live at once. Says whether it is known."""
        begins, other_begins = first.begins_in_life_of(second), second.begins_in_life_of(first)
        if begins and other_begins:
            raise Fault(f'the blocks at 0x{first.address:x} and 0x{second.address:x} overlap and live at once')
        if begins:
            self.add(first.taken, second.given)
        elif other_begins:
            self.add(second.taken, first.given)
        return begins or other_begins


def overlapping(blocks):
    """All pairs of blocks that have a unit in common."""
    open_blocks = []
    for block in sorted(blocks, key=lambda each: each.units.start):
        open_blocks = [each for each in open_blocks if each.units.stop > block.units.start]
        yield from ((each, block) for each in open_blocks)
        open_blocks.append(block)


class Report:
    """The replies of a report, op by op in the plan's order."""

    def __init__(self, text, logs, pages, mode, quota):
        self.pages, self.mode = pages, mode
        # A space gives all of its pages but the first.
        self.most = pages - 1 if quota is None else min(quota, pages - 1)
        self.lines, self.counts = [deque() for _ in logs], []
        self.order = Order(len(logs))
        self.blocks, self.standing, self.ends = [], [], []
        self.numbers = [[] for _ in logs]
        self.tally = Counter(logs=len(logs))
        self.handed = 0
        self.sort(text)

    def sort(self, text):
        """The lines of each log, which come log by log, and the counts."""
        last = 1
        for line in text.splitlines():
            first, _, rest = line.partition(' ')
            if not first.isdecimal():
                self.counts.append(line)
            elif self.counts or not last <= int(first) <= len(self.lines):
                raise Fault(f'a line out of its place: {line}')
            else:
                last = int(first)
                self.lines[last - 1].append(rest)

    def take(self, log, words):
        """What stands behind these words in the log's next line."""
        line = self.lines[log].popleft() if self.lines[log] else 'nothing'
        if not f'{line} '.startswith(f'{words} '):
            raise Fault(f'"{log + 1} {line}" where "{log + 1} {words}" fits')
        return line[len(words) + 1:]

    def expect(self, log, words):
        if self.take(log, words):
            raise Fault(f'words behind "{log + 1} {words}"')

    def do(self, op, source_log):
        """One op: its moments, its lines, and what stands for it."""
        log, line = op.log, op.line
        gives, takes = self.order.next(log), self.order.next(log)
        self.ends.append(takes)
        block = None if op.source is None else self.standing[op.source]
        if op.source is not None and source_log != log:
            self.order.add(self.ends[op.source], gives)
            self.handed += 1
        if line.old and block is None:
            word, count = ('skip', 'skipped') if op.source is None else ('none', 'absent')
            self.expect(log, f'{word} 0x{line.old:x}')
            self.tally[count] += 1
        came = self.make(log, line, block, (gives, takes)) if line.new else None
        if block and not line.new:
            self.expect(log, f'free 0x{block.address:x}')
        if block and block.taken is None and (came or not line.new):
            block.taken = takes
            self.tally['taken'] += 1
        self.tally['calls'] += bool(line.new or block)
        self.standing.append(came or (block if line.new else None))

    def make(self, log, line, block, moments):
        """The block that a make or a move gets, or None. A move's has the common alignment."""
        mode = Mode() if block else self.mode
        answer = self.take(log, (f'realloc 0x{block.address:x}' if block else mode.words()) + f' 0x{line.size:x}')
        refusal, number = self.refusal_of(mode, line.size), REFUSAL.fullmatch(answer)
        if refusal is None and ADDRESS.fullmatch(answer):
            return self.place(int(answer, 16), line.size, block, moments)
        if answer != refusal if refusal else not number:
            raise Fault(f'{answer} for 0x{line.size:x} bytes')
        if number:
            self.numbers[log].append(int(number[1]))
        self.tally[(refusal or 'NoMemory').lower()] += 1
        return None

    @staticmethod
    def refusal_of(mode, size):
        """The refusal that a make must have by its alignment and its size, or None."""
        align = max(mode.units(), UNIT)
        if mode.is_bad():
            return 'BadAlign'
        return 'TooLarge' if align >= TOO_LARGE_ALIGN or size + align - UNIT >= TOO_LARGE else None

    def place(self, address, size, block, moments):
        """The block that lies at an address now: a new one, or one that was resized there."""
        gives, takes = moments
        stays = block is not None and block.address == address
        align = UNIT if block else max(self.mode.units(), UNIT)
        is_aligned = block.is_aligned if stays else align > UNIT
        units = units_of(address, size, is_aligned)
        if address % align or units.start < PAGE // UNIT or units.stop * UNIT > self.pages * PAGE:
            raise Fault(f'0x{size:x} bytes at 0x{address:x} are not inside the space, or not at a multiple of {align}')
        if stays:
            block.taken = gives
        self.tally['resized' if stays else 'given'] += 1
        self.blocks.append(Block(address, units, takes if stays else gives, is_aligned))
        return self.blocks[-1]

    def check_counts(self, may_refuse):
        """No line is left, the counts are those of the replies, and the refusals' numbers are the first ones."""
        if any(self.lines):
            raise Fault('more lines than the logs have calls')
        left = [block for block in self.blocks if block.taken is None]
        self.tally['left'] = len(left)
        told = self.counts.pop() if self.counts else ''
        if self.counts != [f'{name} {self.tally[name]}' for name in COUNTS[:-1]]:
            raise Fault(f'the counts {self.counts} where the replies make {dict(self.tally)}')
        least = len({at * UNIT // PAGE for block in left for at in (block.units.start, block.units.stop - 1)})
        if not (re.fullmatch('pages (0|[1-9][0-9]*)', told) and least <= int(told.split()[1]) <= self.most):
            raise Fault(f'{told} with blocks left on {least} pages, where {self.most} may be live')
        numbers = sorted(number for row in self.numbers for number in row)
        if numbers != list(range(1, len(numbers) + 1)) or any(row != sorted(row) for row in self.numbers):
            raise Fault(f'the numbers of refusals are {self.numbers}')
        if numbers and not may_refuse:
            raise Fault('a refusal where no map call can be refused')

    def check_lives(self):
        """Overlapping blocks didn't live at once."""
        pairs, before = list(overlapping(self.blocks)), None
        while len(pairs) != before:
            before = len(pairs)
            pairs = [pair for pair in pairs if not self.order.parts(*pair)]


def check(log, text, pages=4096, may_refuse=True, mode=Mode(), quota=None):
    """Raises Fault where the output can't be a report of replay on these logs. The counts of ops, hand-offs and refusals."""
    logs = read_logs(log)
    ops = ops_of(logs)
    report = Report(text, logs, pages, mode, quota)
    for op in ops:
        report.do(op, None if op.source is None else ops[op.source].log)
    report.check_counts(may_refuse)
    report.check_lives()
    return Counter(ops=len(ops), handed=report.handed, refused=report.tally['nomemory'])
