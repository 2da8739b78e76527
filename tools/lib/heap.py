"""A heap of the allocator's rules, call by call: which slot a block gets and where in it, and what each page carries.

It keeps no memory of blocks. Of the cells it keeps the headers at the starts of slots, since the next block's offset comes
from them.
"""
from collections import deque
from dataclasses import dataclass, field

from policy import (GROUP_HEAD, HEADER, LONE, NESTED_BYTES, PAGE, THRESHOLD, UNIT, UNITS, Bounces, Policy, class_of, coarse,
                    pages_of)

METAS = 101
TOO_LARGE = 2**63 - 4097
TOO_LARGE_ALIGN = 2**35
FREED_MARK = 255
OFFSET_MARK = 7 << 5
NESTED_MARK = 6 << 5


class Refused(Exception):
    """The mapper gave no run."""


class Mapper:
    """Gives the lowest run of pages that is free. It refuses where there is none, and the calls of these numbers.

    A call by which more pages than the quota would be live is refused first, and has no number."""

    def __init__(self, pages, refused=(), quota=None):
        self.quota = pages if quota is None else quota
        self.used = bytearray(b'\1') + bytearray(pages - 1)
        self.refused = set(refused)
        self.calls = self.refusals = self.live = 0

    def map(self, pages):
        is_refused = self.live + pages > self.quota
        if not is_refused:
            self.calls += 1
            is_refused = self.calls in self.refused or pages > len(self.used)
        page = -1 if is_refused else self.used.find(bytes(pages))
        if page < 0:
            self.refusals += 1
            raise Refused(self.refusals)
        self.used[page:page + pages] = b'\1' * pages
        self.live += pages
        return page * PAGE

    def unmap(self, base, pages):
        self.used[base // PAGE:base // PAGE + pages] = bytes(pages)
        self.live -= pages


class Cells:
    """What is known of a run: the headers at the starts of slots, where they aren't 0, and which starts were ever used."""

    def __init__(self):
        self.headers, self.used = {}, set()


@dataclass(eq=False, slots=True)
class Group:
    """Slots of one class, on pages of their own or in a slot of another group."""
    meta: int
    base: int
    klass: int
    last: int
    pages: int
    active: int = 0
    avail: int = 0
    freed: int = 0
    carrier: 'Slot' = None
    is_listed: bool = False
    is_reused: bool = False
    blocks: dict = field(default_factory=dict)
    carried: dict = field(default_factory=dict)
    cells: 'Cells' = None

    def __post_init__(self):
        self.cells = self.carrier.group.cells if self.carrier else Cells()

    def class_bytes(self):
        return UNIT * UNITS[self.klass]

    def stride(self):
        return self.pages * PAGE - GROUP_HEAD if self.last == 0 and self.pages else self.class_bytes()

    def room(self):
        """The bytes of a slot that a block and its offset may use."""
        return self.stride() if self.klass == LONE else min(self.stride(), self.class_bytes())

    def is_short(self):
        """Its one slot has less than its class."""
        return self.klass != LONE and self.stride() < self.class_bytes()

    def start(self, index):
        return self.base + GROUP_HEAD + self.stride() * index

    def all_slots(self):
        return (2 << self.last) - 1

    def in_use(self):
        return (2 << self.active) - 1

    def active_freed(self):
        return self.freed & self.in_use()

    def raise_active(self):
        """Takes more slots into use: those up to the end of a page."""
        size, count = self.class_bytes(), self.active + 2
        span = GROUP_HEAD + size * count
        while (span ^ (span + size - 1)) < PAGE:
            count, span = count + 1, span + size
        self.active = min(count - 1, self.last)


@dataclass(frozen=True, slots=True)
class Slot:
    group: Group
    index: int

    def bit(self):
        return 1 << self.index

    def start(self):
        return self.group.start(self.index)


@dataclass(eq=False, slots=True)
class Block:
    """A live block: its slot, its address, the bytes that were asked, and the units from the slot's start to it."""
    slot: Slot
    address: int
    size: int
    offset: int
    found: tuple
    counter: int


def lowest(group, bits):
    return Slot(group, (bits & -bits).bit_length() - 1)


class Core:
    """Groups and their slots, rings of groups that may serve, and the metas without a group."""

    def __init__(self, mapper, policy):
        self.mapper, self.policy = mapper, policy
        self.rings = [deque() for _ in UNITS]
        self.usage = [0] * len(UNITS)
        self.bounces = Bounces()
        self.counter = 0
        self.metas, self.unused, self.areas = deque(), deque(), []
        self.groups = {}

    def near(self, klass):
        return self.usage[klass + 1] if klass % 2 == 0 and klass < 32 else 0

    def class_for(self, size):
        klass = class_of(size)
        if klass == LONE or klass + 1 == len(UNITS):
            return klass
        ring, above = self.rings[klass], self.rings[klass + 1]
        is_ready = bool(above) and bool(above[0].avail | above[0].freed)
        return coarse(klass, bool(ring), self.usage[klass], self.usage[klass + 1], is_ready)

    def find_meta(self):
        if self.metas:
            return self.metas.popleft()
        if not self.unused:
            area = self.mapper.map(1)
            self.areas.append(area)
            self.unused.extend(area + 24 + 40 * place for place in range(METAS))
        return self.unused.popleft()

    def take_slot(self, klass, size):
        """A slot of the class: an available one of the ring's first group, a freed one of some group, or one of a new group."""
        ring = self.rings[klass]
        if not ring:
            return self.build(klass, size)
        first = ring[0]
        if not first.avail:
            first = self.choose(ring)
            if first is None:
                return self.build(klass, size)
            self.take_freed(first)
            self.bounces.decay(klass)
        slot = lowest(first, first.avail)
        first.avail &= ~slot.bit()
        return slot

    def choose(self, ring):
        """Which group of the ring serves: it comes first, with freed slots in use."""
        if not ring[0].freed:
            ring.popleft().is_listed = False
        else:
            ring.rotate(-1)
        tests = (lambda g: g.active_freed() and g.freed != g.all_slots(), Group.active_freed, lambda g: g.freed)
        chosen = next((group for test in tests for group in ring if test(group)), None)
        if chosen is not None:
            ring.rotate(-ring.index(chosen))
            while not chosen.active_freed():
                chosen.raise_active()
        return chosen

    @staticmethod
    def take_freed(group):
        group.avail |= group.active_freed()
        group.freed &= ~group.in_use()

    def build(self, klass, size):
        """A new group, whose first slot is the answer."""
        meta = self.find_meta()
        try:
            is_bouncing = self.bounces.bouncing(klass)
            count = self.policy.count(klass, self.usage[klass], self.near(klass), is_bouncing)
            large = UNIT * UNITS[klass] * count + GROUP_HEAD > NESTED_BYTES
            group = (self.build_mapped if large else self.build_nested)(meta, klass, count, size)
        except Refused:
            self.metas.append(meta)
            raise
        group.avail = group.in_use() & ~1
        group.freed = group.all_slots() & ~group.in_use()
        self.usage[klass] += group.last + 1
        group.is_listed = True
        self.rings[klass].appendleft(group)
        self.groups[meta] = group
        return Slot(group, 0)

    def build_mapped(self, meta, klass, count, size):
        bytes_each = UNIT * UNITS[klass]
        is_bouncing = self.bounces.bouncing(klass)
        self.bounces.account(klass)
        self.bounces.step()
        pages = pages_of(bytes_each * count + GROUP_HEAD)
        if not is_bouncing and count <= 7:
            own = pages_of(size + HEADER + GROUP_HEAD) * PAGE
            if own < bytes_each + GROUP_HEAD or own >= 16384 and 2 * count > self.usage[klass] + self.near(klass):
                count, pages = 1, own // PAGE
        base = self.mapper.map(pages)
        self.counter += 1
        return Group(meta, base, klass, count - 1, pages, min(max(4080 // bytes_each - 1, 0), count - 1))

    def build_nested(self, meta, klass, count, _):
        size = UNIT * UNITS[klass] * count + GROUP_HEAD - HEADER
        slot = self.take_slot(class_of(size), size)
        start, cells = slot.start(), slot.group.cells
        is_reused = slot.group.is_reused or start in cells.used
        group = Group(meta, start, klass, count - 1, 0, count - 1, carrier=slot, is_reused=is_reused)
        slot.group.carried[slot.index] = group
        cells.headers[start] = (NESTED_MARK | slot.index, (start - slot.group.start(0)) // UNIT)
        cells.used.add(start)
        for index in range(count):
            cells.headers.pop(group.start(index), None)
        return group

    def take_lone(self, size):
        """A group that is one block, on pages of its own."""
        meta = self.find_meta()
        self.bounces.step()
        try:
            base = self.mapper.map(pages_of(size + HEADER + GROUP_HEAD))
        except Refused:
            self.metas.append(meta)
            raise
        self.counter += 1
        self.groups[meta] = Group(meta, base, LONE, 0, pages_of(size + HEADER + GROUP_HEAD))
        return Slot(self.groups[meta], 0)

    def may_go(self, group):
        if group.klass == LONE or group.is_short() or not group.pages:
            return True
        is_alone = group.is_listed and len(self.rings[group.klass]) == 1
        return not self.policy.keeps(group.last + 1, self.usage[group.klass], is_alone, self.bounces.bouncing(group.klass))

    def give_back(self, slot):
        """A slot comes back: it is freed, or its whole group goes."""
        group = slot.group
        if group.freed | group.avail | slot.bit() == group.all_slots() and self.may_go(group):
            self.end(group)
            return
        if not group.is_listed:
            group.is_listed = True
            self.rings[group.klass].append(group)
        group.freed |= slot.bit()

    def end(self, group):
        if group.klass != LONE:
            self.leave_ring(group)
            self.usage[group.klass] -= group.last + 1
        del self.groups[group.meta]
        if group.pages:
            self.bounces.step()
            self.bounces.stamp(group.klass)
            self.mapper.unmap(group.base, group.pages)
        else:
            del group.carrier.group.carried[group.carrier.index]
            self.give_back(group.carrier)
        self.metas.append(group.meta)

    def leave_ring(self, group):
        ring = self.rings[group.klass]
        if not group.is_listed:
            return
        was_first = ring[0] is group
        ring.remove(group)
        if was_first and ring:
            self.take_freed(ring[0])


def cycle(found, slack, counter):
    """The offset of the next block in a slot, in units, from the header found at its start."""
    mark, offset = found
    offset = (offset + 1 if mark else counter) & 255
    if offset > slack:
        mask = slack | slack >> 1
        mask |= mask >> 2
        mask |= mask >> 4
        offset &= mask
        if offset > slack:
            offset -= slack + 1
    return offset


class Heap:
    """Blocks in the core's slots."""

    def __init__(self, pages=4096, refused=(), policy=None, quota=None):
        self.mapper = Mapper(pages, refused, quota)
        self.core = Core(self.mapper, policy or Policy())

    def malloc(self, size, align=UNIT):
        """A block, or Refused with the number of the refusal, or with None where the size is too large.

        The align is 0 or a power of two. The slot has room for what it may take."""
        align = max(align, UNIT)
        asked = size + align - UNIT
        if align >= TOO_LARGE_ALIGN or asked >= TOO_LARGE:
            raise Refused(None)
        klass = self.core.class_for(asked)
        slot = self.core.take_lone(asked) if klass == LONE else self.core.take_slot(klass, asked)
        return self.put(slot, size, align)

    def put(self, slot, size, align):
        start, group = slot.start(), slot.group
        slack = (group.room() - HEADER - (size + align - UNIT)) // UNIT
        found = group.cells.headers.get(start, (0, 0))
        offset = cycle(found, slack, self.core.counter)
        address = -(-(start + UNIT * offset) // align) * align
        distance = (address - start) // UNIT
        if distance:
            group.cells.headers[start] = (OFFSET_MARK, distance & 0xffff)
        else:
            self.set_header(slot, start, size)
        group.cells.used.add(start)
        block = Block(slot, address, size, distance, found, self.core.counter)
        group.blocks[slot.index] = block
        return block

    def set_header(self, slot, address, size):
        """The header of a block at its slot's start."""
        reserved = min(slot.start() + slot.group.stride() - HEADER - address - size, 5)
        slot.group.cells.headers[address] = (reserved << 5 | slot.index, (address - slot.group.start(0)) // UNIT)

    def free(self, block):
        slot = block.slot
        del slot.group.blocks[slot.index]
        if block.offset == 0:
            slot.group.cells.headers[block.address] = (FREED_MARK, 0)
        self.core.give_back(slot)

    def stays(self, block, size):
        """Whether a resize keeps the block where it is."""
        group = block.slot.group
        if group.klass == LONE:
            from_start = block.address - block.slot.start()
            return size >= THRESHOLD and pages_of(size + from_start + HEADER + GROUP_HEAD) == group.pages
        end = block.slot.start() + group.stride() - HEADER
        return size <= end - block.address and size < THRESHOLD and class_of(size) + 1 >= group.klass

    def resize(self, block, size):
        """The block with another size, at its place."""
        block.size = size
        if block.offset == 0:
            self.set_header(block.slot, block.address, size)
