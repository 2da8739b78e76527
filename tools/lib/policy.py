"""The numbers of the policy: size classes, how many slots a group gets, which group is kept, and when the next class serves."""

UNIT = 16
PAGE = 4096
UNITS = (1, 2, 3, 4, 5, 6, 7, 8, 9, 10, 12, 15, 18, 20, 25, 31, 36, 42, 50, 63, 72, 84, 102, 127,
         146, 170, 204, 255, 292, 340, 409, 511, 584, 682, 818, 1023, 1169, 1364, 1637, 2047,
         2340, 2730, 3276, 4095, 4680, 5460, 6552, 8191)
LONE = 63
THRESHOLD = 131052
NESTED_BYTES = 2048
HEADER = 4
GROUP_HEAD = 16

SMALL_COUNTS = ((30, 30, 30), (31, 15, 15), (20, 10, 10), (31, 15, 7), (25, 12, 6), (21, 10, 5), (18, 8, 4), (31, 15, 7),
                (28, 14, 6))
LARGE_COUNTS = (28, 24, 20, 32)
BOUNCING = 100
BOUNCED = 150


def class_of(size):
    """The least class whose slots hold so many bytes and a header, or that of a block by itself."""
    if size >= THRESHOLD:
        return LONE
    low, high = 0, len(UNITS) - 1
    while low < high:
        middle = (low + high) // 2
        low, high = (low, middle) if UNIT * UNITS[middle] >= size + HEADER else (middle + 1, high)
    return low


def pages_of(size):
    return -(-size // PAGE)


class Policy:
    """How many slots a group gets, and when a group is kept. A reader may change its numbers, to see what that changes."""

    def __init__(self, small_counts=SMALL_COUNTS, large_counts=LARGE_COUNTS):
        self.small_counts = small_counts
        self.large_counts = large_counts

    def count(self, klass, usage, near, is_bouncing):
        """The slots of a new group, with as many slots of its class live, and so many of the next one."""
        count = self.first_count(klass, usage)
        size = UNIT * UNITS[klass]
        if count == 1 and size + GROUP_HEAD <= NESTED_BYTES:
            count = 2
        whole = size * count
        if whole + GROUP_HEAD > NESTED_BYTES and 4 * count > usage + near and not is_bouncing:
            fewer = ((klass % 4 == 1 and whole > 32768, 2), (klass % 4 == 2 and whole > 16384, 3),
                     (klass % 4 == 0 and whole > 32768, 3), (klass % 4 == 0 and whole > 8192, 5))
            count = next((few for holds, few in fewer if holds), count)
        return count

    def first_count(self, klass, usage):
        if klass < len(self.small_counts):
            row = self.small_counts[klass]
            return next((count for count in row[:2] if 4 * count <= usage), row[2])
        count = self.large_counts[klass % 4]
        while count % 2 == 0 and 4 * count > usage:
            count //= 2
        while UNITS[klass] * count >= 65536:
            count //= 2
        return count

    @staticmethod
    def keeps(slots, usage, is_alone, is_bouncing):
        """Whether a group stays though all its slots are free."""
        return is_alone and is_bouncing and not (9 * slots <= usage and slots < 20)


class Bounces:
    """How often groups of a class have come soon after one went."""
    CLASSES = range(7, 39)

    def __init__(self):
        self.now = 0
        self.last = dict.fromkeys(self.CLASSES, 0)
        self.counts = dict.fromkeys(self.CLASSES, 0)

    def step(self):
        if self.now == 255:
            self.last = dict.fromkeys(self.CLASSES, 0)
            self.now = 0
        self.now += 1

    def stamp(self, klass):
        """A group of the class went."""
        if klass in self.CLASSES:
            self.last[klass] = self.now

    def account(self, klass):
        """A group of the class comes."""
        if klass in self.CLASSES and self.last[klass] and self.now - self.last[klass] < 10:
            self.counts[klass] = self.counts[klass] + 1 if self.counts[klass] + 1 < BOUNCING else BOUNCED

    def decay(self, klass):
        if klass in self.CLASSES and self.counts[klass]:
            self.counts[klass] -= 1

    def bouncing(self, klass):
        return klass in self.CLASSES and self.counts[klass] >= BOUNCING


def coarse(klass, has_group, usage, next_usage, next_ready):
    """The class that serves a request of this class: it, or the next, while few blocks are live in either."""
    goes_up = 4 <= klass <= 30 and klass % 2 == 0 and klass != 6 and not has_group and usage == 0
    return klass + 1 if goes_up and next_usage + (0 if next_ready else 3) <= 12 else klass
