"""Logs of glibc's mtrace, as the README's section on the input says: their lines, and the order in which ops are done."""
import re
from collections import defaultdict, deque
from dataclasses import dataclass

MOST_SECTIONS = 16
MOST_LINES = 1_000_000
MOST_BYTES = 4096

POINTER = re.compile(rb'\(nil\)|0x[0-9a-fA-F]{1,16}')
SIZE = re.compile(rb'0|0x[0-9a-fA-F]{1,16}')
BLANKS = re.compile(rb'[ \t]+')
START, END = [b'=', b'Start'], [b'=', b'End']


class BadLog(Exception):
    """The input is none that mng takes: the status that it would end with, and its words."""

    def __init__(self, status, words):
        super().__init__(words)
        self.status = status


@dataclass(slots=True)
class Line:
    """What a line of a section does: it makes a name, ends one, or moves a block from an old name to a new one."""
    old: int
    new: int
    size: int


@dataclass(slots=True)
class Op:
    """A line, the log that it is of, and the place in the order of the op that made the block which it takes, or None."""
    log: int
    line: Line
    source: int


def tokens_of(line):
    return [token for token in BLANKS.split(line) if token]


def pointer_of(token):
    return 0 if token == b'(nil)' else int(token, 16)


def form_of(tokens):
    """The mark of a section's line with its pointer and size, '' for a blank line, or None where it has no form."""
    if not tokens:
        return '', 0, 0
    if len(tokens) >= 2 and tokens[-2] in (b'-', b'<') and POINTER.fullmatch(tokens[-1]):
        return tokens[-2].decode(), pointer_of(tokens[-1]), 0
    if len(tokens) >= 3 and tokens[-3] in (b'+', b'>', b'!') \
            and POINTER.fullmatch(tokens[-2]) and SIZE.fullmatch(tokens[-1]):
        return tokens[-3].decode(), pointer_of(tokens[-2]), int(tokens[-1], 16)
    return None


class Section:
    """The lines of one log, joined as they are read."""

    def __init__(self):
        self.lines = []
        self.waiting = None

    def add(self, mark, pointer, size):
        """Takes in a line that isn't blank. An old name waits for the new one on the very next line."""
        old, self.waiting = self.waiting, None
        if mark == '<':
            self.waiting = pointer
        elif mark == '>' and old is not None and pointer:
            self.lines.append(Line(old, pointer, size))
        elif mark == '+' and pointer:
            self.lines.append(Line(0, pointer, size))
        elif mark == '-' and pointer:
            self.lines.append(Line(pointer, 0, 0))

    def blank(self):
        self.waiting = None


def read_logs(text):
    """The sections of a whole input, each a list of lines. Raises BadLog for what mng ends with."""
    sections, section = [], None
    *whole, cut = text.split(b'\n')
    for number, line in enumerate(whole, 1):
        if number > MOST_LINES or len(line) > MOST_BYTES:
            raise BadLog(5, f'line {number}: limit')
        tokens = tokens_of(line)
        if tokens == START:
            if len(sections) == MOST_SECTIONS:
                raise BadLog(5, f'line {number}: limit')
            section = Section()
            sections.append(section)
        elif section is None:
            continue
        elif tokens == END:
            section = None
        else:
            form = form_of(tokens)
            if form is None:
                raise BadLog(4, f'line {number}: not a log line')
            section.add(*form) if form[0] else section.blank()
    if cut and (len(whole) >= MOST_LINES or len(cut) > MOST_BYTES):
        raise BadLog(5, f'line {len(whole) + 1}: limit')
    if not sections:
        raise BadLog(6, 'no log')
    return [section.lines for section in sections]


def makers_of(lines):
    """For each line the earlier one of this log that made the block which it takes, or None."""
    last, makers = {}, []
    for place, line in enumerate(lines):
        makers.append(last.pop(line.old, None) if line.old else None)
        if line.new:
            last[line.new] = place
    return makers


def posted_of(lines):
    """The lines whose block goes to whoever claims it: no line of this log mentions its name next to end it."""
    ended, posted = {}, set()
    for place in range(len(lines) - 1, -1, -1):
        line = lines[place]
        if line.new:
            if not ended.get(line.new, False):
                posted.add(place)
            ended[line.new] = False
        if line.old:
            ended[line.old] = True
    return posted


class Turns:
    """The ops of several logs in the order in which they are done."""

    def __init__(self, logs):
        self.logs = logs
        self.makers = [makers_of(lines) for lines in logs]
        self.posted = [posted_of(lines) for lines in logs]
        self.next = [0] * len(logs)
        self.places = [[] for _ in logs]
        self.posts = defaultdict(deque)
        self.ops = []

    def do_next(self, log, is_skip):
        """Does the log's next op, unless it waits for a block that nobody has posted. Says whether it did."""
        place = self.next[log]
        if place == len(self.logs[log]):
            return False
        line, source = self.logs[log][place], None
        if self.makers[log][place] is not None:
            source = self.places[log][self.makers[log][place]]
        elif line.old and self.posts[line.old]:
            source = self.posts[line.old].popleft()
        elif line.old and not is_skip:
            return False
        self.places[log].append(len(self.ops))
        if line.new and place in self.posted[log]:
            self.posts[line.new].append(len(self.ops))
        self.ops.append(Op(log, line, source))
        self.next[log] += 1
        return True

    def round(self):
        """Each log in turn does its next op. Where all wait, the first that has one left does it without a block."""
        did = [self.do_next(log, False) for log in range(len(self.logs))]
        return any(did) or any(self.do_next(log, True) for log in range(len(self.logs)))


def ops_of(logs):
    """All ops, in the order in which they are done."""
    turns = Turns(logs)
    while turns.round():
        pass
    return turns.ops
