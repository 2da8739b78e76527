"""Follows the report of `mng serial --calls` through a heap of the same rules, call by call.

Each address of the report must be the one that the rules give, so what the heap then has is what the program's has.
"""
import argparse
import os
import subprocess
import sys
from collections import deque
from dataclasses import dataclass

from heap import Block, Heap, Refused
from logs import read_logs, ops_of

ROOT = os.path.dirname(os.path.dirname(os.path.dirname(os.path.abspath(__file__))))
PROGRAM = os.environ.get('MNG', os.path.join(ROOT, 'mng'))


class Mismatch(Exception):
    """The report isn't that of the rules."""


@dataclass(slots=True)
class Event:
    """A heap call: the block that came, the one that went, and whether the call was refused. `stays` is a resize in place."""
    number: int
    kind: str
    log: int
    size: int
    came: Block = None
    went: Block = None
    is_refused: bool = False
    stays: bool = False


def arguments(description):
    """What each tool is told of a log: the file, the program's options, and a stored report in place of a run."""
    parser = argparse.ArgumentParser(description=description, formatter_class=argparse.RawDescriptionHelpFormatter)
    parser.add_argument('log', metavar='LOG')
    parser.add_argument('--pages', type=lambda text: int(text, 0), default=4096, help='pages of the space, as for mng')
    parser.add_argument('--refuse', default='', help='map calls to refuse, as for mng')
    parser.add_argument('--quota', type=lambda text: int(text, 0), help='the most live pages, as for mng')
    parser.add_argument('--report', metavar='FILE', help='a stored output of mng serial --calls on LOG, in place of a run')
    return parser


def open_log(path):
    try:
        return open(path, 'rb')
    except OSError as error:
        sys.exit(f'{path}: {error.strerror}')


def report_of(asked):
    """The report's lines. Ends the tool with the program's own status where it doesn't end with 0."""
    if asked.report:
        with open_log(asked.report) as stored:
            return stored.read().decode('ascii', 'replace').splitlines()
    options = ['--pages', str(asked.pages)] + (['--refuse', asked.refuse] if asked.refuse else [])
    options += [] if asked.quota is None else ['--quota', str(asked.quota)]
    with open_log(asked.log) as log:
        try:
            done = subprocess.run([PROGRAM, 'serial', '--calls', *options], stdin=log, stdout=subprocess.PIPE, text=True,
                                  check=False)
        except OSError as error:
            sys.exit(f'{PROGRAM}: {error.strerror}')
    if done.returncode:
        print(done.stdout, end='', file=sys.stderr)
        sys.exit(done.returncode)
    return done.stdout.splitlines()


def heap_of(asked, policy=None):
    return Heap(asked.pages, [int(call, 0) for call in asked.refuse.split(',') if call], policy, asked.quota)


def ops_in(path):
    with open_log(path) as log:
        return ops_of(read_logs(log.read()))


@dataclass(frozen=True, slots=True)
class Mode:
    """How makes are done: with an alignment, or with bytes of 0."""
    align: int = None
    is_zero: bool = False

    def words(self):
        """What a report calls such a make."""
        return 'malloc' if self == Mode() else 'calloc' if self.is_zero else f'aligned 0x{self.align:x}'

    def is_bad(self):
        """The alignment is neither 0 nor a power of two."""
        return self.align is not None and self.align & -self.align != self.align

    def units(self):
        return 16 if self.align is None else self.align


class Follower:
    """One pass over the ops of a plan, with the report's lines beside."""

    def __init__(self, heap, ops, report, mode=Mode()):
        self.heap, self.ops, self.mode = heap, ops, mode
        self.lines, self.counts = {}, {}
        for line in report:
            first, _, rest = line.partition(' ')
            if first.isdecimal():
                self.lines.setdefault(int(first) - 1, deque()).append(rest)
            else:
                self.counts[first] = rest
        self.standing = []
        self.calls = 0

    def expect(self, log, words):
        """The log's next line is this."""
        lines = self.lines.get(log)
        got = lines.popleft() if lines else 'nothing'
        if got != words:
            raise Mismatch(f'call {self.calls}: the report has "{log + 1} {got}" where the rules give "{log + 1} {words}"')

    def events(self):
        """Does all ops, and tells each call once it is done."""
        for op in self.ops:
            block = None if op.source is None else self.standing[op.source]
            if op.line.old and block is None:
                self.expect(op.log, f"{'skip' if op.source is None else 'none'} 0x{op.line.old:x}")
            event = self.do(op, block)
            if event:
                yield event
        self.check_end()

    def do(self, op, block):
        if not op.line.new and block is None:
            self.standing.append(None)
            return None
        self.calls += 1
        if not op.line.new:
            return self.free(op, block)
        return self.make(op) if block is None else self.move(op, block)

    def free(self, op, block):
        self.expect(op.log, f'free 0x{block.address:x}')
        self.heap.free(block)
        self.standing.append(None)
        return Event(self.calls, 'free', op.log, block.size, went=block)

    def get(self, size, align=16):
        """A new block or None, and what the report says of it."""
        try:
            block = self.heap.malloc(size, align)
            return block, f'0x{block.address:x}'
        except Refused as refused:
            excuse = refused.args[0]
            return None, 'TooLarge' if excuse is None else f'NoMemory {excuse}'

    def make(self, op):
        block, answer = (None, 'BadAlign') if self.mode.is_bad() else self.get(op.line.size, self.mode.units())
        self.expect(op.log, f'{self.mode.words()} 0x{op.line.size:x} {answer}')
        self.standing.append(block)
        return Event(self.calls, 'malloc', op.log, op.line.size, came=block, is_refused=block is None)

    def move(self, op, block):
        """A move is a resize in place where the block may stay, and else a make of the new size, then a free."""
        size, words = op.line.size, f'realloc 0x{block.address:x} 0x{op.line.size:x}'
        if self.heap.stays(block, size):
            self.expect(op.log, f'{words} 0x{block.address:x}')
            return self.resized(op, block)
        came, answer = self.get(size)
        self.expect(op.log, f'{words} {answer}')
        if came is not None:
            self.heap.free(block)
        self.standing.append(came or block)
        went = block if came is not None else None
        return Event(self.calls, 'realloc', op.log, size, came, went, is_refused=came is None)

    def resized(self, op, block):
        self.heap.resize(block, op.line.size)
        self.standing.append(block)
        return Event(self.calls, 'realloc', op.log, op.line.size, came=block, stays=True)

    def check_end(self):
        """No line is left, and the report ends with as many pages."""
        if any(self.lines.values()):
            raise Mismatch('the report has more lines than the log has calls')
        pages = str(self.heap.mapper.live)
        if self.counts.get('pages') != pages:
            raise Mismatch(f"the report ends with {self.counts.get('pages')} pages where the rules give {pages}")
