"""The cases of tests/cases, and what tests of the tools share."""
import os

from following import Mode

ROOT = os.path.dirname(os.path.dirname(os.path.dirname(os.path.abspath(__file__))))
CASES = os.path.join(ROOT, 'tests/cases')


def read(path, mode='r'):
    with open(path, mode) as file:
        return file.read()


def wanted(got, want, what):
    if got != want:
        raise AssertionError(f'{what}: {got!r}, wanted {want!r}')


def words_of(case):
    path = os.path.join(CASES, case, 'args')
    return read(path).split() if os.path.exists(path) else []


def option(words, name, other):
    return words[words.index(name) + 1] if name in words else other


def mode_of(words):
    """How a case's makes are done."""
    align = option(words, '--align', None)
    return Mode(None if align is None else int(align, 0), '--zero' in words)


def quota_of(words):
    """The most live pages of a case, or None where its words don't tell."""
    quota = option(words, '--quota', None)
    return None if quota is None else int(quota, 0)
