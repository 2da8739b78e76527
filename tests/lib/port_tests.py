"""Tests of docs/PORTING.md: what it names is there, and it has each of musl's functions."""
import os
import re

from cases import ROOT, read, wanted

PATH = re.compile(r'ng_[\w/.-]+\.(rt|antt|edit)')
# What a span may be beside a name: a word of memory, or what the text explains elsewhere.
OTHERS = re.compile(r'lows|tools/.*|[0-9a-f]+:?[0-9a-f]*')


def nearest(spans, place):
    """The files before and behind a span that its paragraph names next to it."""
    before = [span for span in spans[:place] if PATH.fullmatch(span)]
    behind = [span for span in spans[place:] if PATH.fullmatch(span)]
    return before[-1:] + behind[:1]


def porting_names(_):
    """Each file that docs/PORTING.md names is there, and each name stands in the file that is named next to it."""
    checked = 0
    for line in read(os.path.join(ROOT, 'docs/PORTING.md')).splitlines():
        spans = re.findall('`([^`]+)`', line)
        for place, span in enumerate(spans):
            paths = nearest(spans, place)
            if PATH.fullmatch(span) or OTHERS.fullmatch(span) or not paths:
                continue
            words = [set(re.findall(r'\w+', read(os.path.join(ROOT, 'crates', path)))) for path in paths]
            for name in re.findall(r'\w+', span):
                wanted(any(name in found for found in words), True, f'{name} is in {paths}')
                checked += 1
    wanted(checked > 100, True, 'many names were checked')


MUSL = ('alloc_slot', 'try_avail', 'alloc_group', 'enframe', 'get_meta', 'free', 'nontrivial_free', 'okay_to_free',
        'free_group', 'set_size', 'get_nominal_size', 'is_bouncing')


def porting_functions(_):
    """Of each of musl's functions docs/PORTING.md says where it is, what is left to the reader, and which wrong body tells."""
    parts = re.split('^### ', read(os.path.join(ROOT, 'docs/PORTING.md')), flags=re.MULTILINE)
    for name in MUSL:
        part = next((part for part in parts if f'*{name}*' in part.splitlines()[0]), '')
        for words in ('- Here: ', '- Left to the reader: ', '- Wrong bodies: '):
            wanted(words in part, True, f'{name} has "{words}"')
        wanted('- Says it: ' in part or 'facts of the rule' in part, True, f'{name} has what says it')
