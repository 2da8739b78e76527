"""Tests of the checks that tests/stress makes of a report, by stored reports and by wrong ones."""
import os

from cases import CASES, mode_of, option, quota_of, read, wanted, words_of
from following import Mode
from reports import Fault, check


def is_report(log, text, pages=4096, mode=Mode(), quota=None):
    """Whether the checks of tests/stress let it pass."""
    try:
        check(log, text, pages, mode=mode, quota=quota)
    except Fault:
        return False
    return True


def stored_reports():
    """Each case with calls that ends with 0: its name, its log, its report, the pages of its space, its mode, and its quota."""
    for case in sorted(os.listdir(CASES)):
        words, folder = words_of(case), os.path.join(CASES, case)
        if '--calls' in words and not os.path.exists(os.path.join(folder, 'status')):
            log, report = read(os.path.join(folder, 'in'), 'rb'), read(os.path.join(folder, 'out'))
            yield case, log, report, int(option(words, '--pages', '4096'), 0), mode_of(words), quota_of(words)


def stress_takes(_):
    """Each stored report is one that a replay may give."""
    reports = list(stored_reports())
    for case, log, report, pages, mode, quota in reports:
        wanted(is_report(log, report, pages, mode, quota), True, f'{case} is let pass')
    wanted(len(reports) > 50, True, 'many reports were tried')


def wrong_reports(report):
    """The report with one thing changed, in all ways that leave it no report: what was changed, and the text."""
    lines = report.splitlines()
    for place, line in enumerate(lines):
        words = line.split()
        changes = {'dropped': [], 'twice': [line, line]}
        if words[0].isdecimal():
            changes['of the next log'] = [f'{int(words[0]) + 1} ' + ' '.join(words[1:])]
            changes['of another kind'] = [line.replace('skip', 'none') if 'skip' in line else
                                          line.replace('none', 'skip') if 'none' in line else line.replace(words[1], 'skip')]
            changes['at half a unit'] = [line[:-1] + '8'] if words[1] in ('malloc', 'calloc', 'aligned', 'realloc', 'free') else []
            changes['refused'] = [' '.join([*words[:-1], 'NoMemory 77'])]
        else:
            changes['one more'] = [f'{words[0]} {int(words[1]) + (4096 if words[0] == "pages" else 1)}']
        for what, put in changes.items():
            yield f'{line} {what}', '\n'.join(lines[:place] + put + lines[place + 1:]) + '\n'


def stress_refuses(_):
    """No report passes with a line dropped, doubled, or changed."""
    tried = 0
    for case, log, report, pages, mode, quota in stored_reports():
        if len(report) < 2000:
            for what, wrong in wrong_reports(report):
                wanted(is_report(log, wrong, pages, mode, quota), False, f'{case} with {what}')
                tried += 1
    wanted(tried > 2000, True, 'many changes were tried')


# Two logs, the address of each make in its order, and whether the blocks can have been apart: the second log's first
# lies where the first log's does.
A, B, C = '0x2040', '0x2060', '0x2080'
ORDERS = (('+1 -1', '+2 -2', (A, A), True), ('+1', '+2 -2', (A, A), True), ('+1', '+2', (A, A), False),
          ('+1 +3', '-3 +2 -2', (A, B, A), False), ('+1 +3 -1', '-3 +2 -2', (A, B, A), True),
          ('+1 +3 -4 -1', '-3 +2 -2 +4', (A, B, A, C), False), ('+1 +3 -1 -4', '-3 +2 -2 +4', (A, B, A, C), True),
          ('+1 +3 -4 -1', '-3 +2 -2 +4', (A, B, C, A), False))


def stress_orders(_):
    """Overlapping blocks pass where some order of the calls has them apart, and only there."""
    for *logs, places, possible in ORDERS:
        left, rows, counts = list(places), [], dict.fromkeys(('made', 'ended'), 0)
        at = {}
        for row in logs:
            at.update((word[1:], left.pop(0)) for word in row.split() if word[0] == '+')
        for number, row in enumerate(logs, 1):
            for word in row.split():
                is_made = word[0] == '+'
                counts['made' if is_made else 'ended'] += 1
                rows.append(f"{number} {'malloc 0x14' if is_made else 'free'} {at[word[1:]]}")
        given, taken = counts['made'], counts['ended']
        rows += ['logs 2', f'calls {given + taken}', f'given {given}', f'taken {taken}']
        rows += [f'{name} 0' for name in ('resized', 'nomemory', 'toolarge', 'badalign', 'skipped', 'absent')]
        lines = [line for row in logs for line in
                 ('= Start', *(f"{word[0]} 0x{word[1:]}{' 0x14' * (word[0] == '+')}" for word in row.split()), '= End')]
        text = '\n'.join(rows + [f'left {given - taken}', 'pages 2', ''])
        wanted(is_report('\n'.join([*lines, '']).encode(), text), possible, f'{logs} at {places}')
