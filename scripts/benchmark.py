#!/usr/bin/env python3
"""Runs the benchmark and records it: the raw output in docs/benchmark.txt, its tables in docs/BENCHMARK.md.

  scripts/benchmark.py           after scripts/static_library.sh
  scripts/benchmark.py --table   the tables of docs/benchmark.txt as it is, without a run

The first table gives, for each call and family of logs, the smallest and the largest ratio of the exported call's time to the
reference's, and in its last row of log_refusal's time to that of a plain pass over the log's bytes. The second one has form 2 beside
form 1 of the same logs: for each call and order of the receives the smallest and the largest of each column over the sizes of logs.
It is put at the end of the page where the page has none. The plans that pass over checkpoints, the growth of the conversion to an interval
log with its worst case, and the memory of each call are in the raw output alone.
"""
import math
import pathlib
import re
import subprocess
import sys

TOP = pathlib.Path(__file__).resolve().parent.parent
RAW = TOP / 'docs' / 'benchmark.txt'
PAGE = TOP / 'docs' / 'BENCHMARK.md'
FAMILIES = ['run', 'deep', 'hub', 'two-level hub', 'chain', 'wide chain', 'ring']
AIM = 1.3
PASS = 'log_refusal over a plain pass'
AIMS = {'pack': 1.5, 'pack_moved': 1.5, 'intervals': 2.5, PASS: 3.5}
FORMS = 'form 2 beside form 1'
MEMORY = 'memory of a call'
FORMS_HEAD = ['call on form 2', 'ns an event of form 1', 'of form 2', 'form 2 over form 1', "the reference's",
              'exported over reference', 'growth']
FORM_AIMS = {'in order': 2.0, 'in any order': 4.0}


def ratios(raw):
    """{call: {family: [exported over reference, ..]}}, calls in the order of the output, and the row of plain passes."""
    found, passes, family = {}, {}, None
    for line in raw.split(FORMS)[0].split('\n'):
        head = re.match(rf'({"|".join(FAMILIES)})\b.*: \d+ events, ', line)
        if head:
            family = head.group(1)
        row = re.match(r'  (\w+) +[\d.]+ +[\d.]+ +[\d.]+ +([\d.]+) +([\d.]+) ', line)
        if row and family:
            found.setdefault(row.group(1), {}).setdefault(family, []).append(float(row.group(2)))
            if row.group(1) == 'log_refusal':
                passes.setdefault(family, []).append(float(row.group(3)))
    return {**found, PASS: passes}


def cell(values, aim=math.inf):
    if not values:
        return '-'
    low, high = f'{min(values):.2f}', f'{max(values):.2f}'
    text = low if len(values) == 1 else f'{low} to {high}'
    return f'**{text}**' if max(values) > aim else text


def table(found):
    rows = ['| call | ' + ' | '.join(FAMILIES) + ' |', '|---' * (len(FAMILIES) + 1) + '|']
    for call, families in found.items():
        rows.append('| ' + ' | '.join([call] + [cell(families[f], AIMS.get(call, AIM)) for f in FAMILIES]) + ' |')
    return '\n'.join(rows) + '\n'


def forms(raw):
    """{(call, order): a row of numbers for each size}: form 1, form 2, 2/1, the reference's three, exp/ref, the growths where there are."""
    found, order = {}, None
    for line in raw.split(FORMS)[-1].split(MEMORY)[0].split('\n'):
        head = re.match(r'receives (in order|in any order), \d+ workers(.*): \d+ events, ', line)
        if head:
            order = head.groups()
        row = re.match(r'  (\w+)((?: +(?:[\d.]+|-)){9})$', line)
        if row and order:
            numbers = [float(number) for number in row.group(2).split() if number != '-']
            found.setdefault((row.group(1), order), []).append(numbers)
    return found


def forms_table(found):
    rows = ['| ' + ' | '.join(FORMS_HEAD) + ' |', '|---' * len(FORMS_HEAD) + '|']
    for (call, (order, sharing)), numbers in sorted(found.items(), key=lambda item: item[0][0]):
        column = lambda at: [row[at] for row in numbers if len(row) > at]
        cells = [cell(column(0)), cell(column(1)), cell(column(2), FORM_AIMS[order])]
        cells += [cell(column(5)), cell(column(6), AIM), cell(column(7))]
        rows.append('| ' + ' | '.join([f'{call}, receives {order}{sharing}'] + cells) + ' |')
    return '\n'.join(rows) + '\n'


def with_table(page, first, text):
    """The page with the table in the place of the one whose first column has this head, or at its end."""
    old = re.search(rf'\| {first} \|.*\n(?:\|.*\n)+', page)
    return page[:old.start()] + text + page[old.end():] if old else page + '\n' + text


def main():
    if sys.argv[1:] not in ([], ['--table']):
        sys.exit(__doc__)
    if not sys.argv[1:]:
        command = ['cargo', 'run', '--release', '--offline', '--quiet', '--bin', 'bench']
        RAW.write_text(subprocess.run(command, cwd=TOP / 'rust', check=True, capture_output=True, text=True).stdout, encoding='utf-8')
    raw = RAW.read_text(encoding='utf-8')
    page = with_table(PAGE.read_text(encoding='utf-8'), 'call', table(ratios(raw)))
    if FORMS in raw:
        page = with_table(page, FORMS_HEAD[0], forms_table(forms(raw)))
    PAGE.write_text(page, encoding='utf-8')


if __name__ == '__main__':
    main()
