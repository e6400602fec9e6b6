"""journals.py LINES [PATRONS ITEMS]: makes the inputs of bench/run, bench/instructions and bench/threads in bench/out/LINES, or
bench/out/LINES-PATRONS-ITEMS, unless they are there.

A process of its own makes them, so that the peak memory of a measured run isn't hidden by that of its parent.
"""
import hashlib
import os
import sys

sys.dont_write_bytecode = True
here = os.path.dirname(os.path.abspath(__file__))
example = os.path.join(here, '..', 'examples', 'library-day')
home = os.path.join(here, '..', 'tests', 'model')
sys.path.insert(0, home)

import day
import model

DAY, SEED, LINES_A_DAY = model.day_of('20260307'), 'bench', 20000
# one of this number of answered lines has no recorded response, so that the report has rows
MISSING = 400


def people(lines):
    """How many patrons and items."""
    return (20000, 60000) if lines >= 100000 else (2000, 6000)


def unread(request):
    """The request with a piece of one byte at its end: everything in it is looked at before it is refused for that."""
    bare, sequence = model.take_sum(request)
    text = f'{bare}|XAY{sequence or 0}AZ'
    return text + f'{model.sum_of(text):04X}'


def stamp():
    parts = [os.path.join(home, 'model.py'), os.path.join(home, 'day.py'), os.path.join(example, 'policy.toml'), os.path.abspath(__file__)]
    return hashlib.sha256(''.join(model.read(path) for path in parts).encode('latin-1')).hexdigest()


def prepare(name, lines, patrons, items):
    """Makes policy.toml, base/ and three journals of this many lines, and what a run prints.

    journal.csv is the day. tables.csv is its header alone, unread.csv has requests that are read to their end and
    refused there, so nothing is replayed and compared.
    """
    folder = os.path.join(here, 'out', name)
    done = os.path.join(folder, 'stamp')
    if os.path.exists(done) and model.read(done) == stamp():
        return
    print(f'making a journal of {lines:,} lines', file=sys.stderr)
    os.makedirs(os.path.join(folder, 'base'), exist_ok=True)
    text = model.read(os.path.join(example, 'policy.toml'))
    model.write(os.path.join(folder, 'policy.toml'), text)
    policy = model.Policy(text)
    library = day.Library(policy, DAY, patrons, items, SEED)
    for table, rows in library.rows.items():
        model.write(os.path.join(folder, 'base', table + '.csv'), model.text_of(table, rows))
    model.write(os.path.join(folder, 'rows'), str(sum(map(len, library.rows.values()))))
    records, journal, counts = model.Records(policy, library.rows), [], [0, 0]
    for number, (connection, request) in enumerate(day.Day(library, records, SEED, lines, LINES_A_DAY).requests(), 1):
        answer, _ = model.answer_of(records, number, request)
        counts[0] += answer is not None
        is_missing = answer is not None and counts[0] % MISSING == 0
        counts[1] += is_missing
        journal.append((str(number), connection, request, '' if answer is None or is_missing else answer))
    model.write(os.path.join(folder, 'journal.csv'), model.text_of('journal', journal))
    model.write(os.path.join(folder, 'tables.csv'), model.text_of('journal', []))
    model.write(os.path.join(folder, 'unread.csv'),
                model.text_of('journal', [(n, name, unread(request), text) for n, name, request, text in journal]))
    model.write(os.path.join(folder, 'printed'), f'lines {lines} answered {counts[0]} passed {lines - counts[0]} '
                f'differences {counts[1]}\n')
    model.write(done, stamp())


sizes = sys.argv[1:]
if len(sizes) not in (1, 3) or not all(map(str.isdigit, sizes)):
    sys.exit(__doc__)
count, *few = map(int, sizes)
prepare('-'.join(sizes), count, *(few or people(count)))
