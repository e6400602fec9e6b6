"""For cases too long to be kept: a case's `make` writes its inputs, and what tests/model/model.py makes of them."""
import os
import shutil
import sys

sys.dont_write_bytecode = True
sys.path.insert(0, os.path.join(os.path.dirname(os.path.abspath(__file__)), 'model'))

import model
import recorded

POLICY = '''institution = "L1"
currency = "USD"
due_form = "sip"
closed_weekdays = ["sunday"]
[class.A]
max_loans = 2
max_fees = 1000
max_renewals = 1
[media.001]
days = 14
rental = 0
late = 25
cap = 500
'''
PATRON = ('P1', 'Ann', 'A', 'N')
ITEM = ('I1', 'One', '001', 'Main', '')
JOURNAL = 'line,connection,request,response\n'


def write_inputs(journal, **rows):
    """Writes the policy, the tables with these rows, and the journal's text."""
    model.write('policy.toml', POLICY)
    os.mkdir('base')
    for table in model.TABLES:
        model.write(f'base/{table}.csv', model.text_of(table, rows.get(table, [])))
    model.write('journal.csv', journal)


def write_by_turns(count, first=1):
    """Writes the inputs and what a replay gives of this many lines, which ask for four things by turns: one is answered, one passed over, one has a wrong
    sum and one is of no kind."""
    requests = ('1920260302    101500AOL1|ABI1|ACx|CHtorn|', '9900302.00AY1AZFCA5', '9900302.00AY1AZFCA6', '88')
    write_replayed([(str(first + line), 'C1', requests[line % 4], '') for line in range(count)], items=[ITEM])


def write_told(status, stdout='', stderr=''):
    for name, text in (('status', f'{status}\n'), ('stdout', stdout), ('stderr', stderr)):
        model.write(name, text)


def answers(requests, **rows):
    """What each request, counted from 1, is answered over these rows."""
    records = records_of(rows)
    return [model.answer_of(records, line, request)[0] for line, request in enumerate(requests, 1)]


def records_of(rows):
    return model.Records(model.Policy(POLICY), {table: rows.get(table, []) for table in model.TABLES})


def write_replayed(journal, as_recorded=False, **rows):
    """Writes the inputs with these rows of the journal, and what a replay gives."""
    write_inputs(model.text_of('journal', journal), **rows)
    write_run(records_of(rows), journal, as_recorded)


def write_again(folder):
    """Writes the inputs of another folder, and what a replay of them as recorded gives."""
    shutil.copytree(f'{folder}/base', 'base')
    for name in ('policy.toml', 'journal.csv'):
        shutil.copy(f'{folder}/{name}', name)
    records = model.Records(model.Policy(model.read('policy.toml')), model.read_tables('base'))
    write_run(records, model.rows_of(model.read('journal.csv')), as_recorded=True)


def write_run(records, journal, as_recorded):
    """Writes what a replay on these records gives, and the words that it takes."""
    if as_recorded:
        model.write('words', '--as-recorded\n')
    way = recorded.answer_of if as_recorded else model.by_rules
    files, line = model.replay(records, journal, way)
    os.mkdir('expected')
    for name, text in files.items():
        model.write(f'expected/{name}', text)
    write_told(0 if line.endswith('differences 0\n') else 1, line)
