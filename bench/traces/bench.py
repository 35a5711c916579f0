"""A transaction of some 1,400,000 units that is traced, beside the block that produces it."""
import json
import pathlib

import inputs
from measure import Case, milliseconds

RUNS = 12
MOST_UNITS = 1_400_000
BUDGET_UNITS = 150
# Each text of bench/machine: the units of a turn, those before and after the turns, the bytes of the account.
TEXTS = {'count': (3, 3, 8), 'stack': (9, 3, 8), 'input': (9, 3, 8), 'loads': (25_006, 3, 80_000), 'stores': (15_006, 3, 80_000)}
COLUMNS = ['produce, ms', 'trace, ms', 'trace --json, ms']
RATIOS = [('trace of produce', 'trace, ms', 'produce, ms')]


def image_of(setting, name, turns):
    text = (pathlib.Path(__file__).parent.parent / 'machine' / f'{name}.text').read_text()
    return inputs.image_of(setting.program, text.replace('TURNS', str(turns)))


def look(column, output, units):
    """The transaction succeeds and takes these units, in the record as in its trace."""
    if column == 'produce, ms':
        record = inputs.Record(output)
        record.must_be_good(1)
        is_right = record.units == units
    elif column == 'trace, ms':
        is_right = f'  units {units} of '.encode() in output and b'  status Ok' in output
    else:
        one = json.loads(output)[0]
        is_right = (one['status'], one['units']) == ('Ok', units)
    if not is_right:
        raise inputs.Wrong(f'{column}: not the transaction of {units} units that has to be')


def figures(setting):
    cases, units = [], {}
    traces = setting.trace_program()
    for name, (cost, rest, length) in TEXTS.items():
        turns = max(2, (MOST_UNITS - 10_000) // cost // (100 if setting.quick else 1))
        units[name] = cost * turns + rest + BUDGET_UNITS
        source = setting.write(name, inputs.calls(image_of(setting, name, turns), 1, MOST_UNITS, length))
        columns = ([setting.program, 'produce'], [traces, 'trace'], [traces, 'trace', '--json'])
        cases += [Case(name, column, words, source, (name, column)) for column, words in zip(COLUMNS, columns)]
    times, _ = setting.times(cases, RUNS, lambda alike, output: look(alike[1], output, units[alike[0]]))
    return {place: milliseconds(took.passed) for place, took in times.items()}
