"""Whole blocks by `produce`, on lanes and senders, beside the plain program."""
import pathlib

import inputs
from measure import Case, megabytes, milliseconds, millions

RUNS = 12
UNITS = 24_000
LANES = {
    '1 lane': [], '1 lane, 4 senders': ['--senders', '4'], '2 lanes': ['--lanes', '2'], '4 lanes': ['--lanes', '4'],
    '4 lanes, 4 senders': ['--lanes', '4', '--senders', '4'],
}
COLUMNS = ['plain', *LANES, 'MB', 'plain MB', 'record MB', 'state MB']
RATIOS = [('1 lane of plain', '1 lane', 'plain'), ('4 lanes of 1', '4 lanes', '1 lane'),
          ('4 lanes, 4 senders of 1', '4 lanes, 4 senders', '1 lane')]


def blocks(setting):
    """Each input's name, how many transactions it has, and its bytes."""
    count, program = setting.count, setting.program
    text = (pathlib.Path(__file__).parent / 'counting.text').read_text()
    image = inputs.image_of(program, text)
    yield 'independent', count(16_384), inputs.independent(count(16_384))
    yield 'made', count(16_384), inputs.made(program, count(16_384))
    yield 'hot', count(16_384), inputs.hot(count(16_384))
    yield 'calls', count(2_000), inputs.calls(image, count(2_000), UNITS)
    yield 'accounts', 1, inputs.wide(count(300_000), 200)


def look(output, count):
    """The lengths of the record and of what stands behind it."""
    record = inputs.Record(output)
    record.must_be_good(count)
    return record.length, len(output) - record.length


def figures(setting):
    cases, counts = [], {}
    for name, count, pieces in blocks(setting):
        source, counts[name] = setting.write(name, pieces), count
        programs = [('plain', [setting.plain])] if setting.plain else []
        programs += [(column, [setting.program, 'produce', *words]) for column, words in LANES.items()]
        cases += [Case(name, column, words, source, name) for column, words in programs]
    times, lengths = setting.times(cases, RUNS, lambda name, output: look(output, counts[name]))
    told = {}
    for row, (record, state) in lengths.items():
        told.update({place: milliseconds(took.passed) for place, took in times.items() if place[0] == row})
        told[row, 'MB'] = megabytes(times[row, '1 lane'].memory)
        if setting.plain:
            told[row, 'plain MB'] = megabytes(times[row, 'plain'].memory)
        told[row, 'record MB'], told[row, 'state MB'] = millions(record), millions(state)
    return told
