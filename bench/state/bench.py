"""Large states: reading, the hash of the state, writing; beside the plain program."""
import inputs
from measure import Case, megabytes, milliseconds

RUNS = 3
COLUMNS = ['plain', '1 lane', '4 lanes, 4 senders', 'MB', 'plain MB']
RATIOS = [('1 lane of plain', '1 lane', 'plain'), ('4 lanes, 4 senders of 1', '4 lanes, 4 senders', '1 lane')]


def states(setting):
    """Each input's name, how many transactions it has, and its bytes."""
    count = setting.count
    yield '1,000,000 accounts without data', 1, inputs.wide(count(1_000_000), 0)
    yield '200 accounts of 1 MiB', 1, inputs.wide(count(200), 1 << 20)
    yield '16,384 transfers after 150 full blocks', count(16_384), inputs.remembered(count(16_384))


def figures(setting):
    cases, counts = [], {}
    for name, count, pieces in states(setting):
        source, counts[name] = setting.write(name, pieces), count
        programs = [('plain', [setting.plain])] if setting.plain else []
        programs += [('1 lane', [setting.program, 'produce']),
                     ('4 lanes, 4 senders', [setting.program, 'produce', '--lanes', '4', '--senders', '4'])]
        cases += [Case(name, column, words, source, name) for column, words in programs]
    times, _ = setting.times(cases, RUNS, lambda name, output: inputs.Record(output).must_be_good(counts[name]))
    told = {}
    for row in counts:
        told.update({place: milliseconds(took.passed) for place, took in times.items() if place[0] == row})
        told[row, 'MB'] = megabytes(times[row, '1 lane'].memory)
        if setting.plain:
            told[row, 'plain MB'] = megabytes(times[row, 'plain'].memory)
    return told
