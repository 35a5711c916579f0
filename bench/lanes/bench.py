"""Lanes beside each other: transactions that do nothing, and some of 100 microseconds."""
import pathlib

import inputs
from measure import Case, milliseconds

RUNS = 12
UNITS = 48_000
LANES = [1, 2, 4, 64]
OF_LANES = [f'{lanes} lane' + 's' * (lanes > 1) for lanes in LANES]
# A fourth of the time of four processes that run beside each other on one lane each: what the cores give.
CORES = 'a fourth of 4 at once'
COLUMNS = [*OF_LANES, CORES]
RATIOS = [('2 of 1', '2 lanes', '1 lane'), ('4 of 1', '4 lanes', '1 lane'), ('64 of 4', '64 lanes', '4 lanes'),
          ('a fourth of 4 at once, of 1', CORES, '1 lane')]


def blocks(setting):
    many, few = setting.count(16_384), setting.count(2_000)
    image = inputs.image_of(setting.program, (pathlib.Path(__file__).parent / 'long.text').read_text())
    yield 'nothing', many, inputs.empty(many, False)
    yield 'nothing, one key', many, inputs.empty(many, True)
    yield 'long', few, inputs.calls(image, few, UNITS)


def figures(setting):
    cases, counts = [], {}
    for name, count, pieces in blocks(setting):
        source, counts[name] = setting.write(name, pieces), count
        cases += [Case(name, column, [setting.program, 'produce', '--lanes', str(lanes)], source, name)
                  for lanes, column in zip(LANES, OF_LANES)]
        cases.append(Case(name, CORES, [setting.program, 'produce'], source, name, 4))
    times, _ = setting.times(cases, RUNS, lambda name, output: inputs.Record(output).must_be_good(counts[name]))
    return {place: milliseconds(took.passed) for place, took in times.items()}
