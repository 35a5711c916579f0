"""The machine's loop and SHA-256, by blocks whose programs turn often or once, beside the plain ones."""
import pathlib

import inputs
from measure import Case

RUNS = 12
COUNT = 24
MOST_UNITS = 1_400_000
BUDGET_UNITS = 150
SLICE = 32_000
# Each text: the units of a turn, those before and after the turns, the bytes of the account, the row.
TEXTS = {
    'count': (3, 3, 8, 'count'),
    'stack': (9, 3, 8, 'stack'),
    'input': (9, 3, 8, 'input'),
    'loads': (25_006, 3, 80_000, 'loads'),
    'stores': (15_006, 3, 80_000, 'stores'),
    'sha256': (16_093, 6, 8, 'SHA-256, MB a second'),
}
COLUMNS = ['here', 'plain']
RATIOS = [('of plain', 'here', 'plain')]


def image_of(setting, name, turns):
    text = (pathlib.Path(__file__).parent / f'{name}.text').read_text()
    return inputs.image_of(setting.program, text.replace('TURNS', str(turns)))


def look(output, count, units):
    record = inputs.Record(output)
    record.must_be_good(count)
    if record.units != count * units:
        raise inputs.Wrong(f'{record.units} units, and {count * units} have to be')


def figures(setting):
    count, cases, units, often = setting.count(COUNT), [], {}, {}
    programs = [('here', [setting.program, 'produce'])] + ([('plain', [setting.plain])] if setting.plain else [])
    for name, (cost, rest, length, _) in TEXTS.items():
        often[name] = max(2, (MOST_UNITS - 10_000) // cost // (100 if setting.quick else 1))
        for turns in 1, often[name]:
            row = name, turns
            units[row] = cost * turns + rest + BUDGET_UNITS
            pieces = inputs.calls(image_of(setting, name, turns), count, MOST_UNITS, length)
            source = setting.write(f'{name} {turns}', pieces)
            cases += [Case(row, column, words, source, row) for column, words in programs]
    times, _ = setting.times(cases, RUNS, lambda row, output: look(output, count, units[row]))
    told = {}
    for name, (cost, _, _, row) in TEXTS.items():
        for column, _ in programs:
            seconds = times[(name, often[name]), column].passed - times[(name, 1), column].passed
            turned = SLICE if name == 'sha256' else cost
            rate = count * (often[name] - 1) * turned / max(seconds, 1e-6) / 1_000_000
            told[row, column] = round(rate, 1)
    return told
