"""The other commands: a block that is made, replayed and shown, and a text that is assembled and listed."""
import json
import subprocess

import inputs
from measure import Case, megabytes, milliseconds

RUNS = 8
LABELS = 65_536
COLUMNS = ['ms', 'MB']
RATIOS = []


def text_of_labels(count):
    """Labels, each before a jump to the label of the next."""
    for n in range(count - 1):
        yield f'at{n}:\n    ja at{n + 1}\n'.encode()
    yield f'at{count - 1}:\n    exit\n'.encode()


def output_of(words, source):
    """What the program writes over a file."""
    with open(source, 'rb') as file:
        return subprocess.run(words, stdin=file, stdout=subprocess.PIPE, check=True).stdout


def files(setting, count):
    """A made block, its snapshot and record as `replay` reads them, its record, a text and its image."""
    program = setting.program
    block = setting.write('block', inputs.made(program, count))
    text = setting.write('text', text_of_labels(setting.count(LABELS)))

    def record():
        output = output_of([program, 'produce'], block)
        yield output[:inputs.Record(output).length]

    shown = setting.write('record', record())

    def replayed():
        whole = block.read_bytes()
        yield whole[:whole.rindex(b'SOLBATC1')]
        yield shown.read_bytes()

    def image():
        yield output_of([program, 'asm'], text)

    return block, setting.write('replayed', replayed()), shown, text, setting.write('image', image())


def figures(setting):
    count, program = setting.count(16_384), setting.program
    block, replayed, shown, text, image = files(setting, count)
    make = [program, 'make', '--number', '1', '--count', str(count)]
    cases = [
        Case('make', '', make, None, 'make'),
        Case('make --run', '', make + ['--run'], None, 'run'),
        Case('replay', '', [program, 'replay'], replayed, 'replay'),
        Case('replay --lanes 4', '', [program, 'replay', '--lanes', '4'], replayed, 'replay'),
        Case('show', '', [program, 'show'], shown, 'show'),
        Case('asm', '', [program, 'asm'], text, 'asm'),
        Case('list', '', [program, 'list'], image, 'list'),
    ]

    def look(name, output):
        is_right = {
            'make': lambda: output == block.read_bytes(),
            'run': lambda: output.startswith(f'made {count} admitted {count} ok {count} '.encode()),
            'replay': lambda: output.startswith(b'match '),
            'show': lambda: [entry['status'] for entry in json.loads(output)['entries']] == ['Ok'] * count,
            'asm': lambda: output == image.read_bytes(),
            'list': lambda: assembled(setting, output) == image.read_bytes(),
        }[name]
        if not is_right():
            raise inputs.Wrong(f'{name}: not the output that has to be')

    times, _ = setting.times(cases, RUNS, look)
    told = {}
    for (row, _), took in times.items():
        told[row, 'ms'], told[row, 'MB'] = milliseconds(took.passed), megabytes(took.memory)
    return told


def assembled(setting, listing):
    """The image of a listing."""
    return subprocess.run([setting.program, 'asm'], input=listing, stdout=subprocess.PIPE, check=True).stdout
