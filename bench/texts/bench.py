"""The program for texts: large snapshots and full batches and records as JSON, and back to their bytes."""
import subprocess

import inputs
from measure import Case, megabytes, milliseconds

RUNS = 3
COLUMNS = ['json', 'json MB', 'bytes', 'bytes MB']
RATIOS = []


def sources(setting):
    """By its form: what it is of, and its bytes as a file."""
    count = setting.count(1_000_000)
    block = inputs.made(setting.program, setting.count(16_384))

    def batch():
        whole = b''.join(block)
        yield whole[whole.rindex(b'SOLBATC1'):]

    yield 'snapshot', '1,000,000 accounts without data', setting.write(
        'snapshot', inputs.snapshot(inputs.account(inputs.key('wide', n)) for n in range(count)))
    yield 'batch', '16,384 transfers', setting.write('batch', batch())


def json_of(setting, program, form, source):
    def text():
        with open(source, 'rb') as file:
            yield subprocess.run([program, 'json', form], stdin=file, stdout=subprocess.PIPE, check=True).stdout

    return setting.write(f'{form}.json', text())


def figures(setting):
    program, told = setting.text_program(), {}
    for form, row, source in sources(setting):
        text = json_of(setting, program, form, source)
        cases = [
            Case(row, 'json', [program, 'json', form], source, text),
            Case(row, 'bytes', [program, 'bytes', form], text, source),
        ]

        def look(file, output):
            if output != file.read_bytes():
                raise inputs.Wrong(f'{row}: not the bytes of before')

        times, _ = setting.times(cases, RUNS, look)
        for column in ('json', 'bytes'):
            took = times[row, column]
            told[row, column], told[row, f'{column} MB'] = milliseconds(took.passed), megabytes(took.memory)
    return told
