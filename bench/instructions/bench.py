"""What an instruction takes: transfers, calls of a program that does nothing, and a program's calls of the system program."""
import pathlib
import struct

import inputs
from measure import Case

RUNS = 12
COUNT = 1_000
FEW, MANY = 4, 54
UNITS = 200_000
COLUMNS = ['microseconds']
RATIOS = []
TRANSFER = struct.pack('<IQ', 2, 1)
PAYER, PAYEE, CALLED, RETURNING, NATIVE, LIMIT = range(6)


def text(name, times):
    return (pathlib.Path(__file__).parent / f'{name}.text').read_text().replace('TIMES', str(times))


def instruction(program, accounts, data=b''):
    return bytes([program, len(accounts), *accounts, len(data)]) + data


def wire(number, instructions):
    """A transaction that sets its unit limit first. Keys 0 and 1 are written."""
    names = [inputs.key('payer', number), inputs.key('payee', number), inputs.key('called'), inputs.key('returning'),
             inputs.SYSTEM, inputs.BUDGET]
    every = [instruction(LIMIT, [], b'\x02' + struct.pack('<I', UNITS)), *instructions]
    message = bytes([1, 0, 4, len(names)]) + b''.join(names) + inputs.MARK + bytes([len(every)]) + b''.join(every)
    return inputs.wire(message)


def block(setting, called, instructions):
    """Transactions of the same instructions, each between two keys of its own. Their first one fills the log, so that
    the others add no line to it."""
    count, image = setting.count(COUNT), lambda text: inputs.image_of(setting.program, text)
    accounts = [inputs.account(inputs.key(kind, n)) for n in range(count) for kind in ('payer', 'payee')]
    accounts += [inputs.account(inputs.key('called'), image(called), executable=1), inputs.account(inputs.key('collector')),
                 inputs.account(inputs.key('returning'), image(text('returning', 0)), executable=1)]
    yield from inputs.snapshot(accounts, inputs.MOST_UNITS, inputs.MOST_UNITS)
    first = instruction(CALLED, [PAYER, PAYEE, NATIVE])
    yield from inputs.batch(count, (wire(n, [first, *instructions]) for n in range(count)))


def kinds(setting, times):
    """Each row, and a block with so many of its instructions in each transaction."""
    logging = text('logging', 0)
    yield 'a transfer', block(setting, logging, [instruction(NATIVE, [PAYER, PAYEE], TRANSFER)] * times)
    yield 'a call of a program that returns', block(setting, logging, [instruction(RETURNING, [])] * times)
    yield 'a transfer that a program calls', block(setting, text('calling', times), [])


def figures(setting):
    count, cases = setting.count(COUNT), []
    for times in (FEW, MANY):
        for row, pieces in kinds(setting, times):
            source = setting.write(f'{row.split()[-1]}-{times}', pieces)
            cases.append(Case(row, times, [setting.program, 'produce'], source, f'{row} {times}'))
    times, _ = setting.times(cases, RUNS, lambda name, output: inputs.Record(output).must_be_good(count))
    return {(row, 'microseconds'): round(1e6 * (times[row, MANY].passed - times[row, FEW].passed) / (MANY - FEW) / count, 2)
            for row, column in times if column == MANY}
