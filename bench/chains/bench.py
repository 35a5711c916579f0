"""A chain that grows: `add` beside `produce` of the same, and what reads the whole chain."""
import shutil

import inputs
import measure
from measure import milliseconds

RUNS = 3
BLOCKS, TRANSFERS = 1_000, 500
COLUMNS = ['produce', 'add', 'check', 'check --jobs 2', 'check --jobs 4', 'list', 'export']
RATIOS = [('add of produce', 'add', 'produce'), ('jobs 1 of 4', 'check', 'check --jobs 4')]


class Growing:
    """A chain, and beside it the snapshots that `produce` writes of the same batches."""

    def __init__(self, setting, transfers):
        self.setting, self.transfers, self.program = setting, transfers, setting.chain_program()
        self.chain, self.both, self.output = (setting.folder / name for name in ('chain', 'both', 'output'))
        self.snapshot, self.mark = b''.join(inputs.users(transfers)), inputs.MARK
        self.produced = self.added = 0.0
        self.both.write_bytes(self.snapshot)
        self.run('new', source=self.both)

    def words(self, name, *options):
        return [self.program, 'chain', name, self.chain, *options]

    def run(self, name, *options, source=None):
        """The seconds of a command of the chain, whose output is then in its file."""
        return measure.timed(self.words(name, *options), source, self.output).passed

    def grow(self, slot):
        """One more block, by both."""
        batch = b''.join(inputs.transfers(self.transfers, slot, self.mark))
        self.both.write_bytes(self.snapshot + batch)
        self.produced += measure.timed([self.setting.program, 'produce'], self.both, self.output).passed
        output = self.output.read_bytes()
        record = inputs.Record(output)
        record.must_be_good(self.transfers)
        self.snapshot = output[record.length:]
        self.both.write_bytes(batch)
        self.added += self.run('add', source=self.both)
        self.mark = bytes.fromhex(self.output.read_text().split()[3])
        if self.mark != output[record.length - 32:record.length]:
            raise inputs.Wrong(f'slot {slot}: add and produce come to other hashes')

    def must_stand(self):
        self.run('state')
        if self.output.read_bytes() != self.snapshot:
            raise inputs.Wrong('the newest state of the chain is not what produce wrote')

    def least(self, name, *options):
        """The least of some runs, each of which must write the same."""
        least, first = None, None
        for _ in range(1 if self.setting.quick else self.setting.runs or RUNS):
            took = self.run(name, *options)
            said = self.output.read_bytes()
            if first is not None and said != first:
                raise inputs.Wrong(f'{name}: another output than before')
            least, first = took if least is None else min(least, took), said
        return least, first

    def export(self):
        tables = self.setting.folder / 'tables'
        tables.unlink(missing_ok=True)
        return self.run('export', '--sqlite', tables)


def figures(setting):
    blocks, transfers = (4, 20) if setting.quick else (BLOCKS, TRANSFERS)
    growing = Growing(setting, transfers)
    for slot in range(1, blocks + 1):
        growing.grow(slot)
    growing.must_stand()
    row = f'{blocks:,} blocks of {transfers} transfers'
    told = {(row, 'produce'): milliseconds(growing.produced / blocks), (row, 'add'): milliseconds(growing.added / blocks)}
    for column, options in (('check', ()), ('check --jobs 2', ('--jobs', '2')), ('check --jobs 4', ('--jobs', '4'))):
        took, said = growing.least('check', *options)
        if said != f'match blocks {blocks} from 1 to {blocks}\n'.encode():
            raise inputs.Wrong(f'{column}: {said}')
        told[row, column] = milliseconds(took)
    took, said = growing.least('list')
    if len(said.splitlines()) != blocks:
        raise inputs.Wrong('list: not a line for each block')
    told[row, 'list'], told[row, 'export'] = milliseconds(took), milliseconds(growing.export())
    shutil.rmtree(growing.chain)
    return told
