"""Where the time of a block goes, by samples of all threads (perf), in layers of crates."""
import collections
import os
import shutil
import subprocess

import inputs
from measure import ENVIRONMENT, milliseconds, warn

RUNS = 3
RATE = 5_000
TURN = 0.001
UNITS = 24_000
LAYERS = {
    'SHA-256': ['sha2'],
    'the machine and its memory': ['sbpf_machine', 'sbpf_memory', 'data_parts'],
    'formats: reading and decoding': ['snapshot_codec', 'message_codec', 'intake', 'sol_io', 'bank_cli', 'bank_words', 'clap'],
    'admission': ['admission', 'fee_rules', 'status_cache'],
    'transactions': ['tx_exec', 'invoke_engine', 'system_prog', 'loader_prog', 'account_rules', 'rent_rules', 'abi_input',
                     'cpi_calls', 'sys_calls', 'program_cache', 'tx_report', 'sbpf_verify', 'sbpf_isa'],
    'lanes, desk, graph': ['bank_core', 'bank_lanes', 'bank_shared', 'bank_law', 'prio_graph', 'lock_table'],
    'the block: order, entries, record': ['block_run', 'block_end', 'block_lanes', 'block_record'],
    'accounts by key, comparing keys': ['account_store', 'std_collections', 'core::cmp', 'core::slice'],
    'memory: taken, moved, given back': ['libc', 'std_alloc', 'rattle_alloc', 'rattle_dealloc', 'rattle_realloc', 'sol_base'],
    'the kernel': ['kernel'],
}
OTHER = 'other'
WORKING = ['passed with one thread at work', 'with two', 'with more']
ONE, FOUR = '1 lane', '4 lanes, 4 senders'
COLUMNS = [f'{name}, {lanes}' for name in ('independent', 'made', 'calls', 'nothing') for lanes in (ONE, FOUR)]
RATIOS = []


def layer_of(symbol, of):
    """The layer of a sample, by its function's crate and by what it is a part of."""
    name = 'kernel' if 'kernel' in of else 'libc' if 'libc' in of or 'ld-linux' in of else symbol.lstrip('+')
    for layer, crates in LAYERS.items():
        if any(name == crate or name.startswith(crate + '::') for crate in crates):
            return layer
    return OTHER


def can_sample():
    words = ['perf', 'record', '-q', '-e', 'cpu-clock', '-o', os.devnull, '--', 'true']
    return shutil.which('perf') is not None and subprocess.run(words, capture_output=True).returncode == 0


def samples(words, source, folder):
    """The thread, the time and the layer of each sample of a run."""
    data = folder / 'samples'
    record = ['perf', 'record', '-q', '-e', 'cpu-clock', '-F', str(RATE), '-o', data, '--', *words]
    with open(source, 'rb') as file:
        subprocess.run(record, stdin=file, stdout=subprocess.DEVNULL, stderr=subprocess.DEVNULL, env=ENVIRONMENT,
                       check=True)
    script = ['perf', 'script', '-i', data, '-F', 'tid,time,ip,sym,dso']
    told = subprocess.run(script, stdout=subprocess.PIPE, stderr=subprocess.DEVNULL, check=True, text=True).stdout
    for line in told.splitlines():
        thread, at, _, *symbol, of = line.split()
        yield int(thread), float(at.rstrip(':')), layer_of(' '.join(symbol), of)


def of_run(found):
    """Seconds of each layer, and those that passed with one thread, two and more at work."""
    seconds, turns = collections.Counter(), collections.defaultdict(set)
    for thread, at, layer in found:
        seconds[layer] += 1 / RATE
        turns[int(at / TURN)].add(thread)
    for threads in turns.values():
        seconds[WORKING[min(len(threads), len(WORKING)) - 1]] += TURN
    return seconds


def figures(setting):
    if not can_sample():
        warn('phases are left out: perf is not there, or may not sample')
        return None
    count, few = setting.count(16_384), setting.count(2_000)
    text = (setting.bench / 'blocks' / 'counting.text').read_text()
    sources = {
        'independent': setting.write('independent', inputs.independent(count)),
        'made': setting.write('made', inputs.made(setting.program, count)),
        'calls': setting.write('calls', inputs.calls(inputs.image_of(setting.program, text), few, UNITS)),
        'nothing': setting.write('nothing', inputs.empty(count, False)),
    }
    told = {}
    for column in COLUMNS:
        name, lanes = column.split(', ', 1)
        words = [setting.program, 'produce'] + (['--lanes', '4', '--senders', '4'] if lanes == FOUR else [])
        count = 1 if setting.quick else setting.runs or RUNS
        runs = [of_run(samples(words, sources[name], setting.folder)) for _ in range(count)]
        shortest = min(runs, key=lambda seconds: sum(seconds[row] for row in WORKING))
        for row in [*LAYERS, OTHER, *WORKING]:
            told[row, column] = milliseconds(shortest[row])
    return told
