"""Runs programs in turns, and keeps the least time of each; tables and figures that are kept."""
import collections
import hashlib
import os
import pathlib
import pickle
import re
import resource
import subprocess
import sys
import time
import traceback

from inputs import Wrong

BENCH = pathlib.Path(__file__).resolve().parent
TOP = BENCH.parent
OUT = BENCH / 'out'
BUSY = 0.5
# As ./bank runs a program.
TUNABLES = ('glibc.malloc.hugetlb=1', 'glibc.malloc.top_pad=6291456',
            f'glibc.malloc.arena_max={len(os.sched_getaffinity(0))}',
            'glibc.malloc.mmap_threshold=8388608', 'glibc.malloc.trim_threshold=1073741824')
ENVIRONMENT = {'GLIBC_TUNABLES': ':'.join(TUNABLES), **os.environ}
BEGIN, END = '<!-- figures: written by bench/run --keep -->', '<!-- end of figures -->'

# words: the program's and its own; alike: cases of the same name must write the same bytes; at_once: how many
# processes run beside each other.
Case = collections.namedtuple('Case', 'row column words source alike at_once', defaults=[1])
Took = collections.namedtuple('Took', 'passed used memory')


# ---- The machine

def cpu_model():
    named = dict(line.split(':', 1) for line in pathlib.Path('/proc/cpuinfo').read_text().split('\n\n')[0].splitlines()
                 if ':' in line)
    told = {name.strip(): value.strip() for name, value in named.items()}
    numbers = '/'.join(told.get(name, '?') for name in ('cpu family', 'model', 'stepping'))
    return f'{told.get("model name", "unknown processor")} ({numbers})'


def predicts():
    """Whether the kernel lets the processor predict indirect jumps."""
    try:
        told = pathlib.Path('/sys/devices/system/cpu/vulnerabilities/spectre_v2').read_text()
    except OSError:
        return True
    return not re.search(r'\bIBRS\b', told) or 'Enhanced' in told


def machine_kind():
    jumps = 'predicted' if predicts() else 'not predicted'
    return f'{cpu_model()}, {len(os.sched_getaffinity(0))} cores, indirect jumps {jumps}'


def loop():
    """The seconds of a loop of additions."""
    began, sum_ = time.perf_counter(), 0
    for n in range(1_000_000):
        sum_ += n
    return time.perf_counter() - began


def spin(count):
    """The seconds that so many processes take for a loop each, side by side."""
    begun = [os.pipe() for _ in range(count)]
    for _, writing in begun:
        if os.fork() == 0:
            os.write(writing, str(loop()).encode())
            os._exit(0)
    seconds = max(float(os.read(reading, 32)) for reading, _ in begun)
    for ends in begun:
        os.wait()
        for end in ends:
            os.close(end)
    return seconds


def beside_each_other():
    """How much longer a loop on each core takes than a loop on one: 1 where cores are cores."""
    cores = len(os.sched_getaffinity(0))
    return min(spin(cores) for _ in range(3)) / min(spin(1) for _ in range(3))


def warn(text):
    print(f'bench: {text}', file=sys.stderr, flush=True)


# ---- Programs

def found(name):
    """The program of that name that ./bank runs."""
    ended = subprocess.run([TOP / 'bank', '--programs', name], stdin=subprocess.DEVNULL, stdout=subprocess.PIPE, check=True)
    return ended.stdout.decode().strip()


def find_program():
    """The program of the variable PROGRAM, or the one that ./bank runs."""
    if os.environ.get('PROGRAM'):
        return str(pathlib.Path(os.environ['PROGRAM']).resolve())
    return found('bank_program')


def find_text_program():
    """The program for texts: that of the variable TEXT_PROGRAM, or the one that ./bank runs."""
    if os.environ.get('TEXT_PROGRAM'):
        return str(pathlib.Path(os.environ['TEXT_PROGRAM']).resolve())
    return found('bank_text')


def find_chain_program():
    """The program for chains: that of the variable CHAIN_PROGRAM, or the one that ./bank runs."""
    if os.environ.get('CHAIN_PROGRAM'):
        return str(pathlib.Path(os.environ['CHAIN_PROGRAM']).resolve())
    return found('bank_ledger')


def find_trace_program():
    """The program for traces: that of the variable TRACE_PROGRAM, or the one that ./bank runs."""
    if os.environ.get('TRACE_PROGRAM'):
        return str(pathlib.Path(os.environ['TRACE_PROGRAM']).resolve())
    return found('bank_trace')


def plain_program():
    """The plain program, built where its source changed; None where there is no rustc."""
    source, built, mark = BENCH / 'plain' / 'plain.rs', OUT / 'plain', OUT / 'plain.of'
    now = hashlib.sha256(source.read_bytes()).hexdigest()
    if not (built.exists() and mark.exists() and mark.read_text() == now):
        OUT.mkdir(exist_ok=True)
        # rt builds for x86-64-v2 as well.
        words = ['rustc', '--edition', '2024', '-O', '-C', 'target-cpu=x86-64-v2', '-o', built, source]
        try:
            subprocess.run(words, check=True)
        except (OSError, subprocess.CalledProcessError):
            warn('the plain program is left out: rustc did not build it')
            return None
        mark.write_text(now)
    return str(built)


def started(words, source, target):
    """A process that reads a file and writes one."""
    target.unlink(missing_ok=True)
    files = [(os.POSIX_SPAWN_OPEN, 0, source or os.devnull, os.O_RDONLY, 0),
             (os.POSIX_SPAWN_OPEN, 1, target, os.O_WRONLY | os.O_CREAT, 0o600)]
    return os.posix_spawn(words[0], words, ENVIRONMENT, file_actions=files)


def timed(words, source, target, at_once=1):
    """What a run of a program took, which reads a file and writes one: its part of what several took that ran
    beside each other."""
    words = [str(word) for word in words]
    targets = [target] + [target.with_name(f'{target.name}{number}') for number in range(1, at_once)]
    began = time.perf_counter()
    ended = [os.wait4(process, 0) for process in [started(words, source, one) for one in targets]]
    passed = time.perf_counter() - began
    for one in targets[1:]:
        one.unlink()
    for _, status, _ in ended:
        if status != 0:
            raise Wrong(f'{" ".join(words)} ended with status {os.waitstatus_to_exitcode(status)}')
    used = sum(usage.ru_utime + usage.ru_stime for _, _, usage in ended)
    return Took(passed / at_once, used / at_once, max(usage.ru_maxrss for _, _, usage in ended) * 1_024)


def in_child(work):
    """What a function gives, run in a process of its own: a program's memory counts from the most that
    the process which starts it has held."""
    reading, writing = os.pipe()
    child = os.fork()
    if child == 0:
        try:
            with open(writing, 'wb') as file:
                pickle.dump(tried(work), file)
        finally:
            os._exit(0)
    os.close(writing)
    with open(reading, 'rb') as file:
        given, wrong = pickle.load(file)
    os.waitpid(child, 0)
    if wrong is not None:
        raise Wrong(wrong)
    return given


def tried(work):
    """What a function gives, or what is wrong."""
    try:
        return work(), None
    except Wrong as wrong:
        return None, str(wrong)
    except Exception:
        return None, traceback.format_exc()


def digest(target):
    sum_ = hashlib.blake2b()
    with open(target, 'rb') as file:
        while piece := file.read(1 << 18):
            sum_.update(piece)
    return sum_.digest()


def in_turns(cases, runs, folder, look):
    """The least of so many runs of each case, in turns; and what `look` finds in the first output of each
    `alike`. All others must be as that one."""
    first, seen, least = {}, {}, {}
    target = folder / 'output'
    for _ in range(runs):
        for case in cases:
            took = timed(case.words, case.source, target, case.at_once)
            now = digest(target)
            if case.alike not in first:
                seen[case.alike] = in_child(lambda: look(case.alike, target.read_bytes()))
            if first.setdefault(case.alike, now) != now:
                raise Wrong(f'{case.row}, {case.column}: another output than before')
            place = case.row, case.column
            least[place] = Took(*map(min, least.get(place, took), took))
    target.unlink()
    return least, seen


# ---- Tables

def milliseconds(seconds):
    return round(seconds * 1_000, 1)


def millions(count):
    return round(count / 1_000_000, 1)


def megabytes(count):
    """Memory, where it is above what this process has held itself: less is not seen."""
    least = resource.getrusage(resource.RUSAGE_SELF).ru_maxrss * 1_024
    return round(count / 1_000_000) if count > 1.1 * least else None


def text_of(value):
    if value is None:
        return ''
    return f'{value:,}' if isinstance(value, int) or value < 1_000 else f'{value:,.0f}'


def ratio(figures, row, over, under):
    """A column's part of another, as text."""
    if (row, over) not in figures or (row, under) not in figures or not figures[row, under]:
        return ''
    return f'{figures[row, over] / figures[row, under]:.2f}'


def table(bench, figures):
    """The figures by rows and columns, then what the bench makes of them."""
    rows = list(dict.fromkeys(row for row, _ in figures))
    columns = [column for column in bench.COLUMNS if any((row, column) in figures for row in rows)]
    ratios = [(name, over, under) for name, over, under in bench.RATIOS if over in columns and under in columns]
    lines = ['| | ' + ' | '.join(columns + [name for name, _, _ in ratios]) + ' |',
             '|---|' + '---|' * (len(columns) + len(ratios))]
    for row in rows:
        cells = [text_of(figures.get((row, column))) for column in columns]
        cells += [ratio(figures, row, over, under) for _, over, under in ratios]
        lines.append(f'| {row} | ' + ' | '.join(cells) + ' |')
    return lines


# ---- What is kept: in each folder a file of figures by kinds of machine, and a table of the last kept

def kept_figures(bench):
    """The figures of each kind of machine."""
    kinds, path = {}, bench.FOLDER / 'figures'
    for line in path.read_text().splitlines() if path.exists() else []:
        if line.startswith('machine\t'):
            figures = kinds.setdefault(line.split('\t', 1)[1], {})
        else:
            row, column, value = line.split('\t')
            figures[row, column] = float(value) if '.' in value else int(value)
    return kinds


def keep(bench, kind, told, figures):
    kinds = kept_figures(bench)
    kinds[kind] = figures
    lines = []
    for name in sorted(kinds):
        lines.append(f'machine\t{name}')
        lines += [f'{row}\t{column}\t{value}' for (row, column), value in kinds[name].items()]
    (bench.FOLDER / 'figures').write_text('\n'.join(lines) + '\n')
    page = bench.FOLDER / 'README.md'
    before, rest = page.read_text().split(BEGIN)
    after = rest.split(END)[1]
    page.write_text('\n'.join([before + BEGIN, '', told, '', *table(bench, figures), '', END + after]))


def compared(bench, kind, figures):
    """Each figure beside the one that is kept, as lines of a table."""
    kept = kept_figures(bench).get(kind)
    if kept is None:
        return [f'nothing is kept of {bench.NAME} on this kind of machine']
    lines = ['| | | kept | now | now of kept |', '|---|---|---|---|---|']
    for (row, column), now in figures.items():
        was = kept.get((row, column))
        part = f'{now / was:.2f}' if was else ''
        lines.append(f'| {row} | {column} | {text_of(was)} | {text_of(now)} | {part} |')
    return lines
