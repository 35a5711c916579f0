"""Runs cases over the built program by under.c, and counts them.

A trial makes an `Under` and asks it for cases: words, an input, and what is struck on the way. The
program is that of the variable PROGRAM, or the one that ./bank runs; the program for texts that of
the variable TEXT_PROGRAM.
"""
import argparse
import atexit
import os
import pathlib
import shutil
import signal
import struct
import subprocess
import sys
import tempfile
import time

TOP = pathlib.Path(__file__).resolve().parent.parent
MOST_WORDS = 16
ORDER, ANSWER = struct.Struct('<14q256s'), struct.Struct('<8q')
NONE, EVER = (0, 0, 0), 1 << 40
SKIPPED = 77
NOT_BUILT = 125


def find_program():
    given = os.environ.get('PROGRAM')
    return str(pathlib.Path(given).resolve()) if given else run_by_bank('bank_program')


def find_text_program():
    """The program for texts, or None where only the other one is given."""
    given = os.environ.get('TEXT_PROGRAM')
    if given:
        return str(pathlib.Path(given).resolve())
    return None if os.environ.get('PROGRAM') else run_by_bank('bank_text')


def run_by_bank(name):
    """The program of this name that ./bank runs."""
    ended = subprocess.run([TOP / 'bank', '--programs', name], stdin=subprocess.DEVNULL, capture_output=True)
    if ended.returncode == NOT_BUILT:
        raise RuntimeError(f'./bank could not build {name}')
    return ended.stdout.decode().strip()


def skip(name, why):
    print(f'{name}: skipped, {why}')
    sys.exit(SKIPPED)


def leave_out(name, what):
    print(f'{name}: {what} is left out, as TEXT_PROGRAM names no program')


def library(name):
    """The library, compiled into a folder that goes with this process."""
    compiler = shutil.which('cc')
    if not compiler:
        skip(name, 'cc is not on the path')
    folder = tempfile.mkdtemp()
    owner = os.getpid()
    atexit.register(lambda: os.getpid() == owner and shutil.rmtree(folder))
    made = os.path.join(folder, 'under.so')
    subprocess.run([compiler, '-O2', '-shared', '-fPIC', '-o', made, TOP / 'trials' / 'under.c', '-ldl'], check=True)
    return made


class Ended:
    """How a case ended: status (below 0 the signal that ended it), output, notes, and what was counted."""

    def __init__(self, answer, output, notes):
        (status, self.requests, self.reads, self.writes, self.struck, self.microseconds, self.kilobytes,
         self.first_thread) = answer
        self.status = os.waitstatus_to_exitcode(status)
        self.output, self.notes = output, notes

    def said(self):
        return self.status, self.output, self.notes

    def __str__(self):
        how = f'status {self.status}'
        if self.status == -signal.SIGALRM:
            how = 'no end within the bound of time'
        elif self.status < 0:
            how = f'ended by signal {-self.status}'
        return f'{how}, {len(self.output)} bytes, notes {self.notes[:200]!r}'


class Under:
    def __init__(self, made, program, seconds=20):
        self.seconds = seconds
        self.files = [os.memfd_create(name) for name in ('input', 'output', 'notes')]
        self.input = None
        ordered, self.orders = os.pipe()
        self.answers, answered = os.pipe()
        environment = {**os.environ, 'LD_PRELOAD': made, 'UNDER': f'{ordered},{answered}'}
        self.server = subprocess.Popen([program] + ['-'] * MOST_WORDS, env=environment, pass_fds=(ordered, answered),
                                       stdin=self.files[0], stdout=self.files[1], stderr=self.files[2])
        os.close(ordered)
        os.close(answered)

    def run(self, words, data, memory=NONE, reading=NONE, writing=NONE, rooms=(-1, -1), lets_begin=False):
        """One case. A stroke is (first call, number of calls, error below 0 or most bytes); the rooms
        are the bytes that output and notes have room for. Where `lets_begin` is set, who starts a thread
        lets it make its first request for memory."""
        if data is not self.input:
            os.ftruncate(self.files[0], 0)
            pwrite_all(self.files[0], data)
            self.input = data
        text = b''.join(word.encode() + b'\0' for word in words)
        os.write(self.orders, ORDER.pack(*memory, *reading, *writing, *rooms, self.seconds, len(words), lets_begin, text))
        answer = os.read(self.answers, ANSWER.size)
        if len(answer) != ANSWER.size:
            raise RuntimeError('the process that forks the cases has ended')
        return Ended(ANSWER.unpack(answer), self.written(1), self.written(2))

    def written(self, file):
        return os.pread(self.files[file], os.fstat(self.files[file]).st_size, 0)

    def close(self):
        for file in (self.orders, self.answers, *self.files):
            os.close(file)
        self.server.wait()


def pwrite_all(file, data):
    at = 0
    while at < len(data):
        at += os.pwrite(file, data[at:], at)


class Trial:
    """Counts cases, prints what is wrong, and ends with one line."""

    MOST_PRINTED = 20

    def __init__(self, name, about, options=()):
        words = argparse.ArgumentParser(prog=f'trials/{name}', description=about)
        words.add_argument('--short', action='store_true', help='the short form, of some seconds')
        for option, settings in options:
            words.add_argument(option, **settings)
        self.name, self.given = name, words.parse_args()
        self.short = self.given.short
        self.cases, self.wrong, self.begun = 0, 0, time.time()
        self.kept = os.environ.get('KEEP')

    def count(self, good, what, data=None):
        """One more case. An input that shows something wrong is kept in the folder of the variable KEEP."""
        self.cases += 1
        if good:
            return
        self.wrong += 1
        if self.wrong > self.MOST_PRINTED:
            return
        print(f'{self.name}: {what}', flush=True)
        if data is not None and self.kept:
            place = pathlib.Path(self.kept) / f'{self.name}-{os.getpid()}-{self.wrong}'
            place.write_bytes(data)
            print(f'    the input is {place}', flush=True)

    def tell(self, text):
        """What the full form says on its way."""
        if not self.short:
            print(f'{self.name}, {text}', flush=True)

    def end(self, more=''):
        print(f'{self.name}: {self.cases:,} cases, {time.time() - self.begun:.1f} s, {self.wrong} wrong{more}')
        sys.exit(1 if self.wrong else 0)


def example(name):
    """The words and the input of an example."""
    folder = TOP / 'examples' / name
    return (folder / 'words').read_text().split(), (folder / 'input').read_bytes()
