"""The atomic instructions of a program, as its disassembly has them, and what they put in order."""
import collections
import re
import subprocess

RELEASES, ACQUIRES, ACQUIRES_AT_ZERO = 1, 2, 4
REGISTERS = ('rax', 'rcx', 'rdx', 'rbx', 'rsp', 'rbp', 'rsi', 'rdi', *(f'r{number}' for number in range(8, 16)))
FUNCTION = re.compile(r'^[0-9a-f]+ <(.*)>:$')
LINE = re.compile(r'^ *([0-9a-f]+):\t((?:[0-9a-f]{2} )+) *\t(.*?) *$')
ATOMIC = re.compile(r'lock (\w+) |(xchg) +%\w+,.*\(|(mfence)')
PLACE = re.compile(r'(-?0x[0-9a-f]+)?\((%\w+)?(?:,(%\w+),(\d))?\)')
# Where the word of the desk is taken by an exchange that compares.
TAKES_TURN = re.compile('SharedDesk::take_turn|run_thread')
# Where any word is. Elsewhere that makes a count of owners rise, which puts nothing in order.
TAKES = re.compile(TAKES_TURN.pattern + '|run_jobs|read_decoded')


class Site(collections.namedtuple('Site', 'function name place length tells base index scale more')):
    def line(self):
        """As trials/order.c reads it."""
        return f'{self.place:x} {" ".join(str(part) for part in self[3:])}'


def what_it_tells(name, function):
    if name == 'xchg':
        return RELEASES
    if name == 'cmpxchg':
        return ACQUIRES if TAKES.search(function) else 0
    # One more who waits, a bell, or a turn that a reader is told of: none hands anything over.
    if name.startswith('inc') or name == 'xadd':
        return 0
    if name.startswith('dec') or name.startswith('sub'):
        return RELEASES | ACQUIRES_AT_ZERO
    raise ValueError(f'{name} in {function}')


def number_of(register):
    return REGISTERS.index(register[1:]) if register else -1


def atomic_instructions(program):
    """The sites of a program, in the order of their places."""
    text = subprocess.run(['objdump', '-d', '--insn-width=16', program], capture_output=True, check=True, text=True).stdout
    function = ''
    for line in text.splitlines():
        begun = FUNCTION.match(line)
        if begun:
            function = begun.group(1)
            continue
        row = LINE.match(line)
        found = row and ATOMIC.search(row.group(3))
        if found:
            name = next(filter(None, found.groups()))
            more, base, index, scale = PLACE.search(row.group(3)).groups()
            yield Site(function, name, int(row.group(1), 16), len(row.group(2).split()), what_it_tells(name, function),
                       number_of(base), number_of(index), int(scale or 0), int(more or '0', 16))
