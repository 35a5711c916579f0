"""The calls that a command makes in a folder, recorded by strace, and what a power failure may leave of it.

Of what was not synced any page may be lost, torn or garbage; of the changes of a name in a folder that was not
synced any first ones have happened, whatever became of other names.
"""
import itertools
import os
import re
import shutil
import subprocess

KINDS = 'openat,open,write,pwrite64,writev,fsync,fdatasync,rename,renameat,renameat2,unlink,unlinkat,mkdir,ftruncate,link,linkat,close'
CALL = re.compile(r'^\d+ +(\w+)\((.*)\) += (-?\d+)')
RESUMED = re.compile(r'^(\d+) +<\.\.\. \w+ resumed>(.*)$')
UNFINISHED = ' <unfinished ...>'
PAGES = 512, 4096


def recorded(words, data, folder):
    """How the command ended, and its calls in the folder: ('make', NAME), ('write', NAME, PLACE, BYTES), ('cut', NAME, LENGTH),
    ('sync', NAME), ('move', NAME, NAME), ('remove', NAME), ('folder',). The name of the folder itself is empty."""
    place = f'{folder}.calls'
    ended = subprocess.run(['strace', '-f', '-xx', '-s', '100000000', '-e', f'trace={KINDS}', '-o', place, *words], input=data, capture_output=True)
    with open(place, encoding='latin-1') as file:
        lines = whole_lines(file.read().splitlines())
    os.unlink(place)
    return ended, list(calls_of(lines, os.fsencode(folder)))


def whole_lines(lines):
    """Each call on one line, where threads have come between."""
    begun = {}
    for line in lines:
        if line.endswith(UNFINISHED):
            begun[line.split(' ', 1)[0]] = line[:-len(UNFINISHED)]
            continue
        resumed = RESUMED.match(line)
        yield begun.pop(resumed[1]) + resumed[2] if resumed else line


def texts(arguments):
    return [bytes.fromhex(text.replace('\\x', '')) for text in re.findall(r'"((?:\\x[0-9a-f]{2})*)"', arguments)]


def name_in(folder, path):
    """The name in the folder, nothing for the folder itself, and None for what is elsewhere."""
    path = path.rstrip(b'/')
    return '' if path == folder else os.fsdecode(path[len(folder) + 1:]) if path.startswith(folder + b'/') and b'..' not in path else None


def calls_of(lines, folder):
    found = {}  # by descriptor: the name and the place
    for match in filter(None, map(CALL.match, lines)):
        kind, given, result = match[1], match[2], int(match[3])
        names = [name_in(folder, text) for text in texts(given)] if kind not in ('write', 'pwrite64', 'writev') else []
        number = re.match(r'\d+', given)
        at = found.get(int(number[0])) if number else None
        if result < 0:
            continue
        if kind in ('openat', 'open'):
            found[result] = [names[0], 0]
            if names[0] and 'O_CREAT' in given:
                yield 'make', names[0]
            if names[0] and 'O_TRUNC' in given:
                yield 'cut', names[0], 0
        elif kind == 'close':
            found.pop(int(number[0]), None)
        elif kind in ('fsync', 'fdatasync'):
            if at and at[0] is not None:
                yield 'sync', at[0]
        elif kind == 'write':
            if at and at[0]:
                yield 'write', at[0], at[1], texts(given)[0][:result]
                at[1] += result
        elif kind == 'ftruncate':
            if at and at[0]:
                yield 'cut', at[0], int(given.rsplit(',', 1)[1])
        elif any(name is not None for name in names) or kind in ('pwrite64', 'writev') and at and at[0]:
            if kind not in ('rename', 'unlink', 'mkdir'):
                raise RuntimeError(f'{kind} in the folder is not known')
            yield {'rename': 'move', 'unlink': 'remove', 'mkdir': 'folder'}[kind], *(name for name in names if name)


class File:
    """The bytes of a file as they are read, and those that are sure to be on the disk."""

    def __init__(self, data, synced):
        self.data, self.synced = data, synced

    def after(self, draw, many):
        """What a power failure may leave of it."""
        if self.data == self.synced:
            return [self.data]
        left = [self.synced, self.data, b'', self.data[:len(self.data) // 2], bytes(len(self.data)), draw.randbytes(len(self.data))]
        return left + [self.torn(draw) for _ in range(many)]

    def torn(self, draw):
        data, page = bytearray(self.synced.ljust(len(self.data), b'\0')), draw.choice(PAGES)
        for at in range(0, len(self.data), page):
            part, chance = self.data[at:at + page], draw.random()
            if chance < 0.6:
                data[at:at + page] = part if chance < 0.5 else draw.randbytes(len(part))
        return bytes(data[:draw.choice((len(data), draw.randrange(len(data) + 1)))])


class Disk:
    """A folder: by each name what it was and is, that which is sure to be on the disk first."""

    def __init__(self, files):
        self.names = {name: [File(data, data)] for name, data in files.items()}

    def file(self, name):
        return self.names[name][-1]

    def become(self, name, file):
        self.names.setdefault(name, [None]).append(file)

    def make(self, call):
        kind, *given = call
        if kind == 'make' and not self.names.get(given[0], [None])[-1]:
            self.become(given[0], File(b'', b''))
        elif kind == 'write':
            name, at, data = given
            file = self.file(name)
            file.data = file.data[:at].ljust(at, b'\0') + data + file.data[at + len(data):]
        elif kind == 'cut':
            self.file(given[0]).data = self.file(given[0]).data[:given[1]].ljust(given[1], b'\0')
        elif kind == 'sync' and given[0]:
            self.file(given[0]).synced = self.file(given[0]).data
        elif kind == 'sync':
            self.names = {name: values[-1:] for name, values in self.names.items()}
        elif kind == 'move':
            self.become(given[1], self.file(given[0]))
            self.become(given[0], None)
        elif kind == 'remove':
            self.become(given[0], None)

    def after(self, draw, many, limit):
        """Folders that a power failure may leave, some of them where there are more than the limit."""
        folders = []
        for values in itertools.product(*self.names.values()):
            there = {name: file for name, file in zip(self.names, values) if file}
            ways = [file.after(draw, many) for file in there.values()]
            chosen = itertools.islice(itertools.product(*ways), 24) if len(ways) < 3 else (tuple(map(draw.choice, ways)) for _ in range(24))
            folders += [dict(zip(there, one)) for one in chosen]
        return draw.sample(folders, limit) if len(folders) > limit else folders


def lay(place, files):
    shutil.rmtree(place, ignore_errors=True)
    place.mkdir()
    for name, data in files.items():
        (place / name).write_bytes(data)
