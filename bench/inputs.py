"""Snapshots and batches that are measured, as bytes in pieces, and what comes of one."""
import hashlib
import struct
import subprocess

MARK = b'\xaa' * 32
SYSTEM = bytes(32)
BUDGET = bytes.fromhex('0306466fe5211732ffecadba72c39be7bc8ce5bbc5f7126b2c439b3a40000000')
SOL = 1_000_000_000
KEY_UNITS, BLOCK_UNITS = 12_000_000, 48_000_000
MOST_UNITS = 10 ** 12
TRANSFER_UNITS = 1_000
PIECE = 1 << 16


class Wrong(Exception):
    """An output is not what it has to be."""


def key(kind, number=0):
    """Keys that differ from their first bytes on, as those of a chain do."""
    return hashlib.sha256(f'{kind} {number}'.encode()).digest()


def account(name, data=b'', owner=SYSTEM, executable=0):
    return name + struct.pack('<Q', SOL + 10_000 * len(data)) + owner + struct.pack('<BI', executable, len(data)) + data


def snapshot(accounts, key_units=KEY_UNITS, block_units=BLOCK_UNITS, blocks=1, messages=0):
    """An account begins with its key, so sorted accounts ascend by their keys. It remembers so many blocks, each
    with so many messages."""
    accounts = sorted(accounts)
    yield b'SOLSNAP2' + struct.pack('<QHBQQ', blocks - 1, 64, 5, key_units, block_units)
    yield struct.pack('<I', blocks)
    for block in range(blocks):
        names = sorted(key(f'message of {block}', n) for n in range(messages))
        yield (key('block', block) if block else MARK) + struct.pack('<I', messages) + b''.join(names)
    yield struct.pack('<I', len(accounts))
    yield from accounts


def batch(count, transactions, slot=1):
    yield b'SOLBATC1' + struct.pack('<Q', slot) + key('collector') + struct.pack('<I', count)
    yield from transactions


def wire(message):
    return struct.pack('<H', 65 + len(message)) + b'\x01' + bytes(64) + message


def transaction(payer, other, program, accounts, data, units, mark=MARK):
    """A unit limit, then one instruction of `program`. Keys 0 and 1 are written."""
    message = bytes([1, 0, 2, 4]) + payer + other + program + BUDGET + mark
    message += bytes([2, 3, 0, 5, 2]) + struct.pack('<I', units)
    message += bytes([2, len(accounts)]) + accounts + bytes([len(data)]) + data
    return wire(message)


def nothing(*keys):
    """A transaction without instructions that writes these keys, the payer first."""
    return wire(bytes([1, 0, 0, len(keys)]) + b''.join(keys) + MARK + b'\x00')


def transfer(payer, to, mark=MARK):
    return transaction(payer, to, SYSTEM, bytes([0, 1]), struct.pack('<IQ', 2, 1), TRANSFER_UNITS, mark)


def made(program, count):
    """The program's own made block."""
    words = [program, 'make', '--number', '1', '--count', str(count)]
    yield subprocess.run(words, stdout=subprocess.PIPE, check=True).stdout


def users(count, blocks=1, messages=0):
    """A snapshot of so many who pay, and so many who are paid."""
    both = [account(key(kind, n)) for n in range(count) for kind in ('payer', 'payee')]
    yield from snapshot(both + [account(key('collector'))], blocks=blocks, messages=messages)


def transfers(count, slot=1, mark=MARK):
    """Transfers from keys of their own to keys of their own, which name a block's hash."""
    yield from batch(count, (transfer(key('payer', n), key('payee', n), mark) for n in range(count)), slot)


def independent(count):
    """The same over their snapshot."""
    yield from users(count)
    yield from transfers(count)


def remembered(count):
    """The same over a snapshot that remembers 150 blocks of as many messages."""
    yield from users(count, 150, count)
    yield from transfers(count, 150)


def hot(count):
    """Transfers to one key, from payers of their own."""
    accounts = [account(key('payer', n)) for n in range(count)] + [account(key('hot')), account(key('collector'))]
    yield from snapshot(accounts, MOST_UNITS, MOST_UNITS)
    yield from batch(count, (transfer(key('payer', n), key('hot')) for n in range(count)))


def calls(image, count, units, data=8):
    """Each transaction calls the program, with a payer and an account of its own."""
    accounts = [account(key('payer', n)) for n in range(count)]
    accounts += [account(key('called', n), bytes(data), key('program')) for n in range(count)]
    accounts += [account(key('program'), image, executable=1), account(key('collector'))]
    yield from snapshot(accounts, MOST_UNITS, MOST_UNITS)
    yield from batch(count, (
        transaction(key('payer', n), key('called', n), key('program'), bytes([1]), b'', units) for n in range(count)))


def empty(count, is_hot):
    """Transactions that do nothing, each with a payer of its own; hot ones all write one key."""
    more = (key('hot'),) if is_hot else ()
    accounts = [account(key('payer', n)) for n in range(count)] + [account(name) for name in more]
    yield from snapshot(accounts + [account(key('collector'))])
    yield from batch(count, (nothing(key('payer', n), *more) for n in range(count)))


def wide(count, length):
    """A snapshot of many accounts of so many bytes, and one transfer between two more."""
    data = bytes(range(250)) * (length // 250 + 1)
    accounts = [account(key('wide', n), data[:length]) for n in range(count)]
    yield from snapshot(accounts + [account(key(kind)) for kind in ('payer', 'payee', 'collector')])
    yield from batch(1, [transfer(key('payer'), key('payee'))])


def image_of(program, text):
    """The program image of a text."""
    return subprocess.run([program, 'asm'], input=text.encode(), stdout=subprocess.PIPE, check=True).stdout


class Record:
    """What a record at the front of an output says."""

    def __init__(self, output):
        if output[:8] != b'SOLBLCK1':
            raise Wrong('no record')
        at, self.units, self.good = 84, 0, 0
        self.count = struct.unpack_from('<I', output, 80)[0]
        for _ in range(self.count):
            at += 2 + struct.unpack_from('<H', output, at)[0]
            self.good += output[at:at + 8] == bytes(8)
            self.units += struct.unpack_from('<Q', output, at + 8)[0]
            lines = struct.unpack_from('<H', output, at + 24)[0]
            at += 26
            for _ in range(lines):
                at += 2 + struct.unpack_from('<H', output, at)[0]
        self.length = at + 80

    def must_be_good(self, count):
        if self.count != count or self.good != count:
            raise Wrong(f'{self.good} of {self.count} entries are Ok, and {count} have to be')
