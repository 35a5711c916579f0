"""Snapshots, transactions and batches as bytes, and where the parts of an output end."""
import hashlib
import struct

SYSTEM, LOADER = bytes(32), b'\x1d' * 32
BUDGET = bytes.fromhex('0306466fe5211732ffecadba72c39be7bc8ce5bbc5f7126b2c439b3a40000000')
HASH = b'\xaa' * 32
COLLECTOR = b'\xc0' * 32
FIRST = (64, 5, 12_000_000, 48_000_000)  # keys, height, units of a key, units of a block


class Short(Exception):
    """The bytes end before the part does."""


class Reader:
    def __init__(self, data, at=0):
        self.data, self.at = data, at

    def number(self, form):
        size = struct.calcsize('<' + form)
        if self.at + size > len(self.data):
            raise Short
        value, = struct.unpack_from('<' + form, self.data, self.at)
        self.at += size
        return value

    def over(self, count):
        self.at += count


def snapshot_length(data):
    reader = Reader(data, 35 if data[:8] == b'SOLSNAP2' else 16)
    for _ in range(reader.number('I')):
        reader.over(32)
        reader.over(32 * reader.number('I'))
    for _ in range(reader.number('I')):
        reader.over(73)
        reader.over(reader.number('I'))
    return reader.at


def record_length(data):
    reader = Reader(data, 80)
    for _ in range(reader.number('I')):
        reader.over(reader.number('H'))
        reader.over(24)
        for _ in range(reader.number('H')):
            reader.over(reader.number('H'))
    if reader.at + 80 > len(data):
        raise Short
    return reader.at + 80


def exempt(length):
    """The lamports with which an account of this many data bytes stays."""
    return (128 + length) * 3_480 * 2


# ---- What a block is made of

def key(kind, number):
    """A key of a byte for its kind and a number, in the order of the numbers."""
    return bytes([kind]) + number.to_bytes(8, 'big') + bytes(23)


def account(name, lamports, owner=SYSTEM, data=b'', executable=0):
    return name, name + struct.pack('<Q', lamports) + owner + bytes([executable]) + struct.pack('<I', len(data)) + data


def snapshot(accounts, limits=FIRST, marks=((HASH, ()),), slot=0):
    """The accounts are given as `account` makes them, in any order."""
    parts = [b'SOLSNAP2', struct.pack('<QHBQQI', slot, *limits, len(marks))]
    for name, messages in marks:
        parts += [name, struct.pack('<I', len(messages)), *sorted(messages)]
    parts += [struct.pack('<I', len(accounts))] + [row for _, row in sorted(accounts)]
    return b''.join(parts)


def batch(wires, slot=1, collector=COLLECTOR):
    parts = [b'SOLBATC1', struct.pack('<Q', slot), collector, struct.pack('<I', len(wires))]
    for wire in wires:
        parts += [struct.pack('<H', len(wire)), wire]
    return b''.join(parts)


def compact(number):
    out = bytearray()
    while number > 127:
        out.append(number & 127 | 128)
        number >>= 7
    return bytes(out + bytes([number]))


def array(items):
    return compact(len(items)) + b''.join(items)


def transaction(signers, writable, readonly, instructions, blockhash=HASH, lookups=None):
    """Signers are writable, and the first one pays. An instruction is a program's place among the keys,
    the places of its accounts, and its data. Lookups, of version 0, are (table, writable, readonly)."""
    coded = [bytes([program]) + compact(len(accounts)) + bytes(accounts) + compact(len(data)) + data
             for program, accounts, data in instructions]
    header = bytes([len(signers), 0, len(readonly)])
    wire = array([bytes(64)] * len(signers)) + (b'' if lookups is None else b'\x80') + header
    wire += array([*signers, *writable, *readonly]) + blockhash + array(coded)
    if lookups is not None:
        wire += array([table + array([bytes([place]) for place in places]) + array([bytes([place]) for place in others])
                       for table, places, others in lookups])
    return wire


def limit_units(units):
    return struct.pack('<BI', 2, units)


def price(lamports):
    return struct.pack('<BQ', 3, lamports)


def pay(lamports):
    return struct.pack('<IQ', 2, lamports)


def transfer(payer, to, lamports=1, units=1_000):
    """One transfer of the system program, with a limit of units."""
    return transaction([payer], [to] * (to != payer), [SYSTEM, BUDGET],
                       [(2 + (to != payer), [], limit_units(units)), (1 + (to != payer), [0, int(to != payer)], pay(lamports))])


# ---- Programs

def texts():
    """Texts of programs that use most forms of the assembler."""
    yield 'arithmetic', b''.join(
        b'%s%d r1, %d\n%s%d r2, r1\n' % (name, width, value, name, width)
        for value, name in enumerate((b'add', b'sub', b'mul', b'div', b'or', b'and', b'lsh', b'rsh', b'mod', b'xor', b'mov'), 1)
        for width in (32, 64)) + b'neg64 r1\nneg32 r2\nle16 r1\nbe64 r2\nmov64 r0, 0\nexit\n'
    yield 'jumps', (b'; a comment\nstart:\n  mov64 r1, -1\nloop:\nadd64 r1, 0x1\njslt r1, 5, loop\njeq r1, r2, +1\n'
                    b'ja end\nlddw r3, 0xffffffffffffffff\ncall inner\nend:\nmov64 r0, 0\nexit\ninner:\ncallx r3\nexit\n')
    yield 'memory', (b'ldxdw r2, [r1]\nldxw r3, [r1+8]\nldxh r4, [r10-2]\nldxb r5, [r10-4096]\nstw [r10-8], -1\n'
                     b'stdw [r10-16], 7\nsth [r10-18], 1\nstb [r10-19], 255\nstxdw [r10-32], r1\nstxw [r10-36], r2\n'
                     b'syscall 5\nmov64 r0, 0\nexit\n.const 00010203ff\n.const abcd\n')


def vaults(image, owners, rounds, per_transaction=3):
    """A block in which each owner takes out of a vault of the program of sdk/examples/vault.c in each
    round: so many instructions in a transaction, each with a cross-program call. All pay to one of four
    receivers, so that transactions wait for each other."""
    program, receivers = b'\x70' * 32, [key(0x72, number) for number in range(4)]
    accounts = [account(program, exempt(len(image)), LOADER, image, 1)]
    accounts += [account(receiver, exempt(0)) for receiver in receivers]
    wires = []
    for number in range(owners):
        owner = key(0x6f, number)
        vault = hashlib.sha256(b'vault' + owner + program + b'ProgramDerivedAddress').digest()
        accounts += [account(owner, 10**10), account(vault, 10**10)]
        for turn in range(rounds):
            to = receivers[(number + turn) % 4]
            takes = [(4, [1, 0, 2, 3], struct.pack('<Q', 1_000 * (turn + 1) + part)) for part in range(per_transaction)]
            units = (5, [], limit_units(100_000 + turn))
            wires.append(transaction([owner], [vault, to], [SYSTEM, program, BUDGET], [units] + takes))
    return snapshot(accounts) + batch(wires)


def crossing(count, accounts=4, paying=16):
    """So many transfers among so few accounts, so that nearly all of them conflict."""
    payers = [key(0x61, number) for number in range(paying)]
    held = [key(0x62, number) for number in range(accounts)]
    rows = [account(name, 10**12) for name in payers + held + [COLLECTOR]]
    wires = []
    for number in range(count):
        payer, to = payers[number * 7 % paying], held[number % accounts]
        budget = [(3, [], limit_units(1_000)), (3, [], price(number * 7919 % 100_000))]
        wires.append(transaction([payer], [to], [SYSTEM, BUDGET], budget + [(2, [0, 1], pay(number + 1))]))
    return snapshot(rows) + batch(wires)
