"""What `json --shown` shows of a transaction, from its exact form alone."""
import hashlib

from blocks import compact

SYSTEM, LOADER = bytes(32).hex(), (b'\x1d' * 32).hex()
BUDGET = '0306466fe5211732ffecadba72c39be7bc8ce5bbc5f7126b2c439b3a40000000'
LAMPORTS, SPACE, OWNER, BASE, SEED = ('lamports', 8), ('space', 8), ('owner', 'key'), ('base', 'key'), ('seed', 'text')
NATIVE = {
    SYSTEM: ('system', 4, {
        0: ('CreateAccount', ['from', 'to'], [LAMPORTS, SPACE, OWNER]), 1: ('Assign', ['account'], [OWNER]), 2: ('Transfer', ['from', 'to'], [LAMPORTS]),
        3: ('CreateAccountWithSeed', ['from', 'to'], [BASE, SEED, LAMPORTS, SPACE, OWNER]), 8: ('Allocate', ['account'], [SPACE]),
        9: ('AllocateWithSeed', ['account'], [BASE, SEED, SPACE, OWNER]), 10: ('AssignWithSeed', ['account'], [BASE, SEED, OWNER]),
        11: ('TransferWithSeed', ['from', 'base', 'to'], [LAMPORTS, SEED, OWNER])}),
    BUDGET: ('budget', 1, {
        1: ('RequestHeapFrame', [], [('bytes', 4)]), 2: ('SetComputeUnitLimit', [], [('units', 4)]),
        3: ('SetComputeUnitPrice', [], [('micro_lamports', 8)]), 4: ('SetLoadedAccountsDataSizeLimit', [], [('bytes', 4)])}),
    LOADER: ('loader', 4, {
        0: ('Init', ['buffer'], [('authority', 'key')]), 1: ('Write', ['buffer', 'authority'], [('offset', 4), ('bytes', 'bytes')]),
        2: ('Finalize', ['buffer', 'authority'], []), 3: ('SetAuthority', ['buffer', 'authority'], [('to', 'key')])}),
}


class Unnamed(Exception):
    pass


def taken(data, count):
    if len(data) < count:
        raise Unnamed
    return data[:count], data[count:]


def field(kind, data):
    if isinstance(kind, int):
        front, data = taken(data, kind)
        return int.from_bytes(front, 'little'), data
    if kind == 'key':
        front, data = taken(data, 32)
        return front.hex(), data
    count, data = field(8, data)
    front, data = taken(data, count)
    try:
        return (front.decode() if kind == 'text' else front.hex()), data
    except UnicodeDecodeError as e:
        raise Unnamed from e


def named(keys, instruction):
    word, width, kinds = NATIVE.get(keys[instruction['program']], (None, 0, {}))
    tag, data = field(width, bytes.fromhex(instruction['data'])) if word else (None, b'')
    if tag not in kinds:
        raise Unnamed
    name, accounts, fields = kinds[tag]
    if len(instruction['accounts']) < len(accounts):
        raise Unnamed
    shown = {word: name, **{account: key_at(keys, place) for account, place in zip(accounts, instruction['accounts'])}}
    for name, kind in fields:
        shown[name], data = field(kind, data)
    return shown


def key_at(keys, place):
    return keys[place] if place < len(keys) else f'loaded key {place - len(keys)}'


def instruction_shown(keys, instruction):
    try:
        return named(keys, instruction)
    except Unnamed:
        return {'accounts': [key_at(keys, place) for place in instruction['accounts']], 'program': key_at(keys, instruction['program'])}


def counted(items):
    return compact(len(items)) + b''.join(items)


def indexes(places):
    return compact(len(places)) + bytes(places)


def message_bytes(tx):
    header = tx['header']
    instructions = [bytes([one['program']]) + indexes(one['accounts']) + compact(len(one['data']) // 2) + bytes.fromhex(one['data']) for one in tx['instructions']]
    lookups = [bytes.fromhex(one['table']) + indexes(one['writable']) + indexes(one['readonly']) for one in tx['lookups']]
    return ((b'\x80' if tx['version'] == 0 else b'') + bytes([header['required'], header['readonly_signed'], header['readonly_unsigned']])
            + counted([bytes.fromhex(key) for key in tx['keys']]) + bytes.fromhex(tx['recent_blockhash']) + counted(instructions)
            + (counted(lookups) if tx['version'] == 0 else b''))


def transaction_shown(tx):
    """Of a transaction that pays; what is asked of the compute budget program twice, or in no form, is not looked for."""
    asked, others = {}, 0
    instructions = [instruction_shown(tx['keys'], one) for one in tx['instructions']]
    for one, shown in zip(tx['instructions'], instructions):
        if tx['keys'][one['program']] == BUDGET:
            asked[shown['budget']] = shown
        else:
            others += 1
    units = min(asked['SetComputeUnitLimit']['units'] if 'SetComputeUnitLimit' in asked else 200_000 * others, 1_400_000)
    price = asked['SetComputeUnitPrice']['micro_lamports'] if 'SetComputeUnitPrice' in asked else 0
    signatures = 5_000 * tx['header']['required']
    priority = min(-(-price * units // 1_000_000), 2**64 - 1 - signatures)
    return {'fee': {'priority': priority, 'signatures': signatures}, 'instructions': instructions, 'message': hashlib.sha256(message_bytes(tx)).hexdigest(),
            'price': price, 'priority': str((priority + signatures - signatures // 2) * 1_000_000 // (units + 1)), 'units': units}
