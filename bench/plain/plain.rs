//! The plain program that the product is measured beside: `produce` on one thread, as one would write
//! it in Rust without proofs. It knows blocks whose transactions are all admitted and end well, with
//! transfers of lamports, budgets, and programs that make no call but SHA-256; over any other input it
//! says so and ends with status 3. Over those that it knows it writes the same bytes.
use std::collections::{BTreeMap, HashMap, HashSet};
use std::fmt::Write as _;
use std::io::{Read, Write};
use std::rc::Rc;

type Key = [u8; 32];

const SYSTEM: Key = [0; 32];
const LOADER: Key = [0x1d; 32];
const BUDGET: Key = [
    0x03, 0x06, 0x46, 0x6f, 0xe5, 0x21, 0x17, 0x32, 0xff, 0xec, 0xad, 0xba, 0x72, 0xc3, 0x9b, 0xe7,
    0xbc, 0x8c, 0xe5, 0xbb, 0xc5, 0xf7, 0x12, 0x6b, 0x2c, 0x43, 0x9b, 0x3a, 0x40, 0x00, 0x00, 0x00,
];
const CLOCK: Key = [
    0x06, 0xa7, 0xd5, 0x17, 0x18, 0xc7, 0x74, 0xc9, 0x28, 0x56, 0x63, 0x98, 0x69, 0x1d, 0x5e, 0xb6,
    0x8b, 0x5e, 0xb8, 0xa3, 0x9b, 0x4b, 0x6d, 0x5c, 0x73, 0x55, 0x5b, 0x21, 0x00, 0x00, 0x00, 0x00,
];
const RENT: Key = [
    0x06, 0xa7, 0xd5, 0x17, 0x19, 0x2c, 0x5c, 0x51, 0x21, 0x8c, 0xc9, 0x4c, 0x3d, 0x4a, 0xf1, 0x7f,
    0x58, 0xda, 0xee, 0x08, 0x9b, 0xa1, 0xfd, 0x44, 0xe3, 0xdb, 0xd9, 0x8a, 0x00, 0x00, 0x00, 0x00,
];
const MOST_DATA: usize = 10_485_760;
const GROWTH: usize = 10_240;
const NATIVE_UNITS: u64 = 150;
const MOST_LOG: usize = 10_000;

fn is_reserved(key: &Key) -> bool {
    [SYSTEM, BUDGET, CLOCK, RENT].contains(key)
}

/// Ends the program over an input that it does not know.
fn unknown(what: &str) -> ! {
    eprintln!("plain: {what}");
    std::process::exit(3)
}

fn known<T>(value: Option<T>, what: &str) -> T {
    value.unwrap_or_else(|| unknown(what))
}

// ---- SHA-256 (FIPS 180-4)

const fn first_primes() -> [u32; 64] {
    let mut primes = [0; 64];
    let (mut found, mut n) = (0, 2);
    while found < 64 {
        let mut d = 2;
        while d * d <= n && n % d != 0 {
            d += 1;
        }
        if d * d > n {
            primes[found] = n;
            found += 1;
        }
        n += 1;
    }
    primes
}

/// The first 32 bits of the fraction of the square or cube root.
const fn root_bits(prime: u128, degree: u32) -> u32 {
    let (mut low, mut high) = (0u128, 1 << 37);
    while high - low > 1 {
        let mid = (low + high) / 2;
        let small = if degree == 2 { mid * mid <= prime << 64 } else { mid * mid * mid <= prime << 96 };
        if small { low = mid } else { high = mid }
    }
    low as u32
}

const fn roots<const N: usize>(degree: u32) -> [u32; N] {
    let primes = first_primes();
    let mut bits = [0; N];
    let mut i = 0;
    while i < N {
        bits[i] = root_bits(primes[i] as u128, degree);
        i += 1;
    }
    bits
}

const ROUNDS: [u32; 64] = roots(3);
const START: [u32; 8] = roots(2);

struct Sha256 {
    state: [u32; 8],
    block: [u8; 64],
    held: usize,
    length: u64,
}

impl Sha256 {
    fn new() -> Sha256 {
        Sha256 { state: START, block: [0; 64], held: 0, length: 0 }
    }

    fn compress(state: &mut [u32; 8], block: &[u8; 64]) {
        let mut words = [0u32; 64];
        for (word, bytes) in words.iter_mut().zip(block.chunks_exact(4)) {
            *word = u32::from_be_bytes(bytes.try_into().unwrap());
        }
        for t in 16..64 {
            let (w, v) = (words[t - 15], words[t - 2]);
            let s = w.rotate_right(7) ^ w.rotate_right(18) ^ (w >> 3);
            let r = v.rotate_right(17) ^ v.rotate_right(19) ^ (v >> 10);
            words[t] = words[t - 16].wrapping_add(s).wrapping_add(words[t - 7]).wrapping_add(r);
        }
        let [mut a, mut b, mut c, mut d, mut e, mut f, mut g, mut h] = *state;
        for t in 0..64 {
            let s = e.rotate_right(6) ^ e.rotate_right(11) ^ e.rotate_right(25);
            let choice = (e & f) ^ (!e & g);
            let one = h.wrapping_add(s).wrapping_add(choice).wrapping_add(ROUNDS[t]).wrapping_add(words[t]);
            let r = a.rotate_right(2) ^ a.rotate_right(13) ^ a.rotate_right(22);
            let two = r.wrapping_add((a & b) ^ (a & c) ^ (b & c));
            (h, g, f, e, d, c, b, a) = (g, f, e, d.wrapping_add(one), c, b, a, one.wrapping_add(two));
        }
        for (word, new) in state.iter_mut().zip([a, b, c, d, e, f, g, h]) {
            *word = word.wrapping_add(new);
        }
    }

    fn update(&mut self, mut bytes: &[u8]) {
        self.length += bytes.len() as u64;
        if self.held > 0 {
            let part = bytes.len().min(64 - self.held);
            self.block[self.held..self.held + part].copy_from_slice(&bytes[..part]);
            self.held += part;
            bytes = &bytes[part..];
            if self.held < 64 {
                return;
            }
            Sha256::compress(&mut self.state, &self.block);
            self.held = 0;
        }
        let blocks = bytes.chunks_exact(64);
        let rest = blocks.remainder();
        blocks.for_each(|block| Sha256::compress(&mut self.state, block.try_into().unwrap()));
        self.block[..rest.len()].copy_from_slice(rest);
        self.held = rest.len();
    }

    fn finalize(mut self) -> Key {
        let bits = self.length * 8;
        self.update(&[0x80]);
        while self.held != 56 {
            self.update(&[0]);
        }
        self.update(&bits.to_be_bytes());
        let mut digest = [0; 32];
        for (bytes, word) in digest.chunks_exact_mut(4).zip(self.state) {
            bytes.copy_from_slice(&word.to_be_bytes());
        }
        digest
    }
}

fn hash(bytes: &[u8]) -> Key {
    let mut hasher = Sha256::new();
    hasher.update(bytes);
    hasher.finalize()
}

// ---- What is read

#[derive(Clone, Debug, PartialEq)]
struct Account {
    lamports: u64,
    owner: Key,
    executable: bool,
    bytes: Vec<u8>,
}

const EMPTY: Account = Account { lamports: 0, owner: SYSTEM, executable: false, bytes: Vec::new() };

type State = BTreeMap<Key, Rc<Account>>;

struct Limits {
    keys: u16,
    height: u8,
    key_units: u64,
    block_units: u64,
}

struct Snapshot {
    slot: u64,
    limits: Limits,
    recent: Vec<(Key, Vec<Key>)>,
    accounts: State,
}

struct Instruction<'a> {
    program: u8,
    accounts: &'a [u8],
    input: &'a [u8],
}

/// An admitted transaction.
struct Tx<'a> {
    wire: &'a [u8],
    name: Key,
    signers: usize,
    keys: Vec<Key>,
    writes: Vec<bool>,
    instructions: Vec<Instruction<'a>>,
    limit: u64,
    heap: usize,
    base: u64,
    priority_fee: u64,
    priority: u128,
}

/// The bytes that are left.
struct Reader<'a>(&'a [u8]);

impl<'a> Reader<'a> {
    fn take(&mut self, count: usize) -> Option<&'a [u8]> {
        let (field, rest) = self.0.split_at_checked(count)?;
        self.0 = rest;
        Some(field)
    }

    fn array<const N: usize>(&mut self) -> Option<[u8; N]> {
        self.take(N)?.try_into().ok()
    }

    fn u8(&mut self) -> Option<u8> {
        Some(self.array::<1>()?[0])
    }

    fn u16(&mut self) -> Option<u16> {
        self.array().map(u16::from_le_bytes)
    }

    fn u32(&mut self) -> Option<u32> {
        self.array().map(u32::from_le_bytes)
    }

    fn u64(&mut self) -> Option<u64> {
        self.array().map(u64::from_le_bytes)
    }

    fn key(&mut self) -> Option<Key> {
        self.array()
    }

    /// A length in seven bits a byte, as short as it goes.
    fn length(&mut self) -> Option<usize> {
        let mut value = 0;
        for place in 0..3 {
            let byte = self.u8()? as usize;
            value |= (byte & 127) << (7 * place);
            if byte < 128 {
                return (value < 65_536 && (place == 0 || byte != 0)).then_some(value);
            }
        }
        None
    }

    fn sized(&mut self) -> Option<&'a [u8]> {
        let length = self.length()?;
        self.take(length)
    }

    fn account(&mut self) -> Option<Account> {
        let lamports = self.u64().filter(|&lamports| lamports > 0)?;
        let owner = self.key()?;
        let executable = self.u8().filter(|&byte| byte < 2)? == 1;
        let length = self.u32().map(|length| length as usize).filter(|&length| length <= MOST_DATA)?;
        Some(Account { lamports, owner, executable, bytes: self.take(length)?.to_vec() })
    }

    fn accounts(&mut self) -> Option<State> {
        let (mut accounts, mut last, mut total) = (Vec::new(), None, 0u64);
        for _ in 0..self.u32()? {
            let key = self.key().filter(|&key| last.is_none_or(|last| last < key))?;
            let account = self.account()?;
            total = total.checked_add(account.lamports)?;
            last = Some(key);
            accounts.push((key, Rc::new(account)));
        }
        Some(accounts.into_iter().collect())
    }

    fn snapshot(&mut self) -> Option<Snapshot> {
        let has_limits = match self.take(8)? {
            b"SOLSNAP1" => false,
            b"SOLSNAP2" => true,
            _ => return None,
        };
        let slot = self.u64()?;
        let mut limits = Limits { keys: 64, height: 5, key_units: 12_000_000, block_units: 48_000_000 };
        if has_limits {
            limits = Limits { keys: self.u16()?, height: self.u8()?, key_units: self.u64()?, block_units: self.u64()? };
        }
        let mut recent = Vec::new();
        for _ in 0..self.u32()? {
            let hash = self.key()?;
            recent.push((hash, (0..self.u32()?).map(|_| self.key()).collect::<Option<_>>()?));
        }
        Some(Snapshot { slot, limits, recent, accounts: self.accounts()? })
    }

    fn instruction(&mut self) -> Option<Instruction<'a>> {
        Some(Instruction { program: self.u8()?, accounts: self.sized()?, input: self.sized()? })
    }
}

// ---- Admission

/// The name, the blockhash and what else is read of a transaction; sane, and not priced yet.
fn read_tx<'a>(wire: &'a [u8], limits: &Limits) -> Option<(Tx<'a>, Key)> {
    let mut reader = Reader(wire);
    let signatures = reader.length()?;
    reader.take(64 * signatures)?;
    let name = hash(reader.0);
    let [required, readonly_signed, readonly_unsigned] = reader.array::<3>()?.map(usize::from);
    let keys = (0..reader.length()?).map(|_| reader.key()).collect::<Option<Vec<_>>>()?;
    let blockhash = reader.key()?;
    let instructions = (0..reader.length()?).map(|_| reader.instruction()).collect::<Option<Vec<_>>>()?;
    let count = keys.len();
    let is_sane = reader.0.is_empty()
        && wire.len() <= 1_232
        && signatures == required
        && required + readonly_unsigned <= count
        && readonly_signed < required
        && instructions.iter().all(|i| 0 < i.program && usize::from(i.program) < count)
        && instructions.iter().flat_map(|i| i.accounts).all(|&index| usize::from(index) < count)
        && count <= usize::from(limits.keys)
        && (1..count).all(|at| !keys[..at].contains(&keys[at]))
        && !is_reserved(&keys[0]);
    if !is_sane {
        return None;
    }
    let writes = (0..count)
        .map(|at| {
            let may = at < required - readonly_signed || (required <= at && at < count - readonly_unsigned);
            may && !is_reserved(&keys[at]) && !instructions.iter().any(|i| usize::from(i.program) == at)
        })
        .collect();
    let tx = Tx {
        wire, name, signers: required, keys, writes, instructions,
        limit: 0, heap: 0, base: 0, priority_fee: 0, priority: 0,
    };
    Some((tx, blockhash))
}

/// The budget, the fees and the priority.
fn price(tx: &mut Tx) -> Option<()> {
    let (mut given, mut others) = ([None; 5], 0);
    for instruction in &tx.instructions {
        if tx.keys[usize::from(instruction.program)] != BUDGET {
            others += 1;
            continue;
        }
        let mut reader = Reader(instruction.input);
        let tag = usize::from(reader.u8()?);
        let value = match tag {
            3 => reader.u64()?,
            1 | 2 | 4 => u64::from(reader.u32()?),
            _ => return None,
        };
        let is_right = match tag {
            1 => value % 1_024 == 0 && (32_768..=262_144).contains(&value),
            4 => value != 0,
            _ => true,
        };
        if !is_right || given[tag].replace(value).is_some() {
            return None;
        }
    }
    tx.limit = given[2].unwrap_or(200_000 * others).min(1_400_000);
    tx.heap = given[1].unwrap_or(32_768) as usize;
    tx.base = 5_000 * tx.signers as u64;
    let wanted = (u128::from(given[3].unwrap_or(0)) * u128::from(tx.limit)).div_ceil(1_000_000);
    tx.priority_fee = wanted.min(u128::from(u64::MAX - tx.base)) as u64;
    let rest = tx.priority_fee + tx.base - tx.base / 2;
    tx.priority = u128::from(rest) * 1_000_000 / u128::from(tx.limit + 1);
    Some(())
}

/// The transactions in their order; all must be admitted.
fn admit<'a>(wires: &[&'a [u8]], snapshot: &Snapshot) -> Option<Vec<Tx<'a>>> {
    let (mut order, mut names) = (Vec::with_capacity(wires.len()), HashSet::new());
    for wire in wires {
        let (mut tx, blockhash) = read_tx(wire, &snapshot.limits)?;
        let was_processed = snapshot.recent.iter().any(|(_, names)| names.binary_search(&tx.name).is_ok());
        if was_processed || !names.insert(tx.name) || !snapshot.recent.iter().any(|(hash, _)| *hash == blockhash) {
            return None;
        }
        price(&mut tx)?;
        order.push(tx);
    }
    order.sort_by_key(|tx| std::cmp::Reverse(tx.priority));
    let (mut sum, mut sums) = (0, HashMap::new());
    for tx in &order {
        sum += tx.limit;
        for (key, _) in tx.keys.iter().zip(&tx.writes).filter(|(_, write)| **write) {
            let of_key = sums.entry(*key).or_insert(0);
            *of_key += tx.limit;
            if *of_key > snapshot.limits.key_units {
                return None;
            }
        }
    }
    (sum <= snapshot.limits.block_units).then_some(order)
}

// ---- The machine

#[derive(Clone, Copy)]
struct Slot {
    opcode: u8,
    dst: u8,
    src: u8,
    target: u32,
    offset: u64,
    imm: u64,
}

struct Program {
    slots: Vec<Slot>,
    image: Vec<u8>,
}

/// The program of an image. What stands in its text is looked at where it is run.
fn program_of(image: &[u8]) -> Option<Program> {
    let mut reader = Reader(image);
    reader.take(8).filter(|magic| magic == b"SBPFIMG1")?;
    let (count, constants) = (reader.u32()? as usize, reader.u32()? as usize);
    let image = reader.0;
    if image.len() != 8 * count + constants {
        return None;
    }
    let mut slots = Vec::with_capacity(count);
    for at in 0..count {
        let mut reader = Reader(&image[8 * at..]);
        let (opcode, registers) = (reader.u8()?, reader.u8()?);
        let (offset, imm) = (reader.u16()? as i16, reader.u32()? as i32);
        let (dst, src) = (registers & 15, registers >> 4);
        let jump = if opcode == 0x85 { i64::from(imm) } else { i64::from(offset) };
        let target = (at as i64 + 1 + jump) as u32;
        if dst > 10 || src > 10 {
            return None;
        }
        slots.push(Slot { opcode, dst, src, target, offset: offset as u64, imm: imm as u64 });
    }
    Some(Program { slots, image: image.to_vec() })
}

struct Memory<'a> {
    image: &'a [u8],
    stack: Vec<u8>,
    heap: Vec<u8>,
    input: Vec<u8>,
}

impl Memory<'_> {
    #[inline(always)]
    fn read(&self, addr: u64, length: usize) -> Option<&[u8]> {
        let low = (addr & 0xffff_ffff) as usize;
        let from = match addr >> 32 {
            1 => self.image,
            2 if low >> 13 < 64 && (low & 8_191) + length <= 4_096 => &self.stack[..],
            3 => &self.heap[..],
            4 => &self.input[..],
            _ => return None,
        };
        from.get(low..low + length)
    }

    #[inline(always)]
    fn write(&mut self, addr: u64, bytes: &[u8]) -> Option<()> {
        let low = (addr & 0xffff_ffff) as usize;
        let into = match addr >> 32 {
            2 if low >> 13 < 64 && (low & 8_191) + bytes.len() <= 4_096 => &mut self.stack,
            3 => &mut self.heap,
            4 => &mut self.input,
            _ => return None,
        };
        into.get_mut(low..low + bytes.len())?.copy_from_slice(bytes);
        Some(())
    }

    #[inline(always)]
    fn load<const N: usize>(&self, addr: u64) -> Option<u64> {
        let mut bytes = [0; 8];
        bytes[..N].copy_from_slice(self.read(addr, N)?);
        Some(u64::from_le_bytes(bytes))
    }

    #[inline(always)]
    fn store<const N: usize>(&mut self, addr: u64, value: u64) -> Option<()> {
        self.write(addr, &value.to_le_bytes()[..N])
    }

    /// The hash of slices that are listed as addresses and lengths, and what it costs.
    fn sha256(&mut self, registers: &[u64; 11]) -> Option<u64> {
        let (mut hasher, mut cost) = (Sha256::new(), 85);
        for n in 0..registers[2] {
            let addr = self.load::<8>(registers[1] + 16 * n)?;
            let length = self.load::<8>(registers[1] + 16 * n + 8)?;
            let bytes = if length == 0 { &[][..] } else { self.read(addr, length as usize)? };
            cost += (length / 2).max(10);
            hasher.update(bytes);
        }
        self.write(registers[3], &hasher.finalize())?;
        Some(cost)
    }
}

struct Waiting {
    back: usize,
    kept: [u64; 4],
}

/// Runs a program to its exit: r0 and the units that are left. A fault is None.
fn run(program: &Program, memory: &mut Memory, mut units: u64) -> Option<(u64, u64)> {
    let mut r = [0u64; 11];
    let mut waiting: Vec<Waiting> = Vec::new();
    (r[1], r[10]) = (4 << 32, (2 << 32) + 4_096);
    let mut at = 0;
    macro_rules! alu {
        ($dst:expr, $b:expr, $wide:expr, |$x:ident, $y:ident| $op:expr) => {{
            if $wide {
                let ($x, $y) = (r[$dst], $b);
                r[$dst] = $op;
            } else {
                let ($x, $y) = (r[$dst] as u32, $b as u32);
                r[$dst] = u64::from($op);
            }
        }};
    }
    loop {
        units = units.checked_sub(1)?;
        let slot = program.slots.get(at)?;
        at += 1;
        let (dst, src) = (usize::from(slot.dst), usize::from(slot.src));
        macro_rules! jump {
            (|$x:ident, $y:ident| $test:expr) => {{
                let ($x, $y) = (r[dst], if slot.opcode & 8 == 0 { slot.imm } else { r[src] });
                if $test {
                    at = slot.target as usize;
                }
            }};
        }
        let addr = r[dst].wrapping_add(slot.offset);
        match slot.opcode {
            0x07 => r[dst] = r[dst].wrapping_add(slot.imm),
            0x0f => r[dst] = r[dst].wrapping_add(r[src]),
            0x04 => alu!(dst, slot.imm, false, |x, y| x.wrapping_add(y)),
            0x0c => alu!(dst, r[src], false, |x, y| x.wrapping_add(y)),
            0x17 => r[dst] = r[dst].wrapping_sub(slot.imm),
            0x1f => r[dst] = r[dst].wrapping_sub(r[src]),
            0x27 => r[dst] = r[dst].wrapping_mul(slot.imm),
            0x2f => r[dst] = r[dst].wrapping_mul(r[src]),
            0x47 => r[dst] |= slot.imm,
            0x4f => r[dst] |= r[src],
            0x57 => r[dst] &= slot.imm,
            0x5f => r[dst] &= r[src],
            0x67 => r[dst] <<= slot.imm % 64,
            0x6f => r[dst] <<= r[src] % 64,
            0x77 => r[dst] >>= slot.imm % 64,
            0x7f => r[dst] >>= r[src] % 64,
            0xa7 => r[dst] ^= slot.imm,
            0xaf => r[dst] ^= r[src],
            0xb7 => r[dst] = slot.imm,
            0xbf => r[dst] = r[src],
            0xb4 => alu!(dst, slot.imm, false, |_x, y| y),
            0xbc => alu!(dst, r[src], false, |_x, y| y),
            0x18 => {
                let high = program.slots.get(at)?.imm;
                r[dst] = (slot.imm & 0xffff_ffff) | high << 32;
                at += 1;
            }
            0x61 => r[dst] = memory.load::<4>(r[src].wrapping_add(slot.offset))?,
            0x69 => r[dst] = memory.load::<2>(r[src].wrapping_add(slot.offset))?,
            0x71 => r[dst] = memory.load::<1>(r[src].wrapping_add(slot.offset))?,
            0x79 => r[dst] = memory.load::<8>(r[src].wrapping_add(slot.offset))?,
            0x62 => memory.store::<4>(addr, slot.imm)?,
            0x6a => memory.store::<2>(addr, slot.imm)?,
            0x72 => memory.store::<1>(addr, slot.imm)?,
            0x7a => memory.store::<8>(addr, slot.imm)?,
            0x63 => memory.store::<4>(addr, r[src])?,
            0x6b => memory.store::<2>(addr, r[src])?,
            0x73 => memory.store::<1>(addr, r[src])?,
            0x7b => memory.store::<8>(addr, r[src])?,
            0x05 => at = slot.target as usize,
            0x15 | 0x1d => jump!(|x, y| x == y),
            0x55 | 0x5d => jump!(|x, y| x != y),
            0x25 | 0x2d => jump!(|x, y| x > y),
            0x35 | 0x3d => jump!(|x, y| x >= y),
            0xa5 | 0xad => jump!(|x, y| x < y),
            0xb5 | 0xbd => jump!(|x, y| x <= y),
            0x85 if slot.src == 1 => {
                if waiting.len() == 63 {
                    return None;
                }
                waiting.push(Waiting { back: at, kept: [r[6], r[7], r[8], r[9]] });
                r[10] += 8_192;
                at = slot.target as usize;
            }
            0x85 if slot.imm == 6 => {
                let cost = memory.sha256(&r)?;
                units = units.checked_sub(cost)?;
                r[0] = 0;
            }
            0x95 => match waiting.pop() {
                None => return Some((r[0], units)),
                Some(call) => {
                    at = call.back;
                    r[6..10].copy_from_slice(&call.kept);
                    r[10] -= 8_192;
                }
            },
            _ => return None,
        }
    }
}

// ---- Execution

struct Entry<'a> {
    wire: &'a [u8],
    units: u64,
    fee: u64,
    lines: Vec<String>,
}

fn hex(key: &Key) -> String {
    let mut text = String::with_capacity(64);
    for byte in key {
        write!(text, "{byte:02x}").unwrap();
    }
    text
}

fn minimum(length: usize) -> u64 {
    (128 + length as u64) * 3_480 * 2
}

/// Whether rent allows that an account becomes another.
fn may_move(before: &Account, after: &Account) -> bool {
    let pays = |a: &Account| a.lamports > 0 && a.lamports < minimum(a.bytes.len());
    !pays(after) || pays(before) && before.bytes.len() == after.bytes.len() && before.lamports >= after.lamports
}

/// A frame's accounts by their places in its list, each once.
fn listed_once(accounts: &[u8]) -> Vec<usize> {
    let mut places: Vec<usize> = Vec::new();
    for &index in accounts {
        if !places.contains(&usize::from(index)) {
            places.push(usize::from(index));
        }
    }
    places
}

/// Lays the accounts out, runs the program and takes the accounts back: the units that are left.
fn run_program(
    program: &Program, tx: &Tx, instruction: &Instruction, values: &mut [Rc<Account>], units: u64,
) -> Option<u64> {
    let key = &tx.keys[usize::from(instruction.program)];
    let places = listed_once(instruction.accounts);
    let mut region = (instruction.accounts.len() as u64).to_le_bytes().to_vec();
    let mut data = Vec::new();
    if places.len() != instruction.accounts.len() {
        return None;
    }
    for &index in &places {
        let account = &values[index];
        let length = account.bytes.len();
        region.extend([255, u8::from(index < tx.signers), tx.writes[index].into(), account.executable.into()]);
        region.extend([0; 4]);
        region.extend(tx.keys[index]);
        region.extend(account.owner);
        region.extend(account.lamports.to_le_bytes());
        region.extend((length as u64).to_le_bytes());
        data.push(region.len());
        region.extend(&account.bytes);
        region.resize(region.len() + GROWTH + length.next_multiple_of(8) - length, 0);
        region.extend([255; 8]);
    }
    region.extend((instruction.input.len() as u64).to_le_bytes());
    region.extend(instruction.input);
    region.extend(key);
    let mut memory =
        Memory { image: &program.image, stack: vec![0; 64 << 13], heap: vec![0; tx.heap], input: region };
    let (r0, units) = run(program, &mut memory, units)?;
    for (&index, at) in places.iter().zip(data) {
        let mut reader = Reader(&memory.input[at - 48..]);
        let (owner, lamports, length) = (reader.key()?, reader.u64()?, reader.u64()? as usize);
        let before = &values[index];
        if owner != before.owner || lamports != before.lamports || length > before.bytes.len() + GROWTH {
            return None;
        }
        let bytes = reader.take(length)?;
        if bytes != before.bytes {
            if !tx.writes[index] || before.owner != *key || before.executable {
                return None;
            }
            values[index] = Rc::new(Account { bytes: bytes.to_vec(), ..Account::clone(before) });
        }
    }
    (r0 == 0).then_some(units)
}

fn transfer(tx: &Tx, instruction: &Instruction, values: &mut [Rc<Account>]) -> Option<()> {
    let mut reader = Reader(instruction.input);
    let (tag, lamports) = (reader.u32()?, reader.u64()?);
    let [from, to, ..] = *instruction.accounts else { return None };
    let (from, to) = (usize::from(from), usize::from(to));
    let is_good = tag == 2 && from < tx.signers && tx.writes[from] && tx.writes[to] && values[from].bytes.is_empty();
    if !is_good || from == to || values[from].owner != SYSTEM || values[from].executable || values[to].executable {
        return None;
    }
    let left = values[from].lamports.checked_sub(lamports)?;
    Rc::make_mut(&mut values[from]).lamports = left;
    Rc::make_mut(&mut values[to]).lamports += lamports;
    Some(())
}

struct Bank {
    state: State,
    programs: HashMap<Key, Program>,
}

impl Bank {
    fn instruction(
        &mut self, tx: &Tx, instruction: &Instruction, values: &mut [Rc<Account>], units: u64, lines: &mut Vec<String>,
    ) -> Option<u64> {
        let key = &tx.keys[usize::from(instruction.program)];
        let name = hex(key);
        lines.push(format!("Program {name} invoke [1]"));
        let left = if *key == SYSTEM || *key == BUDGET {
            let left = units.checked_sub(NATIVE_UNITS)?;
            if *key == SYSTEM {
                transfer(tx, instruction, values)?;
            }
            left
        } else {
            if !self.programs.contains_key(key) {
                let account = self.state.get(key).filter(|account| account.executable)?;
                self.programs.insert(*key, program_of(&account.bytes)?);
            }
            let left = run_program(&self.programs[key], tx, instruction, values, units)?;
            lines.push(format!("Program {name} consumed {} of {units} compute units", units - left));
            left
        };
        lines.push(format!("Program {name} success"));
        Some(left)
    }

    fn perform<'a>(&mut self, tx: &Tx<'a>) -> Option<Entry<'a>> {
        let empty = Rc::new(EMPTY);
        let mut values: Vec<_> = tx.keys.iter().map(|key| self.state.get(key).unwrap_or(&empty).clone()).collect();
        let fee = tx.base + tx.priority_fee;
        let payer = values[0].clone();
        if payer.owner != SYSTEM || payer.executable || !payer.bytes.is_empty() {
            return None;
        }
        Rc::make_mut(&mut values[0]).lamports = payer.lamports.checked_sub(fee)?;
        let base = values.clone();
        if !may_move(&payer, &base[0]) || base.iter().map(|value| value.bytes.len()).sum::<usize>() > 64 << 20 {
            return None;
        }
        let (mut units, mut lines) = (tx.limit, Vec::new());
        for instruction in &tx.instructions {
            units = self.instruction(tx, instruction, &mut values, units, &mut lines)?;
        }
        for (index, value) in values.into_iter().enumerate() {
            if !may_move(&base[index], &value) {
                return None;
            }
            if index > 0 && Rc::ptr_eq(&base[index], &value) {
                continue;
            }
            if value.lamports == 0 {
                self.state.remove(&tx.keys[index]);
            } else {
                self.state.insert(tx.keys[index], value);
            }
        }
        let is_short = lines.iter().map(String::len).sum::<usize>() <= MOST_LOG;
        is_short.then_some(Entry { wire: tx.wire, units: tx.limit - units, fee, lines })
    }
}

// ---- What is written

/// What takes the bytes of a format.
trait Output {
    fn add(&mut self, bytes: &[u8]);
}

impl Output for Vec<u8> {
    fn add(&mut self, bytes: &[u8]) {
        self.extend_from_slice(bytes);
    }
}

impl Output for Sha256 {
    fn add(&mut self, bytes: &[u8]) {
        self.update(bytes);
    }
}

fn write_state<O: Output>(out: &mut O, accounts: &State) {
    out.add(&(accounts.len() as u32).to_le_bytes());
    for (key, account) in accounts {
        out.add(key);
        out.add(&account.lamports.to_le_bytes());
        out.add(&account.owner);
        out.add(&[account.executable.into()]);
        out.add(&(account.bytes.len() as u32).to_le_bytes());
        out.add(&account.bytes);
    }
}

fn write_sized(out: &mut Vec<u8>, bytes: &[u8]) {
    out.add(&(bytes.len() as u16).to_le_bytes());
    out.add(bytes);
}

fn write_entry(out: &mut Vec<u8>, entry: &Entry) {
    write_sized(out, entry.wire);
    out.add(&[0; 8]);
    out.add(&entry.units.to_le_bytes());
    out.add(&entry.fee.to_le_bytes());
    out.add(&(entry.lines.len() as u16).to_le_bytes());
    entry.lines.iter().for_each(|line| write_sized(out, line.as_bytes()));
}

fn write_snapshot(out: &mut Vec<u8>, slot: u64, limits: &Limits, recent: &[(Key, Vec<Key>)], accounts: &State) {
    out.reserve(accounts.values().map(|account| 77 + account.bytes.len()).sum());
    out.add(b"SOLSNAP2");
    out.add(&slot.to_le_bytes());
    out.add(&limits.keys.to_le_bytes());
    out.add(&[limits.height]);
    out.add(&limits.key_units.to_le_bytes());
    out.add(&limits.block_units.to_le_bytes());
    out.add(&(recent.len() as u32).to_le_bytes());
    for (hash, names) in recent {
        out.add(hash);
        out.add(&(names.len() as u32).to_le_bytes());
        names.iter().for_each(|name| out.add(name));
    }
    write_state(out, accounts);
}

/// What is burned and what the collector gets, which goes into the state.
fn collect(state: &mut State, collector: &Key, order: &[Tx]) -> (u64, u64) {
    let base: u64 = order.iter().map(|tx| tx.base).sum();
    let rest = base - base / 2 + order.iter().map(|tx| tx.priority_fee).sum::<u64>();
    let mut account = state.get(collector).map_or(EMPTY, |account| Account::clone(account));
    account.lamports += rest;
    let may = !is_reserved(collector) && account.owner == SYSTEM && !account.executable && account.bytes.is_empty();
    if rest == 0 || !may || account.lamports < minimum(0) {
        return (base / 2 + rest, 0);
    }
    state.insert(*collector, Rc::new(account));
    (base / 2, rest)
}

fn produce(input: &[u8]) -> Vec<u8> {
    let mut reader = Reader(input);
    let snapshot = known(reader.snapshot(), "not a snapshot");
    let mut batch = || {
        reader.take(8).filter(|magic| magic == b"SOLBATC1")?;
        let (slot, collector) = (reader.u64().filter(|&slot| slot > snapshot.slot)?, reader.key()?);
        let count = reader.u32()?;
        let wires = (0..count).map(|_| reader.u16().and_then(|length| reader.take(length.into()))).collect::<Option<Vec<_>>>()?;
        reader.0.is_empty().then_some((slot, collector, wires))
    };
    let (slot, collector, wires) = known(batch(), "not a batch");
    let order = known(admit(&wires, &snapshot), "not all transactions are admitted");
    let Snapshot { limits, mut recent, accounts, .. } = snapshot;
    let mut bank = Bank { state: accounts, programs: HashMap::new() };
    let entries: Vec<_> = order.iter().map(|tx| known(bank.perform(tx), "a transaction that does not end well")).collect();
    let mut state = bank.state;
    let (burned, collected) = collect(&mut state, &collector, &order);
    if state.values().any(|account| account.owner == LOADER) {
        unknown("programs of the loader");
    }
    let previous = recent.first().map_or([0; 32], |(hash, _)| *hash);
    let mut out = Vec::new();
    out.add(b"SOLBLCK1");
    out.add(&slot.to_le_bytes());
    out.add(&collector);
    out.add(&previous);
    out.add(&(entries.len() as u32).to_le_bytes());
    entries.iter().for_each(|entry| write_entry(&mut out, entry));
    out.add(&burned.to_le_bytes());
    out.add(&collected.to_le_bytes());
    let mut hasher = Sha256::new();
    write_state(&mut hasher, &state);
    out.add(&hasher.finalize());
    let block = hash(&out);
    out.add(&block);
    let mut names: Vec<_> = order.iter().map(|tx| tx.name).collect();
    names.sort();
    recent.insert(0, (block, names));
    recent.truncate(150);
    write_snapshot(&mut out, slot, &limits, &recent, &state);
    out
}

fn main() {
    let mut input = Vec::new();
    std::io::stdin().read_to_end(&mut input).unwrap();
    std::io::stdout().write_all(&produce(&input)).unwrap();
}
