//! Order files made at random, for the comparison of the two programs.

/// A small generator of numbers: the same seed gives the same files on every machine.
pub struct Random(u64);

impl Random {
    pub fn new(seed: u64) -> Random {
        Random(seed)
    }

    pub fn number(&mut self) -> u64 {
        self.0 = self.0.wrapping_add(0x9E37_79B9_7F4A_7C15);
        let mut z = self.0;
        z = (z ^ (z >> 30)).wrapping_mul(0xBF58_476D_1CE4_E5B9);
        z = (z ^ (z >> 27)).wrapping_mul(0x94D0_49BB_1331_11EB);
        z ^ (z >> 31)
    }

    pub fn below(&mut self, n: u64) -> u64 {
        self.number() % n
    }

    pub fn one_in(&mut self, n: u64) -> bool {
        self.below(n) == 0
    }

    pub fn pick<T: Copy>(&mut self, from: &[T]) -> T {
        from[self.below(from.len() as u64) as usize]
    }
}

/// Where the price rule changes.
pub const PRICE_EDGES: [u32; 14] = [
    0,
    1,
    499,
    500,
    998,
    1_000,
    4_995,
    5_000,
    49_975,
    50_000,
    99_950,
    100_000,
    10_000_000,
    u32::MAX,
];

/// Where the quantity rule changes.
pub const QUANTITY_EDGES: [u32; 6] = [0, 100, 1_000, 999_900, 1_000_000, u32::MAX];

/// A number near one of these, so that each rule is met on both sides of its limit.
pub fn near(random: &mut Random, from: &[u32]) -> u32 {
    let base = random.pick(from);
    match random.below(6) {
        0 => base.wrapping_add(1),
        1 => base.wrapping_sub(1),
        2 => base.wrapping_add(random.below(200) as u32),
        _ => base,
    }
}

fn price(random: &mut Random) -> u32 {
    match random.below(10) {
        0 => near(random, &PRICE_EDGES),
        1 => random.below(12_000_000) as u32,
        _ => random.pick(&[900, 950, 980, 990, 995, 1_000, 1_005, 1_010, 1_050, 1_100]),
    }
}

fn quantity(random: &mut Random) -> u32 {
    match random.below(5) {
        0 => near(random, &QUANTITY_EDGES),
        _ => 100 * (1 + random.below(20) as u32),
    }
}

fn minimum(random: &mut Random, quantity: u32) -> u32 {
    match random.below(6) {
        0 => near(random, &[100, 200, quantity, quantity / 2]),
        1 => 100 * random.below(u64::from(quantity / 100) + 1) as u32,
        _ => 0,
    }
}

pub fn account(random: &mut Random) -> [u8; 8] {
    let mut bytes = [0; 8];
    for b in &mut bytes {
        *b = match random.below(400) {
            0 => random.pick(&[0x00, 0x20, 0x7F, 0x80, 0xFF]),
            1..=40 => random.pick(&[0x21, 0x7E]),
            _ => 0x21 + random.below(0x7E - 0x21 + 1) as u8,
        };
    }
    bytes
}

fn entry(random: &mut Random) -> [u8; 32] {
    let mut record = [0; 32];
    let quantity = quantity(random);
    record[0] = b'E';
    record[1] = random.pick(b"BS");
    record[2] = random.pick(b"LLLM");
    record[3] = random.pick(b"NNNFI");
    let price = if record[2] == b'M' && !random.one_in(8) {
        0
    } else {
        price(random)
    };
    record[4..8].copy_from_slice(&price.to_be_bytes());
    record[8..12].copy_from_slice(&quantity.to_be_bytes());
    record[16..20].copy_from_slice(&minimum(random, quantity).to_be_bytes());
    record[20] = random.pick(b"ID");
    record[24..32].copy_from_slice(&account(random));
    record
}

fn record(random: &mut Random) -> [u8; 32] {
    if random.one_in(50) {
        let mut record = entry(random);
        record[0] = random.number() as u8;
        return record;
    }
    if !random.one_in(4) {
        return entry(random);
    }
    let mut record = [0; 32];
    record[0] = random.pick(b"DWOHRC");
    if record[0] == b'D' {
        record[4..8].copy_from_slice(&price(random).to_be_bytes());
    }
    if record[0] == b'W' {
        let number = if random.one_in(4) {
            random.number() as u32
        } else {
            random.below(50) as u32
        };
        record[4..8].copy_from_slice(&number.to_be_bytes());
    }
    record
}

/// Flips a bit, changes a letter for another, or overwrites a byte, somewhere in the file.
pub fn damage(random: &mut Random, file: &mut [u8]) {
    let place = random.below(file.len() as u64) as usize;
    file[place] = match random.below(3) {
        0 => file[place] ^ (1 << random.below(8)),
        1 => random.pick(b"DEWOHRCBSLMNFIDX\0"),
        _ => random.number() as u8,
    };
}

/// A file of up to `most` records. One in three is damaged, one in five is cut at the end, and one in forty is noise.
pub fn file(random: &mut Random, most: u64) -> Vec<u8> {
    let count = random.below(most + 1);
    let mut bytes: Vec<u8> = (0..count).flat_map(|_| record(random)).collect();
    if random.one_in(40) {
        bytes.iter_mut().for_each(|b| *b = random.number() as u8);
    }
    if random.one_in(3) && !bytes.is_empty() {
        for _ in 0..1 + random.below(6) {
            damage(random, &mut bytes);
        }
    }
    if random.one_in(5) && !bytes.is_empty() {
        let left = bytes.len() - 1 - random.below(31) as usize;
        bytes.truncate(left);
    }
    bytes
}
