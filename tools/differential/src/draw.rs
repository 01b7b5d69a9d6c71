//! Drawn inputs of document 01's domain, and some outside it.
use crate::case::Arg::{B, N};
use crate::case::*;

/// A small generator of its own (splitmix64), so that a seed says the whole run.
pub struct Rng(pub u64);

impl Rng {
    pub fn next(&mut self) -> u64 {
        self.0 = self.0.wrapping_add(0x9e37_79b9_7f4a_7c15);
        let mut z = self.0;
        z = (z ^ (z >> 30)).wrapping_mul(0xbf58_476d_1ce4_e5b9);
        z = (z ^ (z >> 27)).wrapping_mul(0x94d0_49bb_1331_11eb);
        z ^ (z >> 31)
    }

    pub fn below(&mut self, n: u64) -> u64 {
        ((self.next() as u128 * n as u128) >> 64) as u64
    }

    pub fn pick<T: Copy>(&mut self, from: &[T]) -> T {
        from[self.below(from.len() as u64) as usize]
    }

    /// Once in `n` draws.
    pub fn once_in(&mut self, n: u64) -> bool {
        self.below(n) == 0
    }

    pub fn flag(&mut self) -> u64 {
        self.below(2)
    }

    /// A number near a boundary of the domain.
    pub fn edge(&mut self) -> u64 {
        let near = self.pick(&[0, 1 << 32, 1 << 60, 1 << 61, 1 << 62, 1 << 63, u64::MAX / 8, u64::MAX / 3, u64::MAX]);
        match self.below(3) {
            0 => near.wrapping_add(self.below(5)).wrapping_sub(2),
            1 => (1u64 << self.below(64)).wrapping_add(self.below(3)).wrapping_sub(1),
            _ => self.next() >> self.below(64),
        }
    }

    pub fn count(&mut self, most: u64) -> u64 {
        if self.once_in(40) {
            self.edge()
        } else {
            self.below(most + 1)
        }
    }

    pub fn bytes(&mut self, n: usize) -> Vec<u64> {
        (0..n).map(|_| self.below(256)).collect()
    }

    /// Any f64: bit patterns, small numbers, ends of the range, NaNs, zeros.
    pub fn wild(&mut self) -> u64 {
        match self.below(8) {
            0 => self.next(),
            1 => (self.below(9) as f64 - 4.0).to_bits(),
            2 => f64::NAN.to_bits() ^ self.next() >> 13,
            3 => self.pick(&[0, 1 << 63, f64::INFINITY.to_bits(), f64::NEG_INFINITY.to_bits()]),
            4 => self.next() >> 12 | self.flag() << 63,
            5 => f64::MAX.to_bits() - self.below(4) | self.flag() << 63,
            6 => (self.below(1 << 20) as f64 / 1024.0 - 300.0).to_bits(),
            _ => (self.below(3) as f64).to_bits(),
        }
    }

    /// What stood in a buffer before.
    fn old(&mut self, kind: Kind, n: usize) -> Vec<u64> {
        (0..n)
            .map(|_| match kind {
                Kind::U8 | Kind::I8 => self.below(256),
                Kind::I64 => self.next(),
                Kind::F64 => self.wild(),
            })
            .collect()
    }

    /// A length that is mostly the right one.
    fn length(&mut self, right: usize) -> usize {
        match self.below(24) {
            0 => right + 1 + self.below(3) as usize,
            1 => right.saturating_sub(1 + self.below(3) as usize),
            2 => self.below(9) as usize,
            _ => right,
        }
    }

    /// A list for a count: empty, all, good with both signs, or with bad entries.
    pub fn list(&mut self, count: u64, most: u64) -> Vec<u64> {
        let kind = self.below(10);
        let n = if kind < 2 { count.min(most) } else { self.below(most + 1) };
        let good = |r: &mut Rng| -> u64 {
            match count {
                0 => 0,
                _ if r.flag() == 0 => r.below(count),
                _ => (r.below(count)).wrapping_sub(count),
            }
        };
        let mut list: Vec<u64> = match kind {
            0 => (0..n).collect(),
            1 => match self.below(4) {
                0 => (0..n).rev().collect(),
                1 => (0..n).map(|i| i.wrapping_sub(count)).collect(),
                2 => (count - n..count).collect(),
                _ => {
                    let mut list: Vec<u64> = (0..n).collect();
                    (1..list.len()).for_each(|i| list.swap(i, self.below(i as u64 + 1) as usize));
                    list
                }
            },
            2 => vec![],
            _ if count == 0 && kind < 7 => vec![],
            _ => (0..n).map(|_| good(self)).collect(),
        };
        if kind >= 7 || self.once_in(20) {
            for _ in 0..=self.below(3) {
                let bad = match self.below(6) {
                    0 => count,
                    1 => count.wrapping_neg().wrapping_sub(1),
                    2 => 1 << 63,
                    3 => TOP,
                    4 => count.wrapping_add(self.below(9)),
                    _ => self.next(),
                };
                let at = self.below(list.len() as u64 + 1) as usize;
                list.insert(at, bad);
            }
            list.truncate(most as usize);
        }
        list
    }
}

const TOP: u64 = i64::MAX as u64;

fn width(count: u64) -> u64 {
    count.div_ceil(4)
}

/// The bytes of a file of the mode for the counts, sometimes damaged.
fn file(r: &mut Rng, mode: u64, iids: u64, sids: u64) -> Vec<u64> {
    let (within, blocks) = if mode == 0 { (sids, iids) } else { (iids, sids) };
    let len = room(width(within), blocks);
    let mut file = vec![0x6c, 0x1b, mode];
    file.extend(r.bytes(len));
    if r.once_in(6) {
        match r.below(6) {
            0 => file.truncate(r.below(4) as usize),
            1 => {
                let at = r.below(3) as usize;
                file[at] = r.below(256);
            }
            2 => file.truncate(file.len() - 1),
            3 => file.push(r.below(256)),
            4 => file[2] = r.below(4),
            _ => {
                let n = r.below(file.len() as u64 + 4) as usize;
                file.resize(n, 0);
            }
        }
    }
    file
}

const I8_MISSING: &[u64] = &[0x81, 0x81, 0x81, 0, 1, 2, 3, 0xff, 0x7f, 0x80];

fn f64_missing(r: &mut Rng) -> u64 {
    match r.below(4) {
        0 => r.wild(),
        1 => r.pick(&[0.0f64, -0.0, 1.0, 2.0, 3.0, -127.0]).to_bits(),
        _ => f64::NAN.to_bits() ^ r.below(2) << 63,
    }
}

/// A value to be packed: mostly allowed.
fn value(r: &mut Rng, kind: Kind, missing: u64, bad_in: u64) -> u64 {
    let bad = bad_in > 0 && r.once_in(bad_in);
    match kind {
        Kind::I8 if bad => r.below(256),
        Kind::I8 => r.pick(&[0, 1, 2, missing]),
        _ if bad => r.wild(),
        _ => {
            let nan = f64::from_bits(missing).is_nan();
            match r.below(5) {
                0 => 0,
                1 => 1.0f64.to_bits(),
                2 => 2.0f64.to_bits(),
                3 => 1 << 63,
                _ if nan => f64::NAN.to_bits() ^ r.next() >> 13,
                _ => missing,
            }
        }
    }
}

/// The size of a long draw, see `long`.
const LONG: u64 = 2100;

/// Two counts: small, one of them sometimes 0 and the other then anything. Of a long draw: one near a step of the loops.
fn counts(r: &mut Rng, most: u64) -> (u64, u64) {
    if most == LONG {
        let (many, few) = (r.pick(&[64, 128, 256, 1024, 2048]) + r.below(5) - 2, 1 + r.below(5));
        return if r.flag() == 0 { (many, few) } else { (few, many) };
    }
    match r.below(24) {
        0 => (0, r.edge()),
        1 => (r.edge(), 0),
        2 => (r.edge(), r.edge()),
        3 => (r.edge(), r.below(4)),
        4 => (r.below(6), r.edge()),
        5 => (r.below(4 * most), r.below(3)),
        6 => (r.below(3), r.below(4 * most)),
        _ => (r.below(most + 1), r.below(most + 1)),
    }
}

/// The product, or some small number if no buffer of that length is drawn.
fn room(a: u64, b: u64) -> usize {
    match a as u128 * b as u128 {
        n if n <= 6000 => n as usize,
        _ => 20,
    }
}

/// Mostly small; sometimes large enough for whatever is done in steps of 16 or so.
pub fn draw(name: &str, r: &mut Rng) -> Case {
    let most = if r.once_in(25) { 70 } else { 9 };
    sized(name, r, most)
}

/// One side of a matrix about as long as a step of the library's loops: 64, 128, 256, 1,024 or 2,048.
pub fn long(name: &str, r: &mut Rng) -> Case {
    sized(name, r, LONG)
}

fn sized(name: &str, r: &mut Rng, most: u64) -> Case {
    let kind = if name.ends_with("i8") { Kind::I8 } else { Kind::F64 };
    let args = match name {
        "open_and_check" => {
            let n = r.below(7) as usize;
            let mut bytes = r.bytes(n);
            for (i, &magic) in [0x6c, 0x1b].iter().enumerate().take(n) {
                if !r.once_in(5) {
                    bytes[i] = magic;
                }
            }
            vec![B(bytes)]
        }
        "try_div_4" => {
            let (a, b) = counts(r, 20);
            vec![N(a), N(b)]
        }
        "byte_span" => {
            let count = if r.once_in(4) { r.edge() } else { r.below(40) };
            vec![N(count), B(r.list(count, 9))]
        }
        "to_range" | "index_range" => {
            let count = r.count(9);
            let (start, end) = (r.count(9), r.count(12));
            let mut args = vec![N(count), N(r.flag()), N(start), N(r.flag()), N(end)];
            if name == "index_range" {
                let n = r.below(16) as usize;
                args.push(B(r.old(Kind::I64, n)));
            }
            args
        }
        "read_i8" | "read_f64" | "read_standardised_f64" => {
            let (iids, sids) = counts(r, most);
            let mode = if r.once_in(30) { r.below(256) } else { r.flag() };
            let file = file(r, mode, iids, sids);
            let (iid_most, sid_most) = if most == LONG { (iids + 1, sids) } else { (most + 1, most) };
            let (iid_index, sid_index) = (r.list(iids, iid_most), r.list(sids, sid_most));
            let right = iid_index.len() * sid_index.len();
            let mut args = vec![B(file), N(iids), N(sids), N(r.flag()), B(iid_index), B(sid_index.clone())];
            let n = r.length(right);
            if name == "read_standardised_f64" {
                let k = r.length(3 * sid_index.len());
                args.extend([N(r.flag()), B(r.old(Kind::F64, n)), B(r.old(Kind::F64, k))]);
            } else {
                let missing = if kind == Kind::I8 { r.pick(I8_MISSING) } else { f64_missing(r) };
                args.extend([N(missing), N(r.flag()), B(r.old(kind, n))]);
            }
            args
        }
        "encode1_i8" | "encode1_f64" => {
            let missing = if kind == Kind::I8 { r.pick(I8_MISSING) } else { f64_missing(r) };
            let n = r.below(2 * most + 1);
            let bad_in = r.pick(&[0, 0, 4, 16]);
            let input: Vec<u64> = (0..n).map(|_| value(r, kind, missing, bad_in)).collect();
            let k = r.length(width(n) as usize);
            vec![B(input), B(r.old(Kind::U8, k)), N(r.flag()), N(missing)]
        }
        "write_i8" | "write_f64" => {
            let (iids, sids) = counts(r, most);
            let missing = if kind == Kind::I8 { r.pick(I8_MISSING) } else { f64_missing(r) };
            let bad_in = r.pick(&[0, 0, 0, 9, 40, 2000]);
            let n = r.length(room(iids, sids));
            let val: Vec<u64> = (0..n).map(|_| value(r, kind, missing, bad_in)).collect();
            let k = r.length(3 + room(width(iids), sids));
            vec![B(val), N(iids), N(sids), N(r.flag()), N(r.flag()), N(missing), B(r.old(Kind::U8, k))]
        }
        "canonical" => {
            let (iids, sids) = counts(r, most);
            let mode = if r.once_in(30) { r.below(256) } else { r.flag() };
            let k = r.length(3 + room(width(iids), sids));
            vec![B(file(r, mode, iids, sids)), N(iids), N(sids), B(r.old(Kind::U8, k))]
        }
        "impute_and_zero_mean_snps_f64" => {
            let (iids, sids) = counts(r, most);
            let n = room(iids, sids);
            let n = if r.once_in(20) { r.length(n) } else { n };
            let values = r.below(4);
            let val: Vec<u64> = (0..n)
                .map(|_| match values {
                    0 => r.wild(),
                    1 => r.pick(&[0.0, 1.0, 2.0, f64::NAN]).to_bits(),
                    2 => r.pick(&[0.0, 1.0, f64::NAN, f64::NAN, f64::NAN, f64::INFINITY, f64::NEG_INFINITY]).to_bits(),
                    _ => (r.below(1 << 20) as f64 / 1024.0 - 300.0).to_bits(),
                })
                .collect();
            // Three a marker, also where that wraps to a length.
            let k = sids.wrapping_mul(3);
            let k = if k < 3 * LONG { k as usize } else { 20 };
            let k = if r.once_in(12) { r.length(k) } else { k };
            vec![B(val), N(iids), N(sids), N(r.flag()), N(r.flag()), N(r.flag()), B(r.old(Kind::F64, k))]
        }
        "index_all" => {
            let count = r.count(9);
            let n = r.below(14) as usize;
            vec![N(count), B(r.old(Kind::I64, n))]
        }
        "index_one" => {
            let n = r.below(4) as usize;
            vec![N(r.count(9)), N(r.next()), B(r.old(Kind::I64, n))]
        }
        "index_vec" => {
            let count = r.count(9);
            let list = r.list(count, 9);
            let n = r.length(list.len());
            vec![N(count), B(list), B(r.old(Kind::I64, n))]
        }
        "index_bool" => {
            let count = r.count(9);
            let n = r.length(count.min(20) as usize);
            let marks: Vec<u64> = (0..n).map(|_| if r.flag() == 0 { 0 } else { 1 + r.below(255) }).collect();
            let chosen = marks.iter().filter(|&&m| m != 0).count();
            let n = r.length(chosen);
            vec![N(count), B(marks), B(r.old(Kind::I64, n))]
        }
        "index_slice" => {
            let count = r.count(12);
            let near = |r: &mut Rng| match r.below(8) {
                0 => r.edge(),
                1 => count,
                2 => count.wrapping_neg(),
                3 => count.wrapping_sub(1 + r.below(3)),
                _ => r.below(27).wrapping_sub(13),
            };
            let (start, end) = (near(r), near(r));
            let step = if r.once_in(12) { r.edge() } else { r.below(11).wrapping_sub(5) };
            let n = r.below(15) as usize;
            vec![N(count), N(start), N(r.flag()), N(end), N(step), B(r.old(Kind::I64, n))]
        }
        "file_ata_piece" | "file_aat_piece" => piece(name == "file_ata_piece", if most == LONG { LONG } else if most > 9 { 24 } else { 5 }, r),
        "root_f64" => vec![N(root_draw(r))],
        _ => panic!("no call {name}"),
    };
    Case::new(name, args)
}

fn piece(ata: bool, most: u64, r: &mut Rng) -> Vec<Arg> {
    let (rows, cols) = match r.below(20) {
        n if most == LONG => match n % 3 {
            0 => (254 + r.below(5), 1 + r.below(20)),
            1 => (1 + r.below(20), 254 + r.below(5)),
            _ => (60 + r.below(12), 30 + r.below(8)),
        },
        0 => (r.edge(), r.below(4)),
        1 => (r.below(4), r.edge()),
        2 => ((1 << 61) * r.below(5) + r.below(3), r.below(6)),
        3 => (0, r.below(5)),
        4 => (r.below(5), 0),
        _ => (1 + r.below(most), 1 + r.below(most)),
    };
    let total = if ata { cols } else { rows };
    let start = if total > most { total - 1 - r.below(4) } else { r.below(total + 1) };
    let height = total.saturating_sub(start);
    let width = if r.once_in(8) { 0 } else { 1 + r.below(height.max(1)) };
    let (mut start, mut height, mut width) = (start, height, width);
    if r.once_in(10) {
        match r.below(6) {
            0 => start = start.wrapping_add(1),
            1 => height = height.wrapping_add(r.below(3)).wrapping_sub(1),
            2 => width = height + 1,
            3 => start = r.edge(),
            4 => height = r.edge(),
            _ => width = r.edge(),
        }
    }
    let offset = match r.below(12) {
        0 => r.edge(),
        1 => r.below(40).wrapping_neg(),
        2 => (1 << 63) + r.below(3) - 1,
        3 => 8,
        _ => r.below(20),
    };
    let values = r.below(3);
    let mut bytes = r.bytes(offset.min(40) as usize);
    for _ in 0..room(rows, cols) {
        let bits = match values {
            0 => r.wild(),
            1 => (r.below(9) as f64 - 4.0).to_bits(),
            _ => (r.next() as i32 as f64 / 65536.0).to_bits(),
        };
        bytes.extend(bits.to_le_bytes().iter().map(|&b| b as u64));
    }
    let n = r.length(bytes.len());
    let n = if r.flag() == 0 { bytes.len() } else { n };
    bytes.resize(n, 7);
    let area = room(height, width);
    let area = if r.once_in(12) { r.length(area) } else { area };
    vec![B(bytes), N(offset), N(rows), N(cols), N(start), N(height), N(width), B(r.old(Kind::F64, area))]
}

/// A variance: any pattern, subnormals, squares and their neighbours, powers of two and theirs.
pub fn root_draw(r: &mut Rng) -> u64 {
    match r.below(8) {
        0 => r.next() >> 12,
        1 => {
            let s = f64::from_bits(r.next() >> 2 & !(1 << 63));
            (s * s).to_bits().wrapping_add(r.below(5)).wrapping_sub(2)
        }
        2 => ((r.below(1 << 27) * r.below(1 << 27)) as f64).to_bits().wrapping_add(r.below(3)).wrapping_sub(1),
        3 => (r.below(2048) << 52).wrapping_add(r.below(9)).wrapping_sub(4),
        4 => r.wild(),
        5 => {
            // Just above or below the square of a midpoint.
            let s = 1.0 + r.below(1 << 52) as f64 / (1u64 << 52) as f64;
            let m = s + f64::EPSILON / 2.0;
            (m * s).to_bits().wrapping_add(r.below(5)).wrapping_sub(2)
        }
        6 => (r.below(1 << 20) as f64 / 1024.0).to_bits(),
        _ => r.next(),
    }
}
