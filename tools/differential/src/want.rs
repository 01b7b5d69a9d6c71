//! What the library is to answer for a case: the original's answer, or that of document 01 or 02 where it names a difference.
use crate::case::*;
use crate::original::*;
use std::fmt;
use std::fs;
use std::panic::{catch_unwind, AssertUnwindSafe};
use std::path::{Path, PathBuf};
use std::sync::atomic::{AtomicBool, Ordering};

/// What the original did.
#[derive(Clone, Copy, PartialEq, Eq, PartialOrd, Ord, Debug)]
pub enum Did {
    Answered(u64),
    Panicked,
    /// It would run on or ask for more memory than there is.
    NotRun,
}

impl fmt::Display for Did {
    fn fmt(&self, f: &mut fmt::Formatter<'_>) -> fmt::Result {
        match self {
            Did::Answered(0) => f.write_str("done"),
            Did::Answered(number) => number.fmt(f),
            Did::Panicked => f.write_str("panicked"),
            Did::NotRun => f.write_str("not run"),
        }
    }
}

pub struct Want {
    pub did: Did,
    /// `None`: the original panicked, so document 01 leaves the input out.
    pub outcome: Option<Outcome>,
    /// The difference that document 01 or 02 names and that makes the outcome its own.
    pub named: Option<&'static str>,
}

const TOP: u64 = i64::MAX as u64;
/// Lists, matrices and columns above this are not asked of the original.
const MOST: u64 = 1 << 16;
const HEADER: [u8; 3] = [0x6c, 0x1b, 1];

pub struct Folder {
    pub file: PathBuf,
    pub out: PathBuf,
}

static ASKING: AtomicBool = AtomicBool::new(false);

/// Is the original being asked? Its panics are counted, not printed.
pub fn is_asking() -> bool {
    ASKING.load(Ordering::SeqCst)
}

pub fn guarded<R>(f: impl FnOnce() -> R) -> Option<R> {
    ASKING.store(true, Ordering::SeqCst);
    let answer = catch_unwind(AssertUnwindSafe(f)).ok();
    ASKING.store(false, Ordering::SeqCst);
    answer
}

fn did(said: Option<Said>) -> Did {
    said.map_or(Did::Panicked, |s| Did::Answered(s.number))
}

fn outcome(s: Said, written: Vec<Vec<u64>>) -> Outcome {
    Outcome { number: s.number, first: s.first, second: s.second, written }
}

fn original(said: Option<Said>, written: Vec<Vec<u64>>) -> Want {
    Want { did: did(said), outcome: said.map(|s| outcome(s, written)), named: None }
}

fn document(did: Did, outcome: Outcome, name: &'static str) -> Want {
    Want { did, outcome: Some(outcome), named: Some(name) }
}

pub fn want(c: &Case, folder: &Folder) -> Want {
    let n = |i: usize| c.num(i) as usize;
    let present = |has: usize, at: usize| c.flag(has).then(|| n(at));
    match c.name() {
        "open_and_check" => {
            fs::write(&folder.file, c.u8s(0)).unwrap();
            original(guarded(|| ask_open(&folder.file)), vec![])
        }
        "try_div_4" => {
            let said = guarded(|| ask_div(n(0), n(1)));
            match c.num(0) > TOP || c.num(1) > TOP {
                true => document(did(said), c.unwritten(18, 0, 0), "18 added"),
                false => original(said, vec![]),
            }
        }
        "byte_span" => {
            let said = guarded(|| ask_span(n(0), &c.i64s(1)));
            match c.num(0) > TOP {
                true => document(did(said), c.unwritten(18, 0, 0), "18 added"),
                false => original(said, vec![]),
            }
        }
        "to_range" => {
            let said = guarded(|| ask_range(n(0), present(1, 2), present(3, 4)));
            match c.num(0) > TOP || c.flag(1) && c.num(2) > TOP || c.flag(3) && c.num(4) > TOP {
                true => document(did(said), c.unwritten(18, 0, 0), "18 added"),
                false => original(said, vec![]),
            }
        }
        "read_i8" => read(c, folder, c.i8s(8), c.num(6) as i8, i8_bits),
        "read_f64" => read(c, folder, c.f64s(8), f64::from_bits(c.num(6)), f64_bits),
        "encode1_i8" => encode(c, c.i8s(0), c.num(3) as i8),
        "encode1_f64" => encode(c, c.f64s(0), f64::from_bits(c.num(3))),
        "write_i8" => write(c, folder, c.i8s(0), c.num(5) as i8),
        "write_f64" => write(c, folder, c.f64s(0), f64::from_bits(c.num(5))),
        "canonical" => canonical(c, folder),
        "impute_and_zero_mean_snps_f64" => {
            let (mut val, stats) = (c.f64s(0), c.f64s(6));
            let shape = (n(1), n(2));
            if c.num(1) > TOP || c.num(2) > TOP {
                return document(Did::NotRun, c.unwritten(18, 0, 0), "18 added");
            }
            if product(shape) != val.len() as u128 {
                return document(Did::NotRun, c.unwritten(15, 0, 0), "15, outside the domain");
            }
            if stats.len() as u128 != 3 * shape.1 as u128 {
                // The original is lent the records that are whole.
                let mut ask = || guarded(|| ask_impute(&mut val, shape, c.flag(3), c.flag(4), c.flag(5), &mut pairs(&stats), stats.len() / 3));
                let did = if shape.1 as u64 > MOST { Did::NotRun } else { did(ask()) };
                return document(did, c.unwritten(17, 0, 0), "17 added");
            }
            standardise(val, shape, c.flag(3), c.flag(4), c.flag(5), stats)
        }
        "read_standardised_f64" => joined(c, folder),
        "file_ata_piece" => piece(c, folder, true),
        "file_aat_piece" => piece(c, folder, false),
        "root_f64" => {
            let root = f64::from_bits(c.num(0)).sqrt();
            original(Some(Said { first: alike(root.to_bits()) as i64, ..DONE }), vec![])
        }
        name => {
            let (vec, marks) = (if name == "index_vec" { c.i64s(1) } else { vec![] }, if name == "index_bool" { c.u8s(1) } else { vec![] });
            let (asked, bounds) = match name {
                "index_all" => (Asked::All, false),
                "index_one" => (Asked::One(c.num(1) as i64), false),
                "index_vec" => (Asked::Vec(&vec), false),
                "index_bool" => (Asked::Bool(&marks), false),
                "index_range" => (Asked::Range(present(1, 2), present(3, 4)), c.flag(1) && c.num(2) > TOP || c.flag(3) && c.num(4) > TOP),
                "index_slice" => (Asked::Slice(c.num(1) as i64, present(2, 3).map(|e| e as i64), c.num(4) as i64), false),
                _ => panic!("no call {name}"),
            };
            list(c, &asked, c.num(0) > TOP || bounds)
        }
    }
}

fn product(shape: (usize, usize)) -> u128 {
    shape.0 as u128 * shape.1 as u128
}

/// Reading, after document 01's 18 and 15: what the original answers, by its own numbers, with the buffer as it must then be. The bool: it wrote before
/// its 6, which in mode 0 is for the animal list.
fn read_said<T: Copy + PartialEq + BedVal>(path: &Path, r: &Reading, missing: T, val: &mut Vec<T>, mode: Option<&u8>) -> (Option<Said>, bool)
where
    T: ToBits,
{
    let old = val.clone();
    let said = guarded(|| ask_read(path, r, missing, val));
    let same = |a: &[T], b: &[T]| a.iter().zip(b).all(|(x, y)| x.to_bits() == y.to_bits());
    if said.is_some_and(|s| s.number == 6) && !same(val, &old) {
        // The blocks before the bad entry, and no other, must have been read.
        let entry = said.unwrap().first;
        let mut expected = old.clone();
        let cut = |list: &[i64]| list.iter().position(|&i| i == entry).unwrap();
        let (iids, sids) = if mode == Some(&0) { (cut(r.iid_index), r.sid_index.len()) } else { (r.iid_index.len(), cut(r.sid_index)) };
        let part = Reading { iid_index: &r.iid_index[..iids], sid_index: &r.sid_index[..sids], shape: (iids, sids), ..*r };
        let mut values = vec![missing; iids * sids];
        let again = guarded(|| ask_read(path, &part, missing, &mut values));
        for i in 0..iids {
            for j in 0..sids {
                let at = |shape: (usize, usize)| if r.animal_order { i * shape.1 + j } else { j * shape.0 + i };
                expected[at(r.shape)] = values[at(part.shape)];
            }
        }
        if again == Some(DONE) && same(val, &expected) {
            *val = old;
            return (said, true);
        }
    }
    (said, false)
}

pub trait ToBits {
    fn to_bits(self) -> u64;
}

impl ToBits for f64 {
    fn to_bits(self) -> u64 {
        f64::to_bits(self)
    }
}

impl ToBits for i8 {
    fn to_bits(self) -> u64 {
        self as u8 as u64
    }
}

const BEFORE_6: &str = "6 after earlier blocks were written";

/// The first entry that document 01 calls bad: one that is none of -count to count - 1.
fn first_bad_entry(count: usize, list: &[i64]) -> Option<i64> {
    list.iter().copied().find(|&i| !(-(count as i128)..count as i128).contains(&(i as i128)))
}

/// What a reading is to answer. In mode 0 the original has 5 for the marker list, which it looks at first, and 6 for the animal list; document 02 has 5
/// for the animal list and then 6 for the marker list, as in mode 1. So there with one list bad only the number is another; with both bad the original
/// has only to refuse, and document 02 says the number, the entry and the buffers.
fn read_want(c: &Case, r: &Reading, mode: Option<&u8>, said: Option<Said>, before_6: bool, written: Vec<Vec<u64>>) -> Want {
    let told = match said {
        Some(s) if mode == Some(&0) && (s.number == 5 || s.number == 6) => s,
        _ => return Want { named: before_6.then_some(BEFORE_6), ..original(said, written) },
    };
    let named = |s: Said, name| document(did(said), outcome(s, written), name);
    match (first_bad_entry(r.iid_count, r.iid_index), first_bad_entry(r.sid_count, r.sid_index)) {
        (Some(entry), Some(_)) => document(did(said), c.unwritten(5, entry, 0), "5 in mode 0, both lists bad: only the refusal is the original's"),
        _ if told.number == 5 => named(Said { number: 6, ..told }, "6 in mode 0: 5 in the original"),
        _ if before_6 => named(Said { number: 5, ..told }, "5 in mode 0: 6 in the original, after earlier blocks were written"),
        _ => named(Said { number: 5, ..told }, "5 in mode 0: 6 in the original"),
    }
}

fn read<T: Copy + PartialEq + BedVal + ToBits>(c: &Case, folder: &Folder, mut val: Vec<T>, missing: T, bits: fn(&[T]) -> Vec<u64>) -> Want {
    let file = c.u8s(0);
    let (iids, sids) = (c.i64s(4), c.i64s(5));
    let mut r = Reading {
        iid_count: c.num(1) as usize,
        sid_count: c.num(2) as usize,
        is_a1_counted: c.flag(3),
        iid_index: &iids,
        sid_index: &sids,
        animal_order: c.flag(7),
        shape: (iids.len(), sids.len()),
    };
    fs::write(&folder.file, &file).unwrap();
    if product(r.shape) != val.len() as u128 {
        // As many whole columns as there is room for.
        let columns = if iids.is_empty() { 0 } else { val.len() / iids.len() };
        r.shape = (iids.len(), columns);
        let said = guarded(|| ask_read(&folder.file, &r, missing, &mut val[..iids.len() * columns]));
        let (number, name) = if c.num(1) > TOP || c.num(2) > TOP { (18, "18 added") } else { (15, "15, outside the domain") };
        return document(did(said), c.unwritten(number, 0, 0), name);
    }
    let (said, before_6) = read_said(&folder.file, &r, missing, &mut val, file.get(2));
    if c.num(1) > TOP || c.num(2) > TOP {
        return document(did(said), c.unwritten(18, 0, 0), "18 added");
    }
    read_want(c, &r, file.get(2), said, before_6, vec![bits(&val)])
}

/// At 7 only the refusal is the original's: it has packed the groups of four before the bad value, and document 02 leaves every byte as it was.
fn encode<T: BedVal>(c: &Case, input: Vec<T>, missing: T) -> Want {
    let mut out = c.u8s(1);
    let said = guarded(|| ask_encode(&input, &mut out, c.flag(2), missing));
    match said {
        Some(s) if s.number == 7 => {
            let s = Said { first: first_bad(&input, c.flag(2), missing).expect("a bad value") as i64, ..s };
            match out == c.u8s(1) {
                true => original(Some(s), c.before()),
                false => document(did(said), outcome(s, c.before()), "7 of encode1: the bytes before the refused group are new"),
            }
        }
        _ => original(said, vec![u8_bits(&out)]),
    }
}

/// The place of the first value that the original packs alone only with a refusal: what 7 carries is added.
fn first_bad<T: BedVal>(values: &[T], is_a1_counted: bool, missing: T) -> Option<usize> {
    values.iter().position(|&v| ask_encode(&[v], &mut [0], is_a1_counted, missing).number == 7)
}

fn write<T: BedVal>(c: &Case, folder: &Folder, val: Vec<T>, missing: T) -> Want {
    let shape = (c.num(1) as usize, c.num(2) as usize);
    if c.num(1) > TOP || c.num(2) > TOP {
        return document(Did::NotRun, c.unwritten(18, 0, 0), "18 added");
    }
    let width = guarded(|| ask_div(shape.0, shape.1)).expect("try_div_4 does not panic");
    if width.number == 4 {
        return document(Did::Answered(4), c.unwritten(4, 0, 0), "4 of the writer: no array is that large, so its try_div_4 was asked alone");
    }
    if product(shape) != val.len() as u128 {
        return document(Did::NotRun, c.unwritten(15, 0, 0), "15, outside the domain");
    }
    if c.bits(6).len() as u128 != 3 + width.first as u128 * shape.1 as u128 {
        return document(Did::NotRun, c.unwritten(16, 0, 0), "16 of the writer, outside the domain");
    }
    if shape.1 as u64 > MOST {
        // No animal and so many markers: a file of three bytes after as many turns.
        return document(
            Did::NotRun,
            Outcome { written: vec![u8_bits(&HEADER)], ..c.unwritten(0, 0, 0) },
            "as many turns as markers, with no animal",
        );
    }
    fs::write(&folder.out, "an older file").unwrap();
    let said = guarded(|| ask_write(&folder.out, &val, shape, c.flag(3), c.flag(4), missing));
    match said {
        Some(DONE) => original(said, vec![u8_bits(&fs::read(&folder.out).unwrap())]),
        Some(s) if s.number == 7 => {
            assert!(!folder.out.exists(), "the original keeps the file of a refused writing");
            let at = |i: usize, j: usize| val[if c.flag(3) { i * shape.1 + j } else { j * shape.0 + i }];
            let column = |j: usize| (0..shape.0).map(|i| at(i, j)).collect::<Vec<T>>();
            let (animal, marker) = (0..shape.1).find_map(|j| first_bad(&column(j), c.flag(4), missing).map(|i| (i, j))).expect("a bad value");
            let s = Said { first: animal as i64, second: marker as i64, ..s };
            document(did(said), outcome(s, c.before()), "7 of the writer: the file is deleted")
        }
        _ => original(said, c.before()),
    }
}

fn canonical(c: &Case, folder: &Folder) -> Want {
    let shape = (c.num(1) as usize, c.num(2) as usize);
    fs::write(&folder.file, c.u8s(0)).unwrap();
    // The header and the length, by a reading of nothing.
    let none =
        Reading { iid_count: shape.0, sid_count: shape.1, is_a1_counted: true, iid_index: &[], sid_index: &[], animal_order: false, shape: (0, 0) };
    let said = guarded(|| ask_read(&folder.file, &none, f64::NAN, &mut []));
    if c.num(1) > TOP || c.num(2) > TOP {
        return document(did(said), c.unwritten(18, 0, 0), "18 added");
    }
    if said != Some(DONE) {
        return original(said, c.before());
    }
    let width = ask_div(shape.0, shape.1);
    assert_eq!(width.number, 0, "a file of that length cannot be lent");
    if c.bits(3).len() as u128 != 3 + width.first as u128 * shape.1 as u128 {
        return document(Did::NotRun, c.unwritten(16, 0, 0), "16 of the canonical call, outside the domain");
    }
    if shape.0.max(shape.1) as u64 > MOST {
        return document(
            Did::NotRun,
            Outcome { written: vec![u8_bits(&HEADER)], ..c.unwritten(0, 0, 0) },
            "a list of more entries than there is room for",
        );
    }
    // Reading everything with missing NaN, then writing under the same flag: both flags, both orders.
    let iids: Vec<i64> = (0..shape.0 as i64).collect();
    let sids: Vec<i64> = (0..shape.1 as i64).collect();
    let mut files = vec![];
    for k in 0..4 {
        let r = Reading { is_a1_counted: k & 1 == 1, iid_index: &iids, sid_index: &sids, animal_order: k & 2 == 2, shape, ..none };
        let mut val = vec![0.5; shape.0 * shape.1];
        let said = guarded(|| ask_read(&folder.file, &r, f64::NAN, &mut val));
        let written = guarded(|| ask_write(&folder.out, &val, shape, r.animal_order, r.is_a1_counted, f64::NAN));
        assert!(said == Some(DONE) && written == Some(DONE), "reading all and writing is not refused");
        files.push(fs::read(&folder.out).unwrap());
    }
    assert!(files.windows(2).all(|f| f[0] == f[1]), "one canonical file for both flags and orders");
    original(Some(DONE), vec![u8_bits(&files[0])])
}

/// The original's part of each whole record: its mean and its deviation.
fn pairs(stats: &[f64]) -> Vec<f64> {
    stats.chunks_exact(3).flat_map(|record| [record[0], record[1]]).collect()
}

/// Standardising, after 18, 15 and 17. The original has no third number of a record: that is document 02's, the count of the marker's values that are
/// not NaN, and what was there if the marker is refused or the statistics are lent. What 13 and 14 carry is added, the lowest refused marker; the
/// refused ones are those that the original refuses when each is standardised alone.
fn standardise(mut val: Vec<f64>, shape: (usize, usize), animal_order: bool, apply_in_place: bool, use_stats: bool, mut stats: Vec<f64>) -> Want {
    let at = |i: usize, j: usize| if animal_order { i * shape.1 + j } else { j * shape.0 + i };
    let columns: Vec<Vec<f64>> = (0..shape.1).map(|j| (0..shape.0).map(|i| val[at(i, j)]).collect()).collect();
    let mut pairs = pairs(&stats);
    let mut said = guarded(|| ask_impute(&mut val, shape, animal_order, apply_in_place, use_stats, &mut pairs, shape.1));
    let mut refused = vec![false; shape.1];
    if let Some(s) = said.as_mut().filter(|s| s.number == 13 || s.number == 14) {
        let alone = |column: &Vec<f64>| ask_impute(&mut column.clone(), (shape.0, 1), false, false, false, &mut [0.0, 0.0], 1).number;
        let numbers: Vec<u64> = columns.iter().map(alone).collect();
        refused = numbers.iter().map(|&n| n != 0).collect();
        let lowest = refused.iter().position(|&r| r).expect("a refused marker");
        assert_eq!(numbers[lowest], s.number, "the first refused marker gives the error");
        s.first = lowest as i64;
    }
    for (j, record) in stats.chunks_exact_mut(3).enumerate() {
        record[..2].copy_from_slice(&pairs[2 * j..2 * j + 2]);
        if !use_stats && !refused[j] {
            record[2] = columns[j].iter().filter(|v| !v.is_nan()).count() as f64;
        }
    }
    original(said, vec![f64_bits(&val), f64_bits(&stats)])
}

fn joined(c: &Case, folder: &Folder) -> Want {
    let file = c.u8s(0);
    let (iids, sids) = (c.i64s(4), c.i64s(5));
    let (mut val, stats) = (c.f64s(7), c.f64s(8));
    let shape = (iids.len(), sids.len());
    if c.num(1) > TOP || c.num(2) > TOP {
        return document(Did::NotRun, c.unwritten(18, 0, 0), "18 added");
    }
    if product(shape) != val.len() as u128 {
        return document(Did::NotRun, c.unwritten(15, 0, 0), "15, outside the domain");
    }
    if stats.len() != 3 * shape.1 {
        return document(Did::NotRun, c.unwritten(17, 0, 0), "17 added");
    }
    let r = Reading {
        iid_count: c.num(1) as usize,
        sid_count: c.num(2) as usize,
        is_a1_counted: c.flag(3),
        iid_index: &iids,
        sid_index: &sids,
        animal_order: c.flag(6),
        shape,
    };
    fs::write(&folder.file, &file).unwrap();
    let (said, before_6) = read_said(&folder.file, &r, f64::NAN, &mut val, file.get(2));
    if said != Some(DONE) {
        return read_want(c, &r, file.get(2), said, before_6, vec![f64_bits(&val), f64_bits(&stats)]);
    }
    standardise(val, shape, r.animal_order, true, false, stats)
}

fn list(c: &Case, asked: &Asked, above: bool) -> Want {
    let old = c.i64s(c.args.len() - 1);
    let count = c.num(0) as usize;
    let lists = guarded(|| ask_lists(asked, count, MOST as usize));
    let did = match &lists {
        None => Did::Panicked,
        Some(Ok(_)) => Did::Answered(0),
        Some(Err(None)) => Did::NotRun,
        Some(Err(Some(s))) => Did::Answered(s.number),
    };
    if above {
        return document(did, c.unwritten(18, 0, 0), "18 added");
    }
    match lists {
        None => document(did, c.unwritten(19, 0, 0), "19 added, the list is too long to be made"),
        Some(Err(Some(s))) => original(Some(s), c.before()),
        // Longer than any buffer that is drawn.
        Some(Err(None)) => document(did, c.unwritten(19, 0, 0), "19 added, the list is too long to be made"),
        Some(Ok(lists)) => {
            assert!(lists.windows(2).all(|l| l[0] == l[1]), "the same list from either kind");
            let list = &lists[0];
            if list.len() > old.len() {
                return document(did, c.unwritten(19, 0, 0), "19 added");
            }
            let mut new = old;
            new[..list.len()].copy_from_slice(list);
            original(Some(Said { first: list.len() as i64, ..DONE }), vec![i64_bits(&new)])
        }
    }
}

fn piece(c: &Case, folder: &Folder, ata: bool) -> Want {
    let bytes = c.u8s(0);
    let mut piece = c.f64s(7);
    let (offset, rows, cols, start, height, width) = (c.num(1), c.num(2), c.num(3), c.num(4), c.num(5), c.num(6));
    if [rows, cols, start, height, width].iter().any(|&x| x > TOP) {
        return document(Did::NotRun, c.unwritten(18, 0, 0), "18 added");
    }
    let total = if ata { cols } else { rows };
    let shape = (height as usize, width as usize);
    // Sums of two numbers under 2^63 do not wrap.
    let sound = start < total && start + height == total && start + width <= total;
    let need = offset as u128 + 8 * rows as u128 * cols as u128;
    let short = rows > 0 && cols > 0 && (bytes.len() as u128) < need;
    let p = Piece { offset, row_count: rows as usize, col_count: cols as usize, start: start as usize, shape };
    if ata && width == 0 && sound {
        // It runs on unless a column cannot be read.
        let stops = short && need <= TOP as u128 && rows <= MOST && piece.is_empty();
        fs::write(&folder.file, &bytes).unwrap();
        let did = if stops { did(guarded(|| ask_piece(&folder.file, ata, &p, &mut piece))) } else { Did::NotRun };
        return document(did, c.unwritten(20, 0, 0), "20 for width 0 of A'A: the original takes 1 from it");
    }
    if product(shape) != piece.len() as u128 {
        let number = if sound { 15 } else { 20 };
        return document(Did::NotRun, c.unwritten(number, 0, 0), "15, outside the domain (20 comes before it)");
    }
    let column = if ata { rows } else { height };
    let endless = !ata && cols > MOST && rows % (1 << 61) == 0;
    fs::write(&folder.file, &bytes).unwrap();
    if sound && (column > MOST || endless) {
        // A column of 2^63 bytes or more panics at once.
        let did = if column >= 1 << 60 && !endless { did(guarded(|| ask_piece(&folder.file, ata, &p, &mut piece))) } else { Did::NotRun };
        let (number, written) = if short { (1, c.before()) } else { (0, vec![vec![0; piece.len()]]) };
        let name = if endless { "positions that wrap, without end" } else { "a column of more values than there is room for" };
        return document(did, Outcome { written, ..c.unwritten(number, 0, 0) }, name);
    }
    let said = guarded(|| ask_piece(&folder.file, ata, &p, &mut piece));
    if sound && need > u64::MAX as u128 && short && said.is_some_and(|s| s.number != 1) {
        return document(did(said), c.unwritten(1, 0, 0), "positions that wrap");
    }
    if said.is_some_and(|s| s.number == 1) {
        if rows == 0 && offset > TOP {
            return document(
                did(said),
                Outcome { written: vec![vec![0; piece.len()]], ..c.unwritten(0, 0, 0) },
                "a seek to 2^63 or more, with nothing to read",
            );
        }
        if f64_bits(&piece) != c.before()[0] {
            return document(did(said), c.unwritten(1, 0, 0), "1 after the piece was written");
        }
    }
    original(said, vec![f64_bits(&piece)])
}
