//! The original's own lines, cut out of its source when this is built (build.rs), and a plain way to call each.
#![allow(dead_code, unused_imports, unused_variables, clippy::all)]

use anyinput::anyinput;
use byteorder::{LittleEndian, ReadBytesExt as _};
use cloud_file::CloudFileError;
use dpc_pariter::{scope, IteratorExt as _};
use ndarray::{self as nd, ShapeBuilder as _};
use num_traits::{Float, FromPrimitive, ToPrimitive};
use rayon::{prelude::*, ThreadPoolBuildError};
use statrs::distribution::{Beta, Continuous as _};
use std::cmp::Ordering;
use std::fmt::Debug;
use std::fs::{self, File};
use std::io::{BufReader, BufWriter, Read as _, Seek as _, SeekFrom, Write as _};
use std::num::ParseFloatError;
use std::num::ParseIntError;
use std::ops::{AddAssign, Bound, Range, RangeBounds};
use std::path::{Path, PathBuf};
use std::str::Utf8Error;
use thiserror::Error;

/// What `anyinput` makes of a path.
type AnyPath<'a> = &'a Path;

include!(concat!(env!("OUT_DIR"), "/original.rs"));

/// What the original answered: document 01's number for its error (0: none), and the numbers that go with the answer.
#[derive(Clone, Copy, PartialEq, Eq, Debug)]
pub struct Said {
    pub number: u64,
    pub first: i64,
    pub second: i64,
}

/// How many threads the original is given.
pub static THREADS: std::sync::atomic::AtomicUsize = std::sync::atomic::AtomicUsize::new(1);

fn threads() -> usize {
    THREADS.load(std::sync::atomic::Ordering::Relaxed)
}

pub const DONE: Said = Said { number: 0, first: 0, second: 0 };

/// For an error that document 01 gives no number.
const NO_NUMBER: u64 = 999;

fn refused(e: Box<BedErrorPlus>) -> Said {
    let (number, first) = match *e {
        BedErrorPlus::IOError(_) => (1, 0),
        BedErrorPlus::BedError(e) => match e {
            BedError::IllFormed(_) => (2, 0),
            BedError::BadMode(_) => (3, 0),
            BedError::IndexesTooBigForFiles(..) => (4, 0),
            BedError::IidIndexTooBig(entry) => (5, entry as i64),
            BedError::SidIndexTooBig(entry) => (6, entry as i64),
            BedError::BadValue(_) => (7, 0),
            BedError::BoolArrayVectorWrongLength(..) => (8, 0),
            BedError::StepZero => (9, 0),
            BedError::StartGreaterThanCount(..) => (10, 0),
            BedError::EndGreaterThanCount(..) => (11, 0),
            BedError::StartGreaterThanEnd(..) => (12, 0),
            BedError::NoIndividuals => (13, 0),
            BedError::IllegalSnpMean => (14, 0),
            BedError::IndexMismatch(..) => (15, 0),
            BedError::EncodingLength(..) => (16, 0),
            BedError::CannotConvertBetaToFromF64 => (20, 0),
            _ => (NO_NUMBER, 0),
        },
        _ => (NO_NUMBER, 0),
    };
    Said { number, first, second: 0 }
}

fn said(answer: Result<(), Box<BedErrorPlus>>) -> Said {
    answer.map_or_else(refused, |()| DONE)
}

fn isizes(list: &[i64]) -> Vec<isize> {
    list.iter().map(|&i| i as isize).collect()
}

pub fn ask_open(path: &Path) -> Said {
    open_and_check(path).map_or_else(refused, |(_, bytes)| Said { first: bytes[2] as i64, ..DONE })
}

pub fn ask_div(in_iid_count: usize, in_sid_count: usize) -> Said {
    try_div_4(in_iid_count, in_sid_count).map_or_else(refused, |width| Said { first: width as i64, ..DONE })
}

pub fn ask_span(count: usize, list: &[i64]) -> Said {
    check_and_precompute_iid_index(count, &isizes(list)).map_or_else(refused, |(_, _, start, len)| Said {
        first: start as i64,
        second: len as i64,
        ..DONE
    })
}

pub fn ask_range(count: usize, start: Option<usize>, end: Option<usize>) -> Said {
    RangeAny { start, end }.to_range(count).map_or_else(refused, |r| Said { first: r.start as i64, second: r.end as i64, ..DONE })
}

/// The lists of the two index parameters, and the shape of the matrix that is lent.
pub struct Reading<'a> {
    pub iid_count: usize,
    pub sid_count: usize,
    pub is_a1_counted: bool,
    pub iid_index: &'a [i64],
    pub sid_index: &'a [i64],
    pub animal_order: bool,
    pub shape: (usize, usize),
}

pub fn ask_read<T: BedVal>(path: &Path, r: &Reading, missing: T, val: &mut [T]) -> Said {
    let mut view = nd::ArrayViewMut2::from_shape(r.shape.set_f(!r.animal_order), val).expect("a shape that fits");
    let (iids, sids) = (isizes(r.iid_index), isizes(r.sid_index));
    said(read_no_alloc(path, r.iid_count, r.sid_count, r.is_a1_counted, &iids, &sids, missing, threads(), &mut view))
}

pub fn ask_encode<T: BedVal>(input: &[T], out: &mut [u8], is_a1_counted: bool, missing: T) -> Said {
    said(encode1(&nd::ArrayView1::from(input), out, is_a1_counted, missing))
}

pub fn ask_write<T: BedVal>(path: &Path, val: &[T], shape: (usize, usize), animal_order: bool, is_a1_counted: bool, missing: T) -> Said {
    let view = nd::ArrayView2::from_shape(shape.set_f(!animal_order), val).expect("a shape that fits");
    said(write_val(path, &view, is_a1_counted, missing, threads()))
}

/// `records`: the rows of two of the statistics.
pub fn ask_impute(
    val: &mut [f64], shape: (usize, usize), animal_order: bool, apply_in_place: bool, use_stats: bool, stats: &mut [f64], records: usize,
) -> Said {
    let mut val = nd::ArrayViewMut2::from_shape(shape.set_f(!animal_order), val).expect("a shape that fits");
    let mut stats = nd::ArrayViewMut2::from_shape((records, 2).set_f(false), stats).expect("a shape that fits");
    said(impute_and_zero_mean_snps(&mut val, &Dist::Unit, apply_in_place, use_stats, &mut stats))
}

/// An index as the C interface gives it.
pub enum Asked<'a> {
    All,
    One(i64),
    Vec(&'a [i64]),
    Bool(&'a [u8]),
    Range(Option<usize>, Option<usize>),
    Slice(i64, Option<i64>, i64),
}

/// The lists of an index: two of the original's kinds give the list for `Vec` and for `Bool`. `Err(None)`: longer than `most`, so not made.
pub fn ask_lists(asked: &Asked, count: usize, most: usize) -> Result<Vec<Vec<i64>>, Option<Said>> {
    let kinds = match *asked {
        Asked::All => vec![Index::All],
        Asked::One(one) => vec![Index::One(one as isize)],
        Asked::Vec(vec) => vec![Index::Vec(isizes(vec)), Index::NDArray(nd::Array1::from_vec(isizes(vec)))],
        Asked::Bool(marks) => {
            let marks: Vec<bool> = marks.iter().map(|&m| m != 0).collect();
            vec![Index::VecBool(marks.clone()), Index::NDArrayBool(nd::Array1::from_vec(marks))]
        }
        Asked::Range(start, end) => vec![Index::RangeAny(RangeAny { start, end })],
        Asked::Slice(start, end, step) => {
            let (start, end, step) = (start as isize, end.map(|e| e as isize), step as isize);
            vec![Index::NDSliceInfo(SliceInfo1::try_from([nd::SliceInfoElem::Slice { start, end, step }]).expect("one axis"))]
        }
    };
    kinds
        .iter()
        .map(|index| {
            let len = match index {
                Index::All => (count as isize).max(0) as usize,
                _ => index.len(count).unwrap_or(0),
            };
            // A list of 2^63 bytes or more panics at once.
            if len > most && len < 1 << 60 {
                return Err(None);
            }
            Ok(index.to_vec(count).map_err(|e| Some(refused(e)))?.into_iter().map(|i| i as i64).collect())
        })
        .collect()
}

/// Where a piece lies, in the file and in the product.
pub struct Piece {
    pub offset: u64,
    pub row_count: usize,
    pub col_count: usize,
    pub start: usize,
    pub shape: (usize, usize),
}

pub fn ask_piece(path: &Path, ata: bool, p: &Piece, piece: &mut [f64]) -> Said {
    let mut view = nd::ArrayViewMut2::from_shape(p.shape.set_f(false), piece).expect("a shape that fits");
    let call = if ata { file_ata_piece::<f64> } else { file_aat_piece::<f64> };
    said(call(path, p.offset, p.row_count, p.col_count, p.start, &mut view, 0, read_into_f64))
}
