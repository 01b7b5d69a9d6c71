//! A case is a call and its parameters in the order of the C interface, all as bit patterns.

#[derive(Clone, Copy, PartialEq, Eq, Debug)]
pub enum Kind {
    U8,
    I8,
    I64,
    F64,
}

/// A parameter: a number, a buffer that is only read, or one that may be written.
#[derive(Clone, Copy, Debug)]
pub enum Par {
    Num,
    In(Kind),
    Out(Kind),
}

use Kind::*;
use Par::*;

/// The calls with their parameters. A call's number in the stored list is its place here, from 1.
pub const CALLS: &[(&str, &[Par])] = &[
    ("open_and_check", &[In(U8)]),
    ("try_div_4", &[Num, Num]),
    ("byte_span", &[Num, In(I64)]),
    ("to_range", &[Num, Num, Num, Num, Num]),
    ("read_i8", &[In(U8), Num, Num, Num, In(I64), In(I64), Num, Num, Out(I8)]),
    ("read_f64", &[In(U8), Num, Num, Num, In(I64), In(I64), Num, Num, Out(F64)]),
    ("encode1_i8", &[In(I8), Out(U8), Num, Num]),
    ("encode1_f64", &[In(F64), Out(U8), Num, Num]),
    ("write_i8", &[In(I8), Num, Num, Num, Num, Num, Out(U8)]),
    ("write_f64", &[In(F64), Num, Num, Num, Num, Num, Out(U8)]),
    ("canonical", &[In(U8), Num, Num, Out(U8)]),
    ("impute_and_zero_mean_snps_f64", &[Out(F64), Num, Num, Num, Num, Num, Out(F64)]),
    ("read_standardised_f64", &[In(U8), Num, Num, Num, In(I64), In(I64), Num, Out(F64), Out(F64)]),
    ("index_all", &[Num, Out(I64)]),
    ("index_one", &[Num, Num, Out(I64)]),
    ("index_vec", &[Num, In(I64), Out(I64)]),
    ("index_bool", &[Num, In(U8), Out(I64)]),
    ("index_range", &[Num, Num, Num, Num, Num, Out(I64)]),
    ("index_slice", &[Num, Num, Num, Num, Num, Out(I64)]),
    ("file_ata_piece", &[In(U8), Num, Num, Num, Num, Num, Num, Out(F64)]),
    ("file_aat_piece", &[In(U8), Num, Num, Num, Num, Num, Num, Out(F64)]),
    ("root_f64", &[Num]),
];

#[derive(Clone)]
pub enum Arg {
    N(u64),
    B(Vec<u64>),
}

#[derive(Clone)]
pub struct Case {
    /// Place in `CALLS`.
    pub call: usize,
    pub args: Vec<Arg>,
}

/// What a call answers, and what its written buffers hold afterwards, in order. A NaN is always the same pattern here.
#[derive(Clone, PartialEq, Eq, Debug)]
pub struct Outcome {
    pub number: u64,
    pub first: i64,
    pub second: i64,
    pub written: Vec<Vec<u64>>,
}

pub fn call(name: &str) -> usize {
    CALLS.iter().position(|c| c.0 == name).unwrap_or_else(|| panic!("no call {name}"))
}

pub fn alike(bits: u64) -> u64 {
    if f64::from_bits(bits).is_nan() {
        f64::NAN.to_bits()
    } else {
        bits
    }
}

pub fn f64_bits(values: &[f64]) -> Vec<u64> {
    values.iter().map(|v| alike(v.to_bits())).collect()
}

pub fn u8_bits(values: &[u8]) -> Vec<u64> {
    values.iter().map(|&v| v as u64).collect()
}

pub fn i8_bits(values: &[i8]) -> Vec<u64> {
    values.iter().map(|&v| v as u8 as u64).collect()
}

pub fn i64_bits(values: &[i64]) -> Vec<u64> {
    values.iter().map(|&v| v as u64).collect()
}

impl Case {
    pub fn new(name: &str, args: Vec<Arg>) -> Case {
        let case = Case { call: call(name), args };
        let fits = |(par, arg): (&Par, &Arg)| match (par, arg) {
            (Num, Arg::N(_)) => true,
            (In(U8 | I8) | Out(U8 | I8), Arg::B(b)) => b.iter().all(|&v| v < 256),
            (In(_) | Out(_), Arg::B(_)) => true,
            _ => false,
        };
        assert!(
            CALLS[case.call].1.len() == case.args.len() && CALLS[case.call].1.iter().zip(&case.args).all(fits),
            "{name} {:?}",
            CALLS[case.call].1
        );
        case
    }

    pub fn name(&self) -> &'static str {
        CALLS[self.call].0
    }

    pub fn num(&self, i: usize) -> u64 {
        match &self.args[i] {
            Arg::N(n) => *n,
            Arg::B(_) => panic!("a buffer"),
        }
    }

    pub fn flag(&self, i: usize) -> bool {
        self.num(i) != 0
    }

    pub fn bits(&self, i: usize) -> &[u64] {
        match &self.args[i] {
            Arg::B(b) => b,
            Arg::N(_) => panic!("a number"),
        }
    }

    pub fn u8s(&self, i: usize) -> Vec<u8> {
        self.bits(i).iter().map(|&b| b as u8).collect()
    }

    pub fn i8s(&self, i: usize) -> Vec<i8> {
        self.bits(i).iter().map(|&b| b as i8).collect()
    }

    pub fn i64s(&self, i: usize) -> Vec<i64> {
        self.bits(i).iter().map(|&b| b as i64).collect()
    }

    pub fn f64s(&self, i: usize) -> Vec<f64> {
        self.bits(i).iter().map(|&b| f64::from_bits(b)).collect()
    }

    /// What the written buffers hold before the call.
    pub fn before(&self) -> Vec<Vec<u64>> {
        CALLS[self.call]
            .1
            .iter()
            .zip(&self.args)
            .filter_map(|(par, arg)| match (par, arg) {
                (Out(F64), Arg::B(b)) => Some(b.iter().map(|&v| alike(v)).collect()),
                (Out(_), Arg::B(b)) => Some(b.clone()),
                _ => None,
            })
            .collect()
    }

    /// An answer that leaves every buffer as it was.
    pub fn unwritten(&self, number: u64, first: i64, second: i64) -> Outcome {
        Outcome { number, first, second, written: self.before() }
    }

    /// Cases with one element fewer, or with one number or element that is less.
    pub fn smaller(&self) -> Vec<Case> {
        let mut cases = vec![];
        for i in 0..self.args.len() {
            let with = |arg: Arg| {
                let mut case = self.clone();
                case.args[i] = arg;
                case
            };
            // Only a small number goes down by 1: a large one would take too many turns.
            let less = |n: u64| [0, n / 2, if n < 99 { n.wrapping_sub(1) } else { n }].into_iter().filter(move |&m| m < n);
            match &self.args[i] {
                Arg::N(n) => cases.extend(less(*n).map(|m| with(Arg::N(m)))),
                Arg::B(b) => {
                    for at in 0..b.len() {
                        let mut shorter = b.clone();
                        shorter.remove(at);
                        cases.push(with(Arg::B(shorter)));
                        cases.extend(less(b[at]).map(|m| {
                            let mut changed = b.clone();
                            changed[at] = m;
                            with(Arg::B(changed))
                        }));
                    }
                }
            }
        }
        cases
    }

    /// The section of the stored list's line that has each parameter's buffer (README.md); 0, the head, has the numbers.
    pub fn sections(call: usize) -> Vec<usize> {
        let mut used = [false; 8];
        let mut free = |first: usize, second: usize| {
            let section = if used[first] { second } else { first };
            used[section] = true;
            section
        };
        let of = |par: &Par| match par {
            Num => 0,
            In(U8) => 1,
            Out(U8) => 2,
            In(I64) => free(3, 4),
            Out(I64) => 4,
            In(I8) | Out(I8) => 5,
            In(F64) | Out(F64) => free(6, 7),
        };
        CALLS[call].1.iter().map(of).collect()
    }

    /// The case's line in the stored list, up to the answer.
    pub fn line(&self) -> String {
        let mut numbers = vec![self.call as u64 + 1];
        let mut buffers: [&[u64]; 8] = [&[]; 8];
        for (section, arg) in Case::sections(self.call).into_iter().zip(&self.args) {
            match arg {
                Arg::N(n) => numbers.push(*n),
                Arg::B(b) => buffers[section] = b,
            }
        }
        numbers.resize(7, 0);
        std::iter::once(words(&numbers)).chain(buffers[1..].iter().map(|b| words(b))).collect::<Vec<String>>().join("|")
    }
}

fn words(bits: &[u64]) -> String {
    bits.iter().map(|b| format!("{b:x}")).collect::<Vec<String>>().join(" ")
}

impl Outcome {
    /// The answer's part of a line.
    pub fn line(&self) -> String {
        let later = |k: usize| self.written.get(k).map_or(String::new(), |b| words(b));
        format!("{:x} {:x} {:x}|{}|{}", self.number, self.first, self.second, later(0), later(1))
    }
}
