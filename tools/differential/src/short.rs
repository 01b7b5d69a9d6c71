//! Short inputs, every one of a kind.
use crate::case::Arg::{B, N};
use crate::case::*;
use crate::list::{F, F_BY_ANIMAL};

const FLAGS: [u64; 2] = [0, 1];

/// Every list of at most `most` of the values.
fn lists(values: &[u64], most: usize, f: &mut dyn FnMut(&[u64])) {
    fn go(values: &[u64], most: usize, list: &mut Vec<u64>, f: &mut dyn FnMut(&[u64])) {
        f(list);
        if list.len() < most {
            for &v in values {
                list.push(v);
                go(values, most, list, f);
                list.pop();
            }
        }
    }
    go(values, most, &mut vec![], f)
}

/// Numbers around every power of two, and small ones.
fn grid() -> Vec<u64> {
    let mut grid: Vec<u64> = (0..20).collect();
    for k in 5..64 {
        grid.extend([(1 << k) - 1, 1 << k, (1 << k) + 1]);
    }
    grid.extend([u64::MAX, u64::MAX - 1, u64::MAX - 3, (u64::MAX - 3) / 5, (u64::MAX - 3) / 5 + 1]);
    grid
}

pub fn each(name: &str, f: &mut dyn FnMut(Case)) {
    let f64s = |values: &[f64]| values.iter().map(|v| v.to_bits()).collect::<Vec<u64>>();
    match name {
        // Every first two bytes with the modes 0, 1 and 2, and every shorter file of some bytes.
        "open_and_check" => {
            for a in 0..256 {
                for b in 0..256 {
                    f(Case::new(name, vec![B(vec![a, b, (a ^ b) % 3])]));
                }
            }
            lists(&[0x6c, 0x1b, 0, 1, 2, 0xff], 4, &mut |file| f(Case::new(name, vec![B(file.to_vec())])));
        }
        "try_div_4" => {
            for &a in &grid() {
                for &b in &grid() {
                    f(Case::new(name, vec![N(a), N(b)]));
                }
            }
        }
        "byte_span" => {
            for count in 0..10u64 {
                for i in -11i64..11 {
                    for j in -11i64..11 {
                        f(Case::new(name, vec![N(count), B(vec![i as u64, j as u64])]));
                    }
                    f(Case::new(name, vec![N(count), B(vec![i as u64])]));
                }
            }
        }
        "to_range" | "index_range" => {
            for count in 0..6 {
                for start in 0..8 {
                    for end in 0..8 {
                        for has in 0..4 {
                            let mut args = vec![N(count), N(has & 1), N(start), N(has >> 1), N(end)];
                            if name == "index_range" {
                                args.push(B(vec![77; 5]));
                            }
                            f(Case::new(name, args));
                        }
                    }
                }
            }
        }
        // Every byte of a block of one byte, for every count that has one; then F and its twin of mode 0 with every pair of lists of at most two of the
        // entries about the ends of the count.
        "read_i8" | "read_f64" | "read_standardised_f64" => {
            let mut read = |file: &[u64], iids: u64, sids: u64, flag: u64, order: u64, iid_index: &[u64], sid_index: &[u64]| {
                let old = || B(vec![9; iid_index.len() * sid_index.len()]);
                let mut args = vec![B(file.to_vec()), N(iids), N(sids), N(flag), B(iid_index.to_vec()), B(sid_index.to_vec())];
                match name {
                    "read_i8" => args.extend([N(0x81), N(order), old()]),
                    "read_f64" => args.extend([N(f64::NAN.to_bits()), N(order), old()]),
                    _ => args.extend([N(order), old(), B(vec![9; 3 * sid_index.len()])]),
                }
                f(Case::new(name, args));
            };
            for flag in FLAGS {
                for order in FLAGS {
                    for mode in FLAGS {
                        for within in 1..=4u64 {
                            for byte in 0..256 {
                                let (iids, sids) = if mode == 0 { (1, within) } else { (within, 1) };
                                let all = |n: u64| (0..n).collect::<Vec<u64>>();
                                read(&[0x6c, 0x1b, mode, byte], iids, sids, flag, order, &all(iids), &all(sids));
                            }
                        }
                    }
                    let ends = |count: u64| [0, count - 1, count.wrapping_neg(), count, count.wrapping_neg() - 1];
                    for file in [&F[..], &F_BY_ANIMAL] {
                        lists(&ends(5), 2, &mut |iid_index| {
                            lists(&ends(2), 2, &mut |sid_index| read(file, 5, 2, flag, order, iid_index, sid_index));
                        });
                    }
                }
            }
        }
        // Every list of five of six values, and for i8 every list of two.
        "encode1_i8" => {
            for flag in FLAGS {
                for missing in [0x81, 0, 3] {
                    lists(&[0, 1, 2, 3, 0x81, 0xff], 5, &mut |input| {
                        f(Case::new(name, vec![B(input.to_vec()), B(vec![0xee; input.len().div_ceil(4)]), N(flag), N(missing)]))
                    });
                }
                for a in 0..256 {
                    for b in 0..256 {
                        f(Case::new(name, vec![B(vec![a, b]), B(vec![0xee]), N(flag), N(0x81)]));
                    }
                }
            }
        }
        "encode1_f64" => {
            let values = f64s(&[0.0, -0.0, 1.0, 2.0, 3.0, f64::NAN, 1.0 + f64::EPSILON]);
            for flag in FLAGS {
                for missing in f64s(&[f64::NAN, 3.0, -0.0, -1.0]) {
                    lists(&values, 5, &mut |input| {
                        f(Case::new(name, vec![B(input.to_vec()), B(vec![0xee; input.len().div_ceil(4)]), N(flag), N(missing)]))
                    });
                }
            }
        }
        // Every matrix of at most four of five values, in every shape.
        "write_i8" | "write_f64" => {
            let i8s = name == "write_i8";
            let values = if i8s { vec![0, 1, 2, 0x81, 3] } else { f64s(&[0.0, 1.0, 2.0, f64::NAN, 3.0]) };
            let missing = if i8s { 0x81 } else { f64::NAN.to_bits() };
            lists(&values, 4, &mut |val| {
                for iids in 0..=4 {
                    for sids in 0..=4 {
                        if iids * sids == val.len() as u64 {
                            for choice in 0..4 {
                                let out = 3 + iids.div_ceil(4) * sids;
                                let args =
                                    vec![B(val.to_vec()), N(iids), N(sids), N(choice & 1), N(choice >> 1), N(missing), B(vec![0xee; out as usize])];
                                f(Case::new(name, args));
                            }
                        }
                    }
                }
            });
        }
        // Every byte of every file of one byte after the header, and of some of two.
        "canonical" => {
            for mode in FLAGS {
                for within in 1..=4u64 {
                    for byte in 0..256 {
                        for blocks in 1..=2 {
                            let (iids, sids) = if mode == 0 { (blocks, within) } else { (within, blocks) };
                            let mut file = vec![0x6c, 0x1b, mode, byte];
                            if blocks == 2 {
                                file.push(byte * 37 % 256);
                            }
                            let out = 3 + iids.div_ceil(4) * sids;
                            f(Case::new(name, vec![B(file), N(iids), N(sids), B(vec![0xee; out as usize])]));
                        }
                    }
                }
            }
        }
        // Every matrix of at most four of five values, in every shape, order and choice.
        "impute_and_zero_mean_snps_f64" => {
            lists(&f64s(&[0.0, 1.0, 2.0, f64::NAN, f64::INFINITY]), 4, &mut |val| {
                for iids in 0..=4 {
                    for sids in 0..=4 {
                        if iids * sids == val.len() as u64 {
                            for choice in 0..8 {
                                let stats: Vec<u64> = (0..3 * sids).map(|i| (i as f64 + 0.5).to_bits()).collect();
                                let args = vec![B(val.to_vec()), N(iids), N(sids), N(choice & 1), N(choice >> 1 & 1), N(choice >> 2), B(stats)];
                                f(Case::new(name, args));
                            }
                        }
                    }
                }
            });
        }
        "index_all" => (0..8).for_each(|count| (0..9).for_each(|n| f(Case::new(name, vec![N(count), B(vec![77; n])])))),
        "index_one" => (0..4).for_each(|count| (0..3).for_each(|n| f(Case::new(name, vec![N(count), N(5 - count), B(vec![77; n])])))),
        "index_vec" => lists(&[0, 5, u64::MAX], 4, &mut |list| (0..6).for_each(|n| f(Case::new(name, vec![N(3), B(list.to_vec()), B(vec![77; n])])))),
        "index_bool" => lists(&[0, 1, 255], 5, &mut |marks| {
            for count in 0..6 {
                for n in [0, 2, 5] {
                    f(Case::new(name, vec![N(count), B(marks.to_vec()), B(vec![77; n])]));
                }
            }
        }),
        // Every slice with bounds in -7..8 and steps in -4..5.
        "index_slice" => {
            for count in 0..7 {
                for start in -7i64..8 {
                    for end in -8i64..8 {
                        for step in -4i64..5 {
                            let has = (end > -8) as u64;
                            f(Case::new(name, vec![N(count), N(start as u64), N(has), N(end as u64), N(step as u64), B(vec![77; 5])]));
                        }
                    }
                }
            }
        }
        // Every piece with numbers below 4, of a file that is long enough or misses its last byte.
        "file_ata_piece" | "file_aat_piece" => {
            for k in 0..4u64.pow(5) {
                let at = |i: u32| k / 4u64.pow(i) % 4;
                let (rows, cols, start, height, width) = (at(0), at(1), at(2), at(3), at(4));
                let values = (0..rows * cols).flat_map(|i| (i as f64 * 1.5 - 2.0).to_le_bytes());
                let bytes: Vec<u64> = [9, 9].into_iter().chain(values).map(|b| b as u64).collect();
                for miss in 0..2 {
                    let bytes = bytes[..bytes.len() - miss].to_vec();
                    let piece = vec![0.5f64.to_bits(); (height * width) as usize];
                    f(Case::new(name, vec![B(bytes), N(2), N(rows), N(cols), N(start), N(height), N(width), B(piece)]));
                }
            }
        }
        "root_f64" => {}
        _ => panic!("no call {name}"),
    }
}
