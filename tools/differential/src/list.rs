//! The stored list: a few hundred chosen cases with their answers, a line each (README.md has the form).
use crate::case::Arg::{B, N};
use crate::case::*;
use crate::draw::{draw, Rng};
use crate::want::{want, Folder};
use std::collections::BTreeMap;

const TOP: u64 = i64::MAX as u64;
const NAN: u64 = 0x7ff8_0000_0000_0000;
/// Buffers of the list have at most this many places.
const MOST: usize = 64;

fn bits(values: &[f64]) -> Vec<u64> {
    values.iter().map(|v| v.to_bits()).collect()
}

/// File F of document 01, and a file of mode 0 with the same calls: 5 animals, 2 markers.
pub const F: [u64; 7] = [0x6c, 0x1b, 1, 0xe4, 0, 0x2f, 2];
pub const F_BY_ANIMAL: [u64; 8] = [0x6c, 0x1b, 0, 0xc, 0xd, 0xa, 3, 8];

/// Document 01's examples, the boundaries, and the smallest input of each difference in docs/DIFFERENCES.md.
pub fn by_hand() -> Vec<Case> {
    let mut cases = vec![];
    let mut add = |name: &str, args: Vec<Arg>| cases.push(Case::new(name, args));
    let neg = |i: u64| i.wrapping_neg();
    let all = |n: u64| (0..n).collect::<Vec<u64>>();
    let old8 = |n: usize| B(vec![0xee; n]);
    let old = |n: usize| B(vec![9; n]);
    let old64 = |n: usize| B(vec![77; n]);

    for file in [
        vec![],
        vec![0x6c],
        vec![0x6c, 0x1b],
        vec![0x6c, 0x1b, 0],
        vec![0x6c, 0x1b, 1],
        vec![0x6c, 0x1b, 2, 7],
        vec![0x1b, 0x6c, 1],
        vec![0x6c, 0x1c, 1],
    ] {
        add("open_and_check", vec![B(file)]);
    }
    for (a, b) in [
        (0, 0),
        (0, TOP),
        (0, TOP + 1),
        (1, 0),
        (4, 1),
        (5, 1),
        (8, 3),
        (9, 3),
        (TOP, 0),
        (TOP, 7),
        (TOP, 8),
        (TOP + 1, 0),
        (u64::MAX, u64::MAX),
        (4, TOP),
        (8, TOP),
        (9, TOP),
        (5, TOP),
        (1, u64::MAX),
        (13, TOP / 2),
        (4, u64::MAX - 3),
    ] {
        add("try_div_4", vec![N(a), N(b)]);
    }
    for (count, list) in [
        (0, vec![]),
        (0, vec![0]),
        (0, vec![u64::MAX]),
        (5, vec![neg(5)]),
        (5, vec![4]),
        (5, vec![neg(6)]),
        (5, vec![5]),
        (5, vec![0, 5, neg(6)]),
        (40, vec![39, 8, neg(20)]),
        (TOP, vec![TOP - 1, neg(TOP)]),
        (TOP, vec![TOP]),
        (TOP, vec![TOP + 1]),
        (TOP + 1, vec![]),
        (9, vec![3, 3, 4]),
    ] {
        add("byte_span", vec![N(count), B(list)]);
    }
    for (count, has_start, start, has_end, end) in [
        (5, 0, 9, 0, 9),
        (5, 1, 2, 0, 9),
        (5, 0, 9, 1, 3),
        (5, 1, 3, 1, 3),
        (5, 1, 4, 1, 3),
        (5, 1, 6, 0, 0),
        (5, 1, 3, 1, 12),
        (TOP, 0, 0, 0, 0),
        (5, 1, TOP, 1, TOP),
        (5, 1, TOP + 1, 1, TOP + 2),
        (5, 1, 0, 1, TOP + 1),
        (TOP + 1, 1, 0, 1, 0),
        (5, 0, u64::MAX, 0, u64::MAX),
    ] {
        add("to_range", vec![N(count), N(has_start), N(start), N(has_end), N(end)]);
        if end <= 16 {
            add("index_range", vec![N(count), N(has_start), N(start), N(has_end), N(end), old64(10)]);
            add("index_range", vec![N(count), N(has_start), N(start), N(has_end), N(end), old64(1)]);
        }
    }
    add("index_range", vec![N(5), N(1), N(TOP + 1), N(1), N(TOP + 2), old64(1)]);

    // Reading.
    let mut large = vec![];
    let mut read = |file: &[u64], iids: u64, sids: u64, iid_index: Vec<u64>, sid_index: Vec<u64>, places: usize| {
        for choice in 0..4 {
            let (flag, order) = (choice & 1, choice >> 1);
            let head = vec![B(file.to_vec()), N(iids), N(sids), N(flag), B(iid_index.clone()), B(sid_index.clone())];
            let with = |more: Vec<Arg>| head.iter().cloned().chain(more).collect::<Vec<Arg>>();
            if choice == 1 || choice == 2 {
                add("read_i8", with(vec![N(0x81), N(order), old8(places)]));
                add("read_f64", with(vec![N(NAN), N(order), old(places)]));
            }
            if choice == 0 || choice == 3 {
                add("read_standardised_f64", with(vec![N(order), old(places), old(3 * sid_index.len())]));
            }
        }
    };
    let mut f2 = F;
    f2[6] = 0xf2;
    read(&F, 5, 2, all(5), all(2), 10);
    read(&f2, 5, 2, all(5), all(2), 10);
    read(&F_BY_ANIMAL, 5, 2, all(5), all(2), 10);
    read(&F, 5, 2, vec![neg(1), 0, 2, neg(5)], vec![1, neg(2), 1], 12);
    read(&F_BY_ANIMAL, 5, 2, vec![neg(1), 0, 2, neg(5)], vec![1, neg(2), 1], 12);
    read(&F, 5, 2, vec![], all(2), 0);
    read(&F, 5, 2, all(5), vec![], 0);
    read(&[0x6c, 0x1b, 1], 0, 9, vec![], all(9), 0);
    read(&[0x6c, 0x1b, 1, 0], 0, 9, vec![], vec![], 0);
    read(&[0x6c, 0x1b, 0], 9, 0, all(9), vec![], 0);
    read(&[0x6c, 0x1b, 1], TOP, 0, vec![TOP - 1], vec![], 0);
    read(&[0x6c, 0x1b, 1], 0, TOP, vec![], vec![TOP - 1], 0);
    // 1, 2, 3, 4, 2, 5 and 6, and what comes first.
    read(&[0x6c, 0x1b], 5, 2, vec![9], vec![9], 1);
    read(&[0x6d, 0x1b, 9], 5, 2, vec![9], vec![9], 1);
    read(&[0x6c, 0x1b, 2, 0xe4], 5, 2, vec![9], vec![9], 1);
    read(&[0x6c, 0x1b, 1], TOP, 8, vec![], vec![], 0);
    read(&[0x6c, 0x1b, 1], TOP, 7, vec![], vec![], 0);
    read(&F[..6], 5, 2, vec![9], vec![9], 1);
    read(&F, 5, 2, vec![0, 5, neg(6)], vec![0, 2], 6);
    read(&F, 5, 2, vec![0], vec![2], 1);
    read(&F, 5, 2, vec![0], vec![0, 2], 2);
    read(&F, 5, 2, vec![0], vec![0, 2, 1], 3);
    read(&F, 5, 2, vec![5, 6], vec![0], 2);
    read(&F, 5, 2, vec![], vec![neg(3)], 0);
    read(&F, 5, 2, vec![5], vec![], 0);
    read(&F_BY_ANIMAL, 5, 2, vec![9], vec![0, 2, 3], 3);
    read(&F_BY_ANIMAL, 5, 2, vec![5], vec![2], 1);
    read(&F_BY_ANIMAL, 5, 2, vec![0], vec![2], 1);
    read(&F_BY_ANIMAL, 5, 2, vec![5], vec![0], 1);
    read(&F_BY_ANIMAL, 5, 2, vec![0, 5], vec![0], 2);
    read(&F_BY_ANIMAL, 5, 2, vec![], vec![neg(3)], 0);
    read(&F_BY_ANIMAL, 5, 2, vec![5], vec![], 0);
    read(&F, 5, 2, vec![0, 1], vec![0], 1);
    read(&F, TOP + 1, 2, vec![0], vec![0], 1);
    read(&F, 5, TOP + 1, vec![0], vec![0], 1);
    // Two refusals that both apply: 18 and 15, 18 and 1, 15 and 1.
    read(&F, TOP + 1, 2, vec![0], vec![0], 2);
    read(&F, 5, TOP + 1, vec![0, 1], vec![0], 1);
    read(&[0x6c, 0x1b], TOP + 1, 2, vec![0], vec![0], 1);
    read(&[0x6c, 0x1b], 5, TOP + 1, vec![], vec![], 0);
    read(&[0x6c, 0x1b], 5, 2, vec![0], vec![0], 2);

    // Seventeen markers or animals, one more than a power of two.
    let drawn = |n: u64| (0..n).map(|k| (k * 37 + 11) % 256).collect::<Vec<u64>>();
    for (mode, iids, sids) in [(0, 3, 17), (1, 3, 17), (0, 17, 3), (1, 17, 3)] {
        let (within, blocks): (u64, u64) = if mode == 0 { (sids, iids) } else { (iids, sids) };
        let file = [vec![0x6c, 0x1b, mode], drawn(within.div_ceil(4) * blocks)].concat();
        read(&file, iids, sids, all(iids), all(sids), (iids * sids) as usize);
        read(
            &file,
            iids,
            sids,
            all(iids).into_iter().rev().collect(),
            all(sids).into_iter().map(|m| m.wrapping_sub(sids)).collect(),
            (iids * sids) as usize,
        );
        large.push((file, iids, sids));
    }

    // The joined call's buffers: 18 and 17, 15 and 17, 17 and 1.
    for (file, iids, places, stats) in [(&F[..], TOP + 1, 4, 4), (&F[..], 5, 3, 4), (&F[..], 5, 5, 9), (&F[..2], 5, 4, 3)] {
        for order in 0..2 {
            add("read_standardised_f64", vec![B(file.to_vec()), N(iids), N(2), N(1), B(all(2)), B(all(2)), N(order), old(places), old(stats)]);
        }
    }
    // 17 alone: two numbers for each of two markers, one less and one more than three; the file's two markers, but one in the list. Then an animal that is
    // listed again, which is observed again, and one that has no call at marker 0.
    let (one, again) = (vec![0], vec![0, 1, 0, neg(5), 1]);
    for (iids, sids, stats) in [(&one, 2, 4), (&one, 2, 5), (&one, 2, 7), (&one, 1, 6), (&again, 2, 6), (&vec![1, 1], 2, 6)] {
        for order in 0..2 {
            let places = old(iids.len() * sids as usize);
            add("read_standardised_f64", vec![B(F.to_vec()), N(5), N(2), N(1), B(iids.clone()), B(all(sids)), N(order), places, old(stats)]);
        }
    }

    // Packing and writing.
    for flag in 0..2 {
        add("encode1_i8", vec![B(vec![0, 0x81, 1, 2, 2]), old8(2), N(flag), N(0x81)]);
        add("encode1_i8", vec![B(vec![0, 1, 2, 2, 0, 3, 1]), old8(2), N(flag), N(0x81)]);
        add("encode1_i8", vec![B(vec![0, 1, 2, 2, 0, 3, 1]), old8(3), N(flag), N(0x81)]);
        add("encode1_i8", vec![B(vec![0, 1, 2]), old8(1), N(flag), N(1)]);
        add("encode1_f64", vec![B(bits(&[0.0, -0.0, f64::NAN, 2.0, 1.0])), old8(2), N(flag), N(NAN)]);
        add("encode1_f64", vec![B(bits(&[0.0, 1.0, 2.0, 2.0, f64::NAN])), old8(2), N(flag), N(3.0f64.to_bits())]);
        add("encode1_f64", vec![B(bits(&[3.0, 0.0])), old8(1), N(flag), N(3.0f64.to_bits())]);
        for order in 0..2 {
            let tail = |missing: u64, n: usize| vec![N(order), N(flag), N(missing), old8(n)];
            let mut write = |name: &str, val: Vec<u64>, iids: u64, sids: u64, missing: u64, n: usize| {
                add(name, [vec![B(val), N(iids), N(sids)], tail(missing, n)].concat());
            };
            write("write_i8", vec![2, 0x81, 1, 0, 2, 0, 0, 1, 2, 1], 5, 2, 0x81, 7);
            write("write_f64", bits(&[2.0, f64::NAN, 1.0, 0.0, 2.0, -0.0, 0.0, 1.0, 2.0, 1.0]), 5, 2, NAN, 7);
            write("write_i8", vec![0, 1, 3, 0, 3, 3], 3, 2, 0x81, 5);
            write("write_f64", bits(&[0.0, 1.0, 3.0, 0.0, 3.0, 3.0]), 3, 2, NAN, 5);
            write("write_i8", vec![], 0, 9, 0x81, 3);
            write("write_i8", vec![], 9, 0, 0x81, 3);
            write("write_i8", vec![], 0, TOP, 0x81, 3);
            write("write_f64", vec![], TOP, 0, NAN, 3);
            write("write_i8", vec![], TOP, 8, 0x81, 3);
            write("write_i8", vec![3], TOP + 1, 8, 0x81, 3);
            write("write_f64", vec![3], 1, 2, NAN, 5);
            write("write_i8", vec![3], 1, 1, 0x81, 4);
            write("write_i8", vec![3], 1, 1, 0x81, 5);
            // 18 and 15, 4 and 15, 15 and 16, 16 and 7.
            write("write_f64", vec![], TOP + 1, 8, NAN, 3);
            write("write_i8", vec![3], TOP, 8, 0x81, 3);
            write("write_i8", vec![0], 1, 2, 0x81, 4);
            write("write_f64", vec![0], 1, 2, NAN, 4);
            write("write_f64", vec![3], 1, 1, NAN, 3);
        }
    }
    add("encode1_i8", vec![B(vec![0, 0, 0, 0, 3]), old8(2), N(0), N(0)]);
    add("encode1_i8", vec![B(vec![]), old8(0), N(0), N(0x81)]);
    add("encode1_i8", vec![B(vec![]), old8(1), N(0), N(0x81)]);

    // Canonical files.
    for (file, iids, sids, n) in [
        (F.to_vec(), 5, 2, 7),
        (f2.to_vec(), 5, 2, 7),
        (F_BY_ANIMAL.to_vec(), 5, 2, 7),
        (F.to_vec(), 5, 2, 6),
        (F[..6].to_vec(), 5, 2, 7),
        (vec![0x6c, 0x1b, 1], 0, 9, 3),
        (vec![0x6c, 0x1b, 0], 9, 0, 3),
        (vec![0x6c, 0x1b, 1], 0, TOP, 3),
        (vec![0x6c, 0x1b, 0], TOP, 0, 3),
        (vec![0x6c, 0x1b, 0], 5, TOP, 3),
        (vec![0x6c, 0x1b, 0], 9, TOP, 3),
        (vec![0x6c, 0x1b, 3], 9, TOP, 3),
        (vec![0x6c, 0x1b], 0, 0, 3),
        (F.to_vec(), TOP + 1, 2, 7),
        (vec![0x6c, 0x1b, 1], TOP, 8, 3),
        // 18 and 1, of either count; 1 and 16.
        (vec![0x6c, 0x1b], TOP + 1, 0, 3),
        (vec![], 0, TOP + 1, 3),
        (vec![0x6c, 0x1b], 0, 0, 2),
    ] {
        add("canonical", vec![B(file), N(iids), N(sids), old8(n)]);
    }

    for (file, iids, sids) in large {
        add("canonical", vec![B(file), N(iids), N(sids), old8(3 + (iids.div_ceil(4) * sids) as usize)]);
        let values: Vec<u64> = (0..iids * sids).map(|k| [0, 2, 1, 0x81, 1][(k * k % 5) as usize]).collect();
        let floats: Vec<u64> = values.iter().map(|&v| if v == 0x81 { NAN } else { (v as f64).to_bits() }).collect();
        for order in 0..2 {
            let out = 3 + (iids.div_ceil(4) * sids) as usize;
            add("write_i8", vec![B(values.clone()), N(iids), N(sids), N(order), N(order), N(0x81), old8(out)]);
            add("write_f64", vec![B(floats.clone()), N(iids), N(sids), N(order), N(1 - order), N(NAN), old8(out)]);
            add("impute_and_zero_mean_snps_f64", vec![B(floats.clone()), N(iids), N(sids), N(order), N(1), N(0), old(3 * sids as usize)]);
        }
        add("encode1_i8", vec![B(values.clone()), old8(values.len().div_ceil(4)), N(1), N(0x81)]);
        add("encode1_f64", vec![B(floats.clone()), old8(values.len().div_ceil(4)), N(0), N(NAN)]);
    }

    // Standardising.
    for choice in 0..8 {
        let mut impute = |val: &[f64], iids: u64, sids: u64, stats: &[f64]| {
            add(
                "impute_and_zero_mean_snps_f64",
                vec![B(bits(val)), N(iids), N(sids), N(choice & 1), N(choice >> 1 & 1), N(choice >> 2), B(bits(stats))],
            );
        };
        impute(&[0.0, 2.0, f64::NAN], 3, 1, &[1.5, 0.25, f64::NAN]);
        impute(&[1.0, 1.0], 2, 1, &[0.5, f64::NEG_INFINITY, f64::INFINITY]);
        impute(&[f64::NAN, f64::NAN], 2, 1, &[0.5, 0.75, 0.875]);
        impute(&[0.0, 2.0, f64::NAN, 1.0, f64::NAN, f64::NAN, 2.0, 0.1, f64::NAN], 3, 3, &[1.0, 2.0, 9.0, 3.0, 4.0, -9.0, 5.0, 0.0, 0.0]);
        impute(&[f64::INFINITY, 0.0, f64::NEG_INFINITY, 1.0], 2, 2, &[0.5, 0.75, f64::NEG_INFINITY, -0.0, -1.0, -0.0]);
        impute(&[0.1, 0.2, 0.3, 0.7, 1e300, -1e300], 3, 2, &[f64::NAN, 0.75, 1e300, f64::INFINITY, 1e-300, f64::NAN]);
        impute(&[f64::NAN, f64::NAN], 1, 2, &[0.5, 0.75, 0.875, 0.5, 0.75, 0.875]);
        impute(&[1.0], 1, 2, &[0.5, 0.75, 0.875, 0.5, 0.75, 0.875]);
        // 17: one record for two markers, two numbers for each, one number less and one more.
        for n in [3, 4, 5, 7] {
            impute(&[1.0, 2.0], 1, 2, &[0.5, 0.75, 0.875, 0.5, 0.75, 0.875, 0.5][..n]);
        }
        // 14 of one marker among others, then 13 and 14 together, the one or the other at the lower marker: markers of two animals.
        let columns = |columns: &[[f64; 2]]| -> Vec<f64> {
            let by_marker = columns.concat();
            let by_animal = (0..2).flat_map(|i| columns.iter().map(move |c| c[i]));
            if choice & 1 == 1 {
                by_animal.collect()
            } else {
                by_marker
            }
        };
        let (good, none, wild) = ([0.0, 2.0], [f64::NAN; 2], [f64::NEG_INFINITY, f64::INFINITY]);
        let stats = [0.5, 0.75, 0.875, 1.5, 1.75, 1.875, 2.5, 2.75, 2.875, 3.5, 3.75, 3.875];
        impute(&columns(&[wild, good]), 2, 2, &stats[..6]);
        impute(&columns(&[good, wild, [1.0, f64::NAN]]), 2, 3, &stats[..9]);
        impute(&columns(&[good, none, wild, [2.0, 1.0]]), 2, 4, &stats);
        impute(&columns(&[wild, [2.0, 1.0], none, good]), 2, 4, &stats);
        // 15 and 17.
        impute(&[1.0], 1, 2, &[0.5]);
        impute(&[1.0, 2.0, 1.0], 1, 2, &stats[..9]);
    }
    // 17 where three times the markers wraps to the length.
    for use_stats in 0..2 {
        add("impute_and_zero_mean_snps_f64", vec![B(vec![]), N(0), N(u64::MAX / 3 + 1), N(0), N(1), N(use_stats), old(2)]);
        add("impute_and_zero_mean_snps_f64", vec![B(vec![]), N(0), N(u64::MAX / 3 + 2), N(1), N(1), N(use_stats), old(5)]);
    }
    // 18 and 15, 18 and 17.
    add("impute_and_zero_mean_snps_f64", vec![old(3), N(TOP + 1), N(2), N(0), N(1), N(0), old(6)]);
    add("impute_and_zero_mean_snps_f64", vec![old(3), N(2), N(TOP + 1), N(1), N(1), N(0), old(6)]);
    add("impute_and_zero_mean_snps_f64", vec![B(vec![]), N(TOP), N(0), N(0), N(1), N(0), B(vec![])]);
    add("impute_and_zero_mean_snps_f64", vec![B(vec![]), N(0), N(TOP), N(1), N(1), N(0), B(vec![])]);
    add("impute_and_zero_mean_snps_f64", vec![B(vec![]), N(TOP + 1), N(0), N(1), N(1), N(0), B(vec![])]);
    add("impute_and_zero_mean_snps_f64", vec![B(vec![]), N(0), N(2), N(0), N(1), N(0), old(6)]);

    // Lists.
    for (count, n) in [(0, 0), (1, 0), (3, 3), (3, 5), (TOP, 3), (TOP + 1, 3)] {
        add("index_all", vec![N(count), old64(n)]);
        add("index_one", vec![N(count), N(neg(7)), old64(n)]);
        add("index_vec", vec![N(count), B(vec![9, neg(9)]), old64(n)]);
        add("index_bool", vec![N(count), B(vec![1, 0, 255]), old64(n)]);
    }
    for (start, has_end, end, step) in [
        (1, 1, 6, neg(2)),
        (0, 0, 99, 1),
        (0, 0, 99, neg(1)),
        (0, 0, 99, 0),
        (7, 1, 9, 0),
        (7, 1, 9, 1),
        (neg(7), 1, 9, 1),
        (0, 1, 7, 1),
        (0, 1, neg(7), 1),
        (neg(6), 1, neg(1), 2),
        (4, 1, 2, 1),
        (3, 1, 3, neg(1)),
        (1 << 63, 1, 2, 1),
        (0, 1, 1 << 63, 1),
        (0, 1, 6, 1 << 63),
        (0, 1, 6, TOP),
        (1, 1, 6, neg(TOP)),
    ] {
        add("index_slice", vec![N(6), N(start), N(has_end), N(end), N(step), old64(6)]);
    }
    add("index_slice", vec![N(6), N(0), N(0), N(0), N(1), old64(5)]);
    add("index_slice", vec![N(TOP), N(0), N(0), N(0), N(1), old64(5)]);
    add("index_slice", vec![N(TOP), N(0), N(0), N(0), N(TOP - 1), old64(5)]);
    add("index_slice", vec![N(TOP), N(0), N(0), N(0), N(neg(TOP - 1)), old64(5)]);
    add("index_slice", vec![N(TOP + 1), N(0), N(0), N(0), N(0), old64(5)]);

    // Products: three rows and three columns after two bytes.
    let values = [1.5, -2.0, 0.1, 3.0, 0.2, -0.0, 7.0, 1e300, f64::INFINITY];
    let bytes: Vec<u64> = [9u8, 9].into_iter().chain(values.iter().flat_map(|v| v.to_le_bytes())).map(|b| b as u64).collect();
    for name in ["file_ata_piece", "file_aat_piece"] {
        let mut piece = |bytes: &[u64], offset: u64, rows: u64, cols: u64, start: u64, height: u64, width: u64, n: usize| {
            add(name, vec![B(bytes.to_vec()), N(offset), N(rows), N(cols), N(start), N(height), N(width), old(n)]);
        };
        let (two, one) = (&bytes[..34], &bytes[2..10]);
        piece(two, 2, 2, 2, 0, 2, 2, 4);
        piece(two, 2, 2, 2, 0, 2, 1, 2);
        piece(two, 2, 2, 2, 1, 1, 1, 1);
        piece(&two[..33], 2, 2, 2, 0, 2, 2, 4);
        piece(two, 3, 2, 2, 0, 2, 2, 4);
        piece(two, 2, 2, 2, 2, 0, 1, 0);
        piece(two, 2, 2, 2, 0, 1, 1, 1);
        piece(two, 2, 2, 2, 1, 1, 2, 2);
        piece(two, 2, 2, 2, 0, 2, 0, 0);
        piece(two, 2, 2, 2, 0, 2, 2, 3);
        piece(two, 2, 2, 2, 0, 1, 2, 3);
        piece(&[], 5, 0, 3, 0, 3, 2, 6);
        piece(&[], 5, 3, 0, 0, 3, 2, 6);
        piece(&[], 1 << 63, 0, 1, 0, 1, 1, 1);
        piece(&[], 1 << 63, 1, 0, 0, 1, 1, 1);
        piece(one, neg(8), 1, 2, 1, 1, 1, 1);
        piece(one, neg(8), 2, 1, 1, 1, 1, 1);
        piece(one, 8, 1 << 61, 1, (1 << 61) - 1, 1, 1, 1);
        piece(one, 0, 1, 1 << 61, (1 << 61) - 1, 1, 1, 1);
        piece(one, 0, 1 << 61, 2, 1, 1, 1, 1);
        piece(&[], 0, 1, 1, 0, 1, 1, 1);
        piece(one, 0, 1, 2, 0, 2, 1, 2);
        piece(&[], 0, 0, 1, 0, 1, 0, 0);
        piece(one, 8, 1 << 61, TOP, (1 << 61) - 1, 1, 1, 1);
        piece(one, 0, TOP, 1, 0, 1, 1, 1);
        piece(one, 0, TOP, 1, 0, TOP, 0, 0);
        piece(one, 0, TOP, TOP, 0, TOP, 0, 0);
        piece(one, 0, TOP + 1, 1, 0, 1, 1, 1);
        piece(one, 0, 1, 1, 0, 1, TOP + 1, 1);
        // 18 and 20, 20 and 15, 15 and 1.
        piece(one, 0, 1, 1, TOP + 1, 1, 1, 1);
        piece(one, 0, 1, 1, 1, 1, 1, 2);
        piece(&[], 0, 1, 1, 0, 1, 1, 2);
        // Products of -0: each sum starts at +0, so none is -0. Of one row or column; with a NaN; of two rows and columns.
        let of = |values: &[f64]| -> Vec<u64> { values.iter().flat_map(|v| v.to_le_bytes()).map(|b| b as u64).collect() };
        let (rows, cols) = if name == "file_ata_piece" { (1, 2) } else { (2, 1) };
        for values in [[0.0, -1.0], [-0.0, 1.0], [-0.0, -0.0], [-0.0, f64::NAN]] {
            piece(&of(&values), 0, rows, cols, 0, 2, 2, 4);
        }
        piece(&of(&[-0.0, 0.0, 2.0, -3.0]), 0, 2, 2, 0, 2, 2, 4);
        piece(&of(&[-0.0, 2.0, 0.0, -3.0]), 0, 2, 2, 0, 2, 2, 4);
    }
    for v in [0.0, -0.0, 1.0, 2.0, 0.25, -1.0, f64::INFINITY, f64::NEG_INFINITY, f64::NAN, f64::MIN_POSITIVE, 5e-324, f64::MAX, 0.1, 1.5e-310, 3.0] {
        add("root_f64", vec![N(v.to_bits())]);
    }
    cases
}

/// What sorts cases of a call apart: the numbers that are flags, the file's mode, and which buffers are empty.
fn features(case: &Case) -> Vec<u64> {
    let of = |(i, arg): (usize, &Arg)| match arg {
        B(b) if i == 0 && b.len() > 3 && b[0] == 0x6c => b[2].min(2),
        N(n) if matches!(case.name(), "read_i8" | "read_f64") && (i == 3 || i == 7) => *n,
        N(n) if case.name() == "read_standardised_f64" && (i == 3 || i == 6) => *n,
        N(n) if case.name().starts_with("encode1") && i == 2 => *n,
        N(n) if case.name().starts_with("write") && (i == 3 || i == 4) => *n,
        N(n) if case.name().starts_with("impute") && (3..6).contains(&i) => *n,
        N(n) if case.name().contains("range") && (i == 1 || i == 3) => *n,
        N(n) if case.name() == "index_slice" && (i == 2 || i == 4) => (*n >> 63) | (*n == 0) as u64 * 2,
        _ => 0,
    };
    case.args.iter().enumerate().map(of).collect()
}

/// How long a case is: the digits of its call, its numbers, its buffers' lengths and elements, and a space between two.
fn size(case: &Case) -> usize {
    let digits = |n: u64| format!("{n:x}").len();
    let of = |arg: &Arg| match arg {
        N(n) => 1 + digits(*n),
        B(b) => 1 + digits(b.len() as u64) + b.iter().map(|&v| 1 + digits(v)).sum::<usize>(),
    };
    digits(case.call as u64 + 1) + case.args.iter().map(of).sum::<usize>()
}

/// The chosen cases, each once: those by hand, then of drawn ones the first of every sort.
pub fn cases(seed: u64, folder: &Folder) -> Vec<Case> {
    let mut all: BTreeMap<String, Case> = BTreeMap::new();
    let mut order = vec![];
    let mut put = |case: Case| {
        let line = case.line();
        if all.insert(line.clone(), case).is_none() {
            order.push(line);
        }
    };
    by_hand().into_iter().for_each(&mut put);
    for (i, (name, _)) in CALLS.iter().enumerate() {
        let mut rng = Rng(seed.wrapping_mul(1000).wrapping_add(i as u64));
        let mut sorts: BTreeMap<_, Case> = BTreeMap::new();
        for _ in 0..4000 {
            let case = draw(name, &mut rng);
            let small = case.args.iter().all(|a| matches!(a, N(_)) || matches!(a, B(b) if b.len() <= MOST));
            if !small {
                continue;
            }
            let want = want(&case, folder);
            if let Some(outcome) = &want.outcome {
                // A refusal once, an answer once for every sort.
                let sort = if outcome.number == 0 { features(&case) } else { vec![] };
                let length = size(&case);
                if length < 260 && (length >= 60 || CALLS[case.call].1.len() < 4) {
                    sorts.entry((outcome.number, want.named, sort)).or_insert(case);
                }
            }
        }
        sorts.into_values().for_each(&mut put);
    }
    order.iter().map(|line| all[line].clone()).collect()
}

/// Something else than an element of a kind: the last bit or the sign is another; for NaN a number.
fn other(kind: Kind, bits: u64) -> u64 {
    match kind {
        Kind::F64 if f64::from_bits(bits).is_nan() => 0,
        Kind::F64 if f64::from_bits(bits) == 0.0 => bits ^ 1 << 63,
        _ => bits ^ 1,
    }
}

/// Answers that are wrong in one thing: a field, an element, a buffer's length.
fn wrong(case: &Case, right: &Outcome) -> Vec<Outcome> {
    let mut all = vec![];
    let mut put = |change: &dyn Fn(&mut Outcome)| {
        let mut outcome = right.clone();
        change(&mut outcome);
        all.push(outcome);
    };
    put(&|o| o.number ^= 1);
    put(&|o| o.first ^= 1);
    put(&|o| o.second ^= 1);
    for (k, kind) in CALLS[case.call].1.iter().filter_map(|par| if let Par::Out(kind) = par { Some(*kind) } else { None }).enumerate() {
        let last = right.written[k].len() - 1;
        put(&|o| o.written[k][0] = other(kind, o.written[k][0]));
        put(&|o| o.written[k][last] = other(kind, o.written[k][last]));
        put(&|o| o.written[k].push(0));
        put(&|o| o.written[k].truncate(last));
        if kind == Kind::F64 {
            put(&|o| o.written[k][0] = if f64::from_bits(o.written[k][0]).is_nan() { 1 } else { NAN });
        }
    }
    all
}

/// Lines that must be reported as differing: of each call's shortest case by hand whose answer is done and in which no written buffer has fewer
/// than two places, the answers that are wrong in one thing; then wrong refusals of bad lists; then wrong thirds of records; then lines that break the
/// form.
fn controls(folder: &Folder) -> Vec<String> {
    let mut lines = vec![];
    for (name, _) in CALLS {
        let done = |case: Case| {
            let outcome = want(&case, folder).outcome.filter(|o| o.number == 0 && o.written.iter().all(|b| b.len() > 1))?;
            Some((case, outcome))
        };
        let all = by_hand().into_iter().filter(|case| case.name() == *name).filter_map(done);
        let (case, right) = all.min_by_key(|(case, _)| case.line().len()).expect("a case that is done");
        lines.extend(wrong(&case, &right).iter().map(|o| format!("2 {}|{}", case.line(), o.line())));
    }
    // Refusals of a file of mode 0: the marker list looked at first, a bad marker told as 5 and a bad animal as 6.
    for name in ["read_i8", "read_f64", "read_standardised_f64"] {
        for (iid, sid, number, entry) in [(5, 2, 6, 2), (5, 2, 5, 2), (0, 2, 5, 2), (5, 0, 6, 5)] {
            let is_it = |case: &Case| case.name() == name && case.bits(0) == F_BY_ANIMAL && case.bits(4) == [iid] && case.bits(5) == [sid];
            let case = by_hand().into_iter().find(is_it).expect("a case by hand");
            lines.push(format!("2 {}|{}", case.line(), case.unwritten(number, entry, 0).line()));
        }
    }
    // Thirds of records: for the count the animals, the mean; for a lent one the count; for those of two refused markers, of 13 and of 14, their counts.
    let (one, four) = (bits(&[0.0, 2.0, f64::NAN]), bits(&[0.0, 2.0, f64::NAN, f64::NAN, f64::NEG_INFINITY, f64::INFINITY, 2.0, 1.0]));
    for (val, use_stats, place, third) in [(&one, 0, 2, 3.0f64), (&one, 0, 2, 1.0), (&one, 1, 2, 2.0), (&four, 0, 5, 0.0), (&four, 0, 8, 2.0)] {
        let is_it = |case: &Case| case.name().starts_with("impute") && case.bits(0) == val && case.num(5) == use_stats;
        let case = by_hand().into_iter().find(is_it).expect("a case by hand");
        let mut wrong = want(&case, folder).outcome.expect("an answer");
        wrong.written[1][place] = third.to_bits();
        lines.push(format!("2 {}|{}", case.line(), wrong.line()));
    }
    // Call 2 of 4 and 1 is answered 0 1 0: a word too few or too many, a section too few or too many, no such call, a space too many, no digit, a
    // capital letter, more than 64 bits. A file of 65 bytes 9 is answered 2 0 0.
    let div = "2 2 4 1 0 0 0 0||||||||0 1 0||";
    let wrong = [
        ("0 0 0 0|", "0 0 0|"),
        ("0 0 0 0|", "0 0 0 0 0|"),
        ("|0 1 0|", "|0 1|"),
        ("|0 1 0|", "|0 1 0 0|"),
        ("0 1 0||", "0 1 0|"),
        ("0 1 0||", "0 1 0|||"),
        ("2 2 4", "2 0 4"),
        ("2 2 4", "2 17 4"),
        ("|0 1 0", "|0  1 0"),
        ("|0 1 0", "|0 1 0 "),
        ("|0 1 0", "|0 1 g"),
        ("2 2 4", "2 2 G4"),
        ("|0 1 0", "|0 10000000000000001 0"),
    ];
    lines.extend(wrong.iter().map(|(right, wrong)| div.replacen(right, wrong, 1)));
    lines.push(format!("2 1 0 0 0 0 0 0|{}|||||||2 0 0||", vec!["9"; MOST + 1].join(" ")));
    lines
}

pub fn print(seed: u64, folder: &Folder) {
    println!("# Answers of the original's own lines, for the program `replay`. The original (bed-reader at commit 0128fc7557) as published");
    println!(
        "# was not run: its kept functions, cut unchanged out of its source, were compiled over small stand-ins for the crates that could not be"
    );
    println!("# had, and run on one thread. What indexing, views, strides and iteration order give is the stand-ins'. tools/differential says how.");
    println!("# Made by: differential list seed={seed}. A line is a case, in hexadecimal words: whose answer it is (0 the original's; 1 document 01's or 02's, at a");
    println!("# difference that docs/DIFFERENCES.md names), the call, its parameters, the answer. The third number of a statistics record, which the original");
    println!("# has not, is document 02's. tools/differential/README.md has the form.");
    for case in cases(seed, folder) {
        let want = want(&case, folder);
        if let Some(outcome) = want.outcome {
            println!("{} {}|{}", want.named.is_some() as u8, case.line(), outcome.line());
        }
    }
    println!("# Controls: lines whose first word is 2 are wrong on purpose, each in one thing. A program that does not find that they differ compares nothing.");
    controls(folder).iter().for_each(|line| println!("{line}"));
}

/// The cases by hand at which document 01 or 02 names a difference, with what the original did.
pub fn rows(folder: &Folder) {
    for case in by_hand() {
        let want = want(&case, folder);
        if let (Some(name), Some(outcome)) = (want.named, want.outcome) {
            println!("{}: {name}; the original: {}; wanted: {}; {}", case.name(), want.did, outcome.number, case.line());
        }
    }
}

/// A stored list, read back: each line's case and what stands for its answer.
fn parse(line: &str) -> Option<(Case, String)> {
    let word = |w: &str| u64::from_str_radix(w, 16).ok().filter(|n| format!("{n:x}") == w);
    let section = |s: &str| if s.is_empty() { Some(vec![]) } else { s.split(' ').map(word).collect::<Option<Vec<u64>>>() };
    let sections: Vec<Vec<u64>> = line.split('|').map(section).collect::<Option<_>>()?;
    if sections.len() != 11 || sections[0].len() != 8 || sections[8].len() != 3 || sections.iter().any(|s| s.len() > MOST) {
        return None;
    }
    let call = (sections[0][1] as usize).checked_sub(1)?;
    let pars = CALLS.get(call)?.1;
    let mut numbers = sections[0][2..].iter();
    let of = |(par, section): (&Par, usize)| match par {
        Par::Num => numbers.next().map(|&n| N(n)),
        _ => Some(B(sections[section].clone())),
    };
    let args = pars.iter().zip(Case::sections(call)).map(of).collect::<Option<_>>()?;
    let answer = line.split('|').skip(8).collect::<Vec<&str>>().join("|");
    Some((Case::new(CALLS[call].0, args), answer))
}

/// Runs a stored list against the library. Answers how many lines differ, and how many controls do not.
pub fn check(text: &str) -> u64 {
    let (mut same, mut different, mut controls, mut missed) = (0, 0, 0, 0);
    for line in text.lines().filter(|line| !line.starts_with('#')) {
        // What the library answers, if the line has the form, and whether it is what the line says.
        let got = parse(line).map(|(case, answer)| (crate::library::run(&case).line(), answer));
        let agrees = got.as_ref().is_some_and(|(got, answer)| got == answer);
        match (line.starts_with("2 "), agrees) {
            (false, true) => same += 1,
            (false, false) => {
                different += 1;
                println!("DIFFERENT: {line}\n    library: {}", got.map_or("no case".to_string(), |g| g.0));
            }
            (true, false) => controls += 1,
            (true, true) => {
                missed += 1;
                println!("A CONTROL THAT AGREES: {line}");
            }
        }
    }
    println!("the stored list: {same} lines agree, {different} differ; of the controls {controls} differ, {missed} agree");
    different + missed
}
