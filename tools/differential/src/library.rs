//! The library, through its C interface.
use crate::case::*;

#[repr(C)]
struct BedAnswer {
    number: u64,
    first: i64,
    second: i64,
}

extern "C" {
    fn bed_open_and_check(file: *const u8, file_len: usize) -> BedAnswer;
    fn bed_try_div_4(in_iid_count: usize, in_sid_count: usize) -> BedAnswer;
    fn bed_byte_span(count: usize, index: *const i64, index_len: usize) -> BedAnswer;
    fn bed_to_range(count: usize, has_start: bool, start: usize, has_end: bool, end: usize) -> BedAnswer;
    fn bed_read_i8(
        file: *const u8, file_len: usize, iid_count: usize, sid_count: usize, is_a1_counted: bool, iid_index: *const i64, iid_len: usize,
        sid_index: *const i64, sid_len: usize, missing_value: i8, animal_order: bool, val: *mut i8, val_len: usize,
    ) -> BedAnswer;
    fn bed_read_f64(
        file: *const u8, file_len: usize, iid_count: usize, sid_count: usize, is_a1_counted: bool, iid_index: *const i64, iid_len: usize,
        sid_index: *const i64, sid_len: usize, missing_value: f64, animal_order: bool, val: *mut f64, val_len: usize,
    ) -> BedAnswer;
    fn bed_encode1_i8(input: *const i8, in_len: usize, out: *mut u8, out_len: usize, is_a1_counted: bool, missing: i8) -> BedAnswer;
    fn bed_encode1_f64(input: *const f64, in_len: usize, out: *mut u8, out_len: usize, is_a1_counted: bool, missing: f64) -> BedAnswer;
    fn bed_write_i8(
        val: *const i8, val_len: usize, iid_count: usize, sid_count: usize, animal_order: bool, is_a1_counted: bool, missing: i8, out: *mut u8,
        out_len: usize,
    ) -> BedAnswer;
    fn bed_write_f64(
        val: *const f64, val_len: usize, iid_count: usize, sid_count: usize, animal_order: bool, is_a1_counted: bool, missing: f64, out: *mut u8,
        out_len: usize,
    ) -> BedAnswer;
    fn bed_canonical(file: *const u8, file_len: usize, iid_count: usize, sid_count: usize, out: *mut u8, out_len: usize) -> BedAnswer;
    fn bed_impute_and_zero_mean_snps_f64(
        val: *mut f64, val_len: usize, iid_count: usize, sid_count: usize, animal_order: bool, apply_in_place: bool, use_stats: bool,
        stats: *mut f64, stats_len: usize,
    ) -> BedAnswer;
    fn bed_read_standardised_f64(
        file: *const u8, file_len: usize, iid_count: usize, sid_count: usize, is_a1_counted: bool, iid_index: *const i64, iid_len: usize,
        sid_index: *const i64, sid_len: usize, animal_order: bool, val: *mut f64, val_len: usize, stats: *mut f64, stats_len: usize,
    ) -> BedAnswer;
    fn bed_index_all(count: usize, list: *mut i64, list_len: usize) -> BedAnswer;
    fn bed_index_one(count: usize, one: i64, list: *mut i64, list_len: usize) -> BedAnswer;
    fn bed_index_vec(count: usize, vec: *const i64, vec_len: usize, list: *mut i64, list_len: usize) -> BedAnswer;
    fn bed_index_bool(count: usize, marks: *const u8, marks_len: usize, list: *mut i64, list_len: usize) -> BedAnswer;
    fn bed_index_range(count: usize, has_start: bool, start: usize, has_end: bool, end: usize, list: *mut i64, list_len: usize) -> BedAnswer;
    fn bed_index_slice(count: usize, start: i64, has_end: bool, end: i64, step: i64, list: *mut i64, list_len: usize) -> BedAnswer;
    fn bed_file_ata_piece(
        bytes: *const u8, bytes_len: usize, offset: u64, row_count: usize, col_count: usize, col_start: usize, height: usize, width: usize,
        piece: *mut f64, piece_len: usize,
    ) -> BedAnswer;
    fn bed_file_aat_piece(
        bytes: *const u8, bytes_len: usize, offset: u64, row_count: usize, col_count: usize, row_start: usize, height: usize, width: usize,
        piece: *mut f64, piece_len: usize,
    ) -> BedAnswer;
    fn bed_root_f64(variance: f64) -> f64;
}

pub fn root(variance: f64) -> f64 {
    unsafe { bed_root_f64(variance) }
}

/// Where values are lent; none are lent as null, which the interface allows.
fn at<T>(values: &[T]) -> *const T {
    if values.is_empty() {
        std::ptr::null()
    } else {
        values.as_ptr()
    }
}

/// Lends the values between two elements that must not change.
fn lend<T: Copy + PartialEq, R>(values: &mut Vec<T>, edge: T, f: impl FnOnce(*mut T, usize) -> R) -> R {
    let n = values.len();
    if n == 0 {
        return f(std::ptr::null_mut(), 0);
    }
    values.insert(0, edge);
    values.push(edge);
    let r = f(unsafe { values.as_mut_ptr().add(1) }, n);
    assert!(values[0] == edge && values[n + 1] == edge, "written outside the buffer");
    values.pop();
    values.remove(0);
    r
}

pub fn run(c: &Case) -> Outcome {
    let n = |i: usize| c.num(i) as usize;
    let s = |i: usize| c.num(i) as i64;
    let f = |i: usize| c.flag(i);
    let mut written = vec![];
    let name = c.name();
    let a = unsafe {
        match name {
            "open_and_check" => {
                let file = c.u8s(0);
                bed_open_and_check(at(&file), file.len())
            }
            "try_div_4" => bed_try_div_4(n(0), n(1)),
            "byte_span" => {
                let list = c.i64s(1);
                bed_byte_span(n(0), at(&list), list.len())
            }
            "to_range" => bed_to_range(n(0), f(1), n(2), f(3), n(4)),
            "read_i8" => {
                let (file, iid, sid, mut val) = (c.u8s(0), c.i64s(4), c.i64s(5), c.i8s(8));
                let a = lend(&mut val, 0x5a, |p, k| {
                    bed_read_i8(at(&file), file.len(), n(1), n(2), f(3), at(&iid), iid.len(), at(&sid), sid.len(), c.num(6) as i8, f(7), p, k)
                });
                written.push(i8_bits(&val));
                a
            }
            "read_f64" => {
                let (file, iid, sid, mut val) = (c.u8s(0), c.i64s(4), c.i64s(5), c.f64s(8));
                let a = lend(&mut val, 0.25, |p, k| {
                    bed_read_f64(
                        at(&file),
                        file.len(),
                        n(1),
                        n(2),
                        f(3),
                        at(&iid),
                        iid.len(),
                        at(&sid),
                        sid.len(),
                        f64::from_bits(c.num(6)),
                        f(7),
                        p,
                        k,
                    )
                });
                written.push(f64_bits(&val));
                a
            }
            "encode1_i8" => {
                let (input, mut out) = (c.i8s(0), c.u8s(1));
                let a = lend(&mut out, 0x5a, |p, k| bed_encode1_i8(at(&input), input.len(), p, k, f(2), c.num(3) as i8));
                written.push(u8_bits(&out));
                a
            }
            "encode1_f64" => {
                let (input, mut out) = (c.f64s(0), c.u8s(1));
                let a = lend(&mut out, 0x5a, |p, k| bed_encode1_f64(at(&input), input.len(), p, k, f(2), f64::from_bits(c.num(3))));
                written.push(u8_bits(&out));
                a
            }
            "write_i8" => {
                let (val, mut out) = (c.i8s(0), c.u8s(6));
                let a = lend(&mut out, 0x5a, |p, k| bed_write_i8(at(&val), val.len(), n(1), n(2), f(3), f(4), c.num(5) as i8, p, k));
                written.push(u8_bits(&out));
                a
            }
            "write_f64" => {
                let (val, mut out) = (c.f64s(0), c.u8s(6));
                let a = lend(&mut out, 0x5a, |p, k| bed_write_f64(at(&val), val.len(), n(1), n(2), f(3), f(4), f64::from_bits(c.num(5)), p, k));
                written.push(u8_bits(&out));
                a
            }
            "canonical" => {
                let (file, mut out) = (c.u8s(0), c.u8s(3));
                let a = lend(&mut out, 0x5a, |p, k| bed_canonical(at(&file), file.len(), n(1), n(2), p, k));
                written.push(u8_bits(&out));
                a
            }
            "impute_and_zero_mean_snps_f64" => {
                let (mut val, mut stats) = (c.f64s(0), c.f64s(6));
                let a = lend(&mut val, 0.25, |v, vk| {
                    lend(&mut stats, 0.25, |p, k| bed_impute_and_zero_mean_snps_f64(v, vk, n(1), n(2), f(3), f(4), f(5), p, k))
                });
                written.push(f64_bits(&val));
                written.push(f64_bits(&stats));
                a
            }
            "read_standardised_f64" => {
                let (file, iid, sid, mut val, mut stats) = (c.u8s(0), c.i64s(4), c.i64s(5), c.f64s(7), c.f64s(8));
                let a = lend(&mut val, 0.25, |v, vk| {
                    lend(&mut stats, 0.25, |p, k| {
                        bed_read_standardised_f64(
                            at(&file),
                            file.len(),
                            n(1),
                            n(2),
                            f(3),
                            at(&iid),
                            iid.len(),
                            at(&sid),
                            sid.len(),
                            f(6),
                            v,
                            vk,
                            p,
                            k,
                        )
                    })
                });
                written.push(f64_bits(&val));
                written.push(f64_bits(&stats));
                a
            }
            "root_f64" => BedAnswer { number: 0, first: alike(root(f64::from_bits(c.num(0))).to_bits()) as i64, second: 0 },
            "file_ata_piece" | "file_aat_piece" => {
                let (bytes, mut piece) = (c.u8s(0), c.f64s(7));
                let call = if name == "file_ata_piece" { bed_file_ata_piece } else { bed_file_aat_piece };
                let a = lend(&mut piece, 0.25, |p, k| call(at(&bytes), bytes.len(), c.num(1), n(2), n(3), n(4), n(5), n(6), p, k));
                written.push(f64_bits(&piece));
                a
            }
            _ => {
                let mut list = c.i64s(c.args.len() - 1);
                let a = lend(&mut list, 0x5a5a, |p, k| match name {
                    "index_all" => bed_index_all(n(0), p, k),
                    "index_one" => bed_index_one(n(0), s(1), p, k),
                    "index_vec" => {
                        let vec = c.i64s(1);
                        bed_index_vec(n(0), at(&vec), vec.len(), p, k)
                    }
                    "index_bool" => {
                        let marks = c.u8s(1);
                        bed_index_bool(n(0), at(&marks), marks.len(), p, k)
                    }
                    "index_range" => bed_index_range(n(0), f(1), n(2), f(3), n(4), p, k),
                    "index_slice" => bed_index_slice(n(0), s(1), f(2), s(3), s(4), p, k),
                    _ => panic!("no call {name}"),
                });
                written.push(i64_bits(&list));
                a
            }
        }
    };
    Outcome { number: a.number, first: a.first, second: a.second, written }
}
