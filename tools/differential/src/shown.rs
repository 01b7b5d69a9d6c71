//! What the original does where the C interface has no such input: arrays of another shape than the lists, and several threads. Only rayon's part
//! of it is then parallel: the stand-ins are not.
use crate::case::*;
use crate::original::*;
use crate::want::{guarded, Folder};
use std::collections::BTreeMap;
use std::fs;

fn count(name: &str, times: u64, mut f: impl FnMut() -> String) {
    let mut answers: BTreeMap<String, u64> = BTreeMap::new();
    for _ in 0..times {
        *answers.entry(f()).or_default() += 1;
    }
    println!("{name}:");
    answers.iter().for_each(|(answer, n)| println!("    {n} times {answer}"));
}

fn text(s: Said) -> String {
    match s.number {
        5 | 6 => format!("{}, which carries {}", s.number, s.first),
        n => n.to_string(),
    }
}

pub fn threads(threads: usize, times: u64, folder: &Folder) {
    THREADS.store(threads, std::sync::atomic::Ordering::Relaxed);
    println!("the original with {threads} threads, each input {times} times");
    fs::write(&folder.file, [0x6c, 0x1b, 1, 0xe4, 0, 0x2f, 2]).unwrap();
    let reading = |iid_index: &[i64], sid_index: &[i64]| {
        let shape = (iid_index.len(), sid_index.len());
        let mut val = vec![9i8; shape.0 * shape.1];
        let r = Reading { iid_count: 5, sid_count: 2, is_a1_counted: true, iid_index, sid_index, animal_order: false, shape };
        let said = ask_read(&folder.file, &r, -127, &mut val);
        let columns: Vec<usize> = (0..shape.1).filter(|&j| val[j * shape.0..][..shape.0].iter().any(|&v| v != 9)).collect();
        format!("{}; columns written: {columns:?}", text(said))
    };
    count("reading F, animals [5, 6], markers [0]", times, || reading(&[5, 6], &[0]));
    count("reading F, animals [0], markers [2, 3]", times, || reading(&[0], &[2, 3]));
    let bad: Vec<i64> = (2..66).collect();
    count("reading F, animals [0], markers [2, 3, 4 and so on up to 65]", times, || reading(&[0], &bad));
    count("reading F, animals [0], markers [0, 2, 1]", times, || reading(&[0], &[0, 2, 1]));
    for (order, animal_order) in [("marker", false), ("animal", true)] {
        count(&format!("standardising in {order} order, a marker of infinities of both signs and 63 of NaN"), times, || {
            let mut val = [f64::NAN; 128];
            val[0] = f64::INFINITY;
            val[if animal_order { 64 } else { 1 }] = f64::NEG_INFINITY;
            text(ask_impute(&mut val, (2, 64), animal_order, true, false, &mut [0.5; 128], 64))
        });
    }
    count("packing 0 1 2 2 0 3 1", times, || {
        let mut out = [0xee; 2];
        let said = ask_encode(&[0i8, 1, 2, 2, 0, 3, 1], &mut out, true, -127);
        format!("{}; bytes {:x?}", text(said), u8_bits(&out))
    });
}

fn shown<R>(f: impl FnOnce() -> R, text: impl FnOnce(R) -> String) -> String {
    guarded(f).map_or("panics".to_string(), text)
}

pub fn shapes(folder: &Folder) {
    fs::write(&folder.file, [0x6c, 0x1b, 1, 0xe4, 0, 0x2f, 2]).unwrap();
    for (iids, sids, shape) in [(2, 1, (2, 0)), (2, 2, (2, 1)), (2, 1, (2, 2)), (2, 1, (1, 1)), (2, 1, (3, 1))] {
        let lists: [Vec<i64>; 2] = [(0..iids).collect(), (0..sids).collect()];
        let mut val = vec![9i8; shape.0 * shape.1];
        let r = Reading { iid_count: 5, sid_count: 2, is_a1_counted: true, iid_index: &lists[0], sid_index: &lists[1], animal_order: false, shape };
        let said = shown(|| ask_read(&folder.file, &r, -127, &mut val), text);
        println!("reading F, {iids} animals and {sids} markers into an array of {shape:?}: {said}, {val:?}");
    }
    for (markers, records) in [(2, 1), (2, 3)] {
        for choice in 0..8 {
            let (animal_order, apply, lent) = (choice & 1 == 1, choice & 2 == 2, choice & 4 == 4);
            let mut val = [0.0, 2.0, 2.0, 0.0];
            let mut stats = [0.5, 2.0, 0.5, 2.0, 0.5, 2.0];
            let (val, stats) = (&mut val[..2 * markers], &mut stats[..2 * records]);
            let said = shown(|| ask_impute(val, (2, markers), animal_order, apply, lent, stats, records), text);
            let order = if animal_order { "animal" } else { "marker" };
            println!("standardising {markers} markers with statistics for {records}, {order} order, applied {apply}, lent {lent}: {said}, {val:?}, {stats:?}");
        }
    }
    // One row and one column in a file that is long enough.
    fs::write(&folder.file, 1.5f64.to_le_bytes()).unwrap();
    let file = folder.file.clone();
    let (tell, told) = std::sync::mpsc::channel();
    std::thread::spawn(move || {
        let piece = Piece { offset: 0, row_count: 1, col_count: 1, start: 0, shape: (1, 0) };
        let _ = tell.send(ask_piece(&file, true, &piece, &mut []));
    });
    let said = told.recv_timeout(std::time::Duration::from_secs(20)).map_or("not back after 20 seconds".to_string(), text);
    println!("A'A of width 0: {said}");
}
