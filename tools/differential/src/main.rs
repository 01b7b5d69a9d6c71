//! Runs the original's own lines and the library side by side on drawn inputs (README.md).
mod case;
mod draw;
mod library;
mod list;
mod original;
mod plink;
mod short;
mod shown;
mod want;

use case::*;
use draw::Rng;
use std::collections::BTreeMap;
use want::{Did, Folder};

/// What was seen of one call.
#[derive(Default)]
struct Seen {
    cases: u64,
    /// The library's number, and by whom it was compared: the original, or document 01 or 02 at a named difference.
    numbers: BTreeMap<u64, (u64, u64)>,
    named: BTreeMap<&'static str, (u64, BTreeMap<Did, u64>, String)>,
    panicked: (u64, String),
    different: (u64, String),
    /// The shortest case that differs.
    least: Option<Case>,
}

/// The numbers that documents 01 and 02 let a call give, and that an input can meet. The canonical call's second 4 needs a longer file than can be lent. 14
/// is a lent matrix's alone: the joined call never gives it.
fn numbers(name: &str) -> &'static [u64] {
    match name {
        "open_and_check" => &[0, 1, 2],
        "try_div_4" => &[0, 4, 18],
        "byte_span" => &[0, 5, 18],
        "to_range" => &[0, 12, 18],
        "read_i8" | "read_f64" => &[0, 1, 2, 3, 4, 5, 6, 15, 18],
        "encode1_i8" | "encode1_f64" => &[0, 7, 16],
        "write_i8" | "write_f64" => &[0, 4, 7, 15, 16, 18],
        "canonical" => &[0, 1, 2, 3, 4, 16, 18],
        "impute_and_zero_mean_snps_f64" => &[0, 13, 14, 15, 17, 18],
        "read_standardised_f64" => &[0, 1, 2, 3, 4, 5, 6, 13, 15, 17, 18],
        "index_all" | "index_one" | "index_vec" => &[0, 18, 19],
        "index_bool" => &[0, 8, 18, 19],
        "index_range" => &[0, 12, 18, 19],
        "index_slice" => &[0, 9, 10, 11, 18, 19],
        "file_ata_piece" | "file_aat_piece" => &[0, 1, 15, 18, 20],
        _ => &[0],
    }
}

/// The shorter line, and of two as long the lesser.
fn keep_least(least: &mut String, line: String) {
    if least.is_empty() || (line.len(), &line) < (least.len(), &*least) {
        *least = line;
    }
}

fn judge(seen: &mut Seen, case: &Case, folder: &Folder) {
    let want = want::want(case, folder);
    let got = library::run(case);
    seen.cases += 1;
    if let Some(name) = want.named {
        let entry = seen.named.entry(name).or_default();
        entry.0 += 1;
        *entry.1.entry(want.did).or_default() += 1;
        keep_least(&mut entry.2, case.line());
    }
    match want.outcome {
        None => {
            seen.panicked.0 += 1;
            keep_least(&mut seen.panicked.1, case.line());
        }
        Some(outcome) if outcome == got => {
            let entry = seen.numbers.entry(got.number).or_default();
            match want.named {
                None => entry.0 += 1,
                Some(_) => entry.1 += 1,
            }
        }
        Some(_) => {
            seen.different.0 += 1;
            if seen.least.as_ref().is_none_or(|least| case.line().len() < least.line().len()) {
                seen.least = Some(case.clone());
            }
        }
    }
}

/// The case and both answers, if they differ.
fn differs(case: &Case, folder: &Folder) -> Option<String> {
    let (want, got) = (want::want(case, folder).outcome?, library::run(case));
    (want != got).then(|| format!("{}\n    wanted: {}\n    library: {}", case.line(), want.line(), got.line()))
}

/// Makes a case that differs smaller, one number or element at a time, as long as it still differs.
fn shrink(mut case: Case, folder: &Folder) -> String {
    let mut text = differs(&case, folder).expect("a case that differs");
    'again: loop {
        for smaller in case.smaller() {
            if let Some(found) = differs(&smaller, folder) {
                (case, text) = (smaller, found);
                continue 'again;
            }
        }
        return text;
    }
}

fn print(name: &str, seen: &Seen) {
    println!("{name}: {} cases", seen.cases);
    for (number, (original, document)) in &seen.numbers {
        let number = if *number == 0 { "done".to_string() } else { format!("{number:4}") };
        println!("    {number}  {original:9} as the original  {document:9} at a named difference");
    }
    for (name, (count, did, least)) in &seen.named {
        let did: Vec<String> = did.iter().map(|(did, n)| format!("{did} {n}")).collect();
        println!("    named: {name}: {count} (the original: {}); least: {least}", did.join(", "));
    }
    if seen.panicked.0 > 0 {
        println!("    the original panicked, so outside the domain: {}; least: {}", seen.panicked.0, seen.panicked.1);
    }
    if seen.different.0 > 0 {
        println!("    DIFFERENT: {}; least: {}", seen.different.0, seen.different.1);
    }
}

fn roots(seen: &mut Seen, rng: &mut Rng, draws: u64) {
    for _ in 0..draws {
        let bits = draw::root_draw(rng);
        let v = f64::from_bits(bits);
        let (got, want) = (alike(library::root(v).to_bits()), alike(v.sqrt().to_bits()));
        seen.cases += 1;
        if got == want {
            seen.numbers.entry(0).or_default().0 += 1;
        } else {
            seen.different.0 += 1;
            keep_least(&mut seen.different.1, format!("{bits:x}: wanted {want:x}, library {got:x}"));
        }
    }
}

/// The words of the command line, `key=value` or `key`.
struct Words(BTreeMap<String, String>);

impl Words {
    fn read() -> Words {
        const KNOWN: &[&str] = &["seed", "draws", "roots", "call", "dir", "list", "check", "plink", "files", "threads", "times", "shapes", "rows"];
        let mut words = BTreeMap::new();
        for word in std::env::args().skip(1) {
            let (key, value) = word.split_once('=').unwrap_or((&word, ""));
            assert!(KNOWN.contains(&key), "no such word: {key}");
            words.insert(key.into(), value.into());
        }
        Words(words)
    }

    fn get(&self, key: &str) -> Option<&str> {
        self.0.get(key).map(|v| v.as_str())
    }

    fn number(&self, key: &str, or: u64) -> u64 {
        self.get(key).map_or(or, |v| v.parse().unwrap_or_else(|_| panic!("{key}={v} is not a number")))
    }
}

/// Compares every call. Answers how many differ.
fn compare(words: &Words, seed: u64, folder: &Folder) -> u64 {
    let (draws, root_draws) = (words.number("draws", 100_000), words.number("roots", 20_000_000));
    println!("the original: {}, cut out of its source", env!("CUT"));
    println!("seed {seed}, {draws} draws for each call and {} long ones, {root_draws} for the root", draws / 50);
    let mut different = 0;
    for (i, (name, _)) in CALLS.iter().enumerate() {
        if words.get("call").is_some_and(|only| only != *name) {
            continue;
        }
        let mut rng = Rng(seed.wrapping_mul(1000).wrapping_add(i as u64));
        let mut seen = Seen::default();
        list::by_hand().iter().filter(|case| case.name() == *name).for_each(|case| judge(&mut seen, case, folder));
        short::each(name, &mut |case| judge(&mut seen, &case, folder));
        if *name == "root_f64" {
            roots(&mut seen, &mut rng, root_draws);
        } else {
            (0..draws).for_each(|_| judge(&mut seen, &draw::draw(name, &mut rng), folder));
            (0..draws / 50).for_each(|_| judge(&mut seen, &draw::long(name, &mut rng), folder));
        }
        if let Some(least) = seen.least.take() {
            seen.different.1 = shrink(least, folder);
        }
        print(name, &seen);
        different += seen.different.0;
        for never in numbers(name).iter().filter(|n| !seen.numbers.contains_key(n)) {
            println!("    NEVER seen to agree: {never}");
            different += 1;
        }
    }
    println!("{}", if different == 0 { "no difference but the named ones" } else { "DIFFERENT" });
    different
}

fn main() {
    let words = Words::read();
    // One thread makes the original's choice among several errors repeatable.
    std::env::set_var("RAYON_NUM_THREADS", words.get("threads").unwrap_or("1"));
    let loud = std::panic::take_hook();
    std::panic::set_hook(Box::new(move |info| {
        if !want::is_asking() {
            loud(info)
        }
    }));
    let seed = words.number("seed", 1);
    let dir = words.get("dir").map_or_else(std::env::temp_dir, std::path::PathBuf::from);
    let named = |end: &str| dir.join(format!("differential-{}.{end}", std::process::id()));
    let folder = Folder { file: named("in"), out: named("out") };
    let different = if words.get("list").is_some() {
        list::print(seed, &folder);
        0
    } else if words.get("threads").is_some() {
        shown::threads(words.number("threads", 1) as usize, words.number("times", 10_000), &folder);
        0
    } else if words.get("rows").is_some() {
        list::rows(&folder);
        0
    } else if words.get("shapes").is_some() {
        shown::shapes(&folder);
        0
    } else if let Some(file) = words.get("check") {
        list::check(&std::fs::read_to_string(file).expect("the stored list"))
    } else if let Some(program) = words.get("plink") {
        plink::compare(program, words.number("files", 300), seed, &dir)
    } else {
        compare(&words, seed, &folder)
    };
    let _ = std::fs::remove_file(&folder.file);
    let _ = std::fs::remove_file(&folder.out);
    std::process::exit((different > 0) as i32);
}
