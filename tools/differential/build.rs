//! Cuts the kept items, unchanged, out of the original's source (environment: ORIGINAL) into the build folder, and says where
//! the library to compare with is (environment: LIBRARY).
use std::{env, fs, path::Path};

/// How each kept item begins. A name ends at the first character that is not shown here.
const KEPT: &[&str] = &[
    "const BED_FILE_MAGIC1",
    "const BED_FILE_MAGIC2",
    "const CB_HEADER_U64",
    "const CB_HEADER_USIZE",
    "pub enum BedErrorPlus",
    "pub enum BedError",
    "pub trait BedVal",
    "impl<T> BedVal for T",
    "fn create_pool",
    "fn read_no_alloc",
    "fn path_ref_to_string",
    "impl From<BedError> for Box<BedErrorPlus>",
    "impl From<std::io::Error> for Box<BedErrorPlus>",
    "impl From<ThreadPoolBuildError> for Box<BedErrorPlus>",
    "fn open_and_check",
    "pub trait Missing",
    "impl Missing for f64",
    "impl Missing for i8",
    "fn try_div_4",
    "fn internal_read_no_alloc",
    "type Array1Usize",
    "type Array1U8",
    "fn check_and_precompute_iid_index",
    "fn set_up_two_bits_to_value",
    "fn write_val",
    "fn write_internal",
    "fn encode1",
    "fn encode_genotype_chunk",
    "fn process_genomic_slice",
    "enum Dist",
    "fn impute_and_zero_mean_snps",
    "fn find_factor",
    "fn process_sid",
    "fn process_all_iids",
    "fn read_into_f64",
    "fn file_ata_piece",
    "fn file_ata_piece_internal",
    "fn col_product",
    "fn file_aat_piece",
    "impl Index", // both blocks of it
    "pub type SliceInfo1",
    "pub enum Index",
    "pub struct RangeAny",
    "impl RangeAny",
    "pub struct RangeNdSlice",
    "impl RangeNdSlice",
];

/// Items that stand twice in the source under the same beginning.
const TWICE: &[&str] = &["impl Index"];

/// Words before `::` that may stand in the kept items.
const ROOTS: &str = "Array1 BedError BedErrorPlus Beta Bound Box BufReader BufWriter clippy collect Dist f64 File fs Index io mem nd ndarray Ok \
    Ordering PathBuf RangeNdSlice rayon read_f64_into SeekFrom size_of SliceInfoElem std T ThreadPoolBuilder TVal u64 usize Vec Zip";

/// Words that may not stand in them.
const FOREIGN: &str = "unsafe extern mod use include env process net asm async await cloud url";

/// The text with comments, strings and character constants blanked, byte for byte as long.
fn bare(text: &str) -> Vec<u8> {
    let t = text.as_bytes();
    let mut out = t.to_vec();
    let mut i = 0;
    let blank = |out: &mut Vec<u8>, a: usize, b: usize| {
        (a..b).for_each(|k| {
            if out[k] != b'\n' {
                out[k] = b' '
            }
        })
    };
    while i < t.len() {
        let end = match t[i] {
            b'/' if t[i + 1..].starts_with(b"/") => i + t[i..].iter().position(|&c| c == b'\n').unwrap_or(t.len() - i),
            b'/' if t[i + 1..].starts_with(b"*") => i + 2 + text[i + 2..].find("*/").expect("a comment that ends") + 2,
            b'"' => {
                let mut k = i + 1;
                while t[k] != b'"' {
                    k += if t[k] == b'\\' { 2 } else { 1 };
                }
                k + 1
            }
            b'\'' if t[i + 1] == b'\\' => i + 2 + text[i + 2..].find('\'').expect("a character that ends") + 1,
            b'\'' if t.get(i + 2) == Some(&b'\'') => i + 3,
            _ => {
                i += 1;
                continue;
            }
        };
        blank(&mut out, i, end);
        i = end;
    }
    out
}

fn is_word(c: u8) -> bool {
    c.is_ascii_alphanumeric() || c == b'_'
}

/// Where an item that begins at `from` ends: at the `;` or the closing brace at depth 0.
fn end_of(bare: &[u8], from: usize) -> usize {
    let mut depth = 0;
    for (i, c) in bare.iter().enumerate().skip(from) {
        match c {
            b'{' | b'(' | b'[' => depth += 1,
            b'}' | b')' | b']' => depth -= 1,
            _ => {}
        }
        if depth == 0 && (*c == b';' || *c == b'}') {
            return i + 1;
        }
    }
    panic!("an item that does not end")
}

fn main() {
    println!("cargo:rerun-if-env-changed=ORIGINAL");
    println!("cargo:rerun-if-env-changed=LIBRARY");
    let original = env::var("ORIGINAL").expect("ORIGINAL: the path of the original's lib.rs");
    let library = env::var("LIBRARY").expect("LIBRARY: the path of libmungkelas.a");
    println!("cargo:rerun-if-changed={original}");
    println!("cargo:rerun-if-changed={library}");
    let text = fs::read_to_string(&original).expect("the original's source");
    let bare = bare(&text);

    // Line starts, and for each kept item the lines from its attributes to its end.
    let starts: Vec<usize> = std::iter::once(0).chain(text.match_indices('\n').map(|(i, _)| i + 1)).collect();
    let mut pieces: Vec<(usize, usize)> = vec![];
    for kept in KEPT {
        let found: Vec<usize> = (0..starts.len())
            .filter(|&k| {
                let line = &text[starts[k]..];
                line.starts_with(kept) && !is_word(line.as_bytes()[kept.len()]) && bare[starts[k]] != b' '
            })
            .collect();
        let wanted = if TWICE.contains(kept) { 2 } else { 1 };
        assert_eq!(found.len(), wanted, "{kept}: found at {} places", found.len());
        for line in found {
            let mut first = line;
            while text[starts[first - 1]..].starts_with("#[") {
                first -= 1;
            }
            pieces.push((starts[first], end_of(&bare, starts[line])));
        }
    }
    pieces.sort();
    assert!(pieces.windows(2).all(|p| p[0].1 <= p[1].0), "items that overlap");

    // Nothing foreign: every word is looked at.
    for &(from, to) in &pieces {
        let mut i = from;
        while i < to {
            if is_word(bare[i]) {
                let k = (i..to).find(|&k| !is_word(bare[k])).unwrap_or(to);
                let word = &text[i..k];
                assert!(FOREIGN.split(' ').all(|foreign| foreign != word), "foreign word in a kept item: {word}");
                if bare[k..to].starts_with(b"::") {
                    assert!(ROOTS.split(' ').any(|root| root == word), "foreign path in a kept item: {word}::");
                }
                i = k;
            } else {
                i += 1;
            }
        }
    }

    let cut: String = pieces.iter().map(|&(from, to)| format!("{}\n\n", &text[from..to])).collect();
    let out = env::var("OUT_DIR").unwrap();
    fs::write(Path::new(&out).join("original.rs"), &cut).unwrap();
    let (items, lines) = (pieces.len(), pieces.iter().map(|&(from, to)| text[from..to].lines().count()).sum::<usize>());
    println!("cargo:rustc-env=CUT={items} items, {lines} lines");

    let library = fs::canonicalize(&library).expect("the library");
    println!("cargo:rustc-link-search=native={}", library.parent().unwrap().display());
    println!("cargo:rustc-link-lib=static:+verbatim={}", library.file_name().unwrap().to_str().unwrap());
}
