//! PLINK 1.9 as another judge: the file that `--make-bed` writes is the canonical file, and the numbers of `--recode A` are the values counted.
use crate::case::Arg::{B, N};
use crate::case::*;
use crate::draw::Rng;
use crate::library;
use std::fs;
use std::path::Path;
use std::process::{Command, Stdio};

fn plink(program: &str, dir: &Path, words: &[&str]) {
    let _ = fs::remove_file(dir.join("made.bed"));
    let _ = fs::remove_file(dir.join("made.raw"));
    let status = Command::new(program)
        .args(["--bfile", "drawn", "--keep-allele-order", "--allow-no-sex", "--memory", "64", "--threads", "1", "--out", "made"])
        .args(words)
        .current_dir(dir)
        .stdout(Stdio::null())
        .stderr(Stdio::null())
        .status()
        .expect("PLINK");
    assert!(status.success(), "PLINK refuses a file");
}

/// Draws files of both modes, with pads that are not zero, and compares. Answers how many differ.
pub fn compare(program: &str, files: u64, seed: u64, dir: &Path) -> u64 {
    let dir = dir.join(format!("differential-{}-plink", std::process::id()));
    fs::create_dir_all(&dir).unwrap();
    let mut rng = Rng(seed);
    let (mut different, mut pads, mut calls, mut modes) = (0, 0, 0, [0, 0]);
    for k in 0..files {
        let (iids, sids) = match k {
            0..32 => (1 + k % 8, 1 + k / 8),
            _ => (1 + rng.below(70), 1 + rng.below(40)),
        };
        let mode = rng.flag();
        let (within, blocks) = if mode == 0 { (sids, iids) } else { (iids, sids) };
        let mut file = vec![0x6c, 0x1b, mode];
        file.extend(rng.bytes((within.div_ceil(4) * blocks) as usize));
        modes[mode as usize] += 1;
        pads += (within % 4 != 0) as u64;
        calls += iids * sids;

        fs::write(dir.join("drawn.bed"), file.iter().map(|&b| b as u8).collect::<Vec<u8>>()).unwrap();
        fs::write(dir.join("drawn.fam"), (0..iids).map(|i| format!("f{i} i{i} 0 0 0 -9\n")).collect::<String>()).unwrap();
        fs::write(dir.join("drawn.bim"), (0..sids).map(|j| format!("1 s{j} 0 {} A C\n", j + 1)).collect::<String>()).unwrap();

        plink(program, &dir, &["--make-bed"]);
        let canonical = u8_bits(&fs::read(dir.join("made.bed")).unwrap());
        let out = vec![0xee; 3 + (iids.div_ceil(4) * sids) as usize];
        let got = library::run(&Case::new("canonical", vec![B(file.clone()), N(iids), N(sids), B(out)]));
        let same_file = got.number == 0 && got.written[0] == canonical;

        plink(program, &dir, &["--recode", "A"]);
        let raw = fs::read_to_string(dir.join("made.raw")).unwrap();
        let values: Vec<u64> = raw
            .lines()
            .skip(1)
            .flat_map(|line| line.split_whitespace().skip(6).map(|w| alike(w.parse().unwrap_or(f64::NAN).to_bits())).collect::<Vec<u64>>())
            .collect();
        let lists = [B((0..iids).collect()), B((0..sids).collect())];
        let mut args = vec![B(file.clone()), N(iids), N(sids), N(1)];
        args.extend(lists);
        args.extend([N(f64::NAN.to_bits()), N(1), B(vec![0; (iids * sids) as usize])]);
        let got = library::run(&Case::new("read_f64", args));
        let same_values = got.number == 0 && got.written[0] == values;
        if !same_file || !same_values {
            different += 1;
            println!("DIFFERENT from PLINK ({}): {iids} animals, {sids} markers, {file:x?}", if same_file { "values" } else { "file" });
        }
    }
    fs::remove_dir_all(&dir).unwrap();
    println!("PLINK: {files} files, {} of mode 0 and {} of mode 1, {pads} with pads, {calls} calls: {different} differ", modes[0], modes[1]);
    different
}
