//! Names in texts: the proved call beside a pass that classifies each byte, and the same scan in safe Rust.

use crate::measure::medians;
use crate::table::{call_row, Row, Table, CALL};
use reference::Scan;
use std::hint::black_box;

pub const TABLE: Table = Table {
    title: "Names in texts, by bytes; Rust only classifies each byte",
    names: &["Texts"],
    columns: CALL,
    measure: |_, repetitions| rows(repetitions),
};

const WIDTH: usize = 64;
const NAMES: usize = 65_536;
const MANIFESTS: usize = 10_000;
const LONG: usize = 16 << 20;

/// Numbers, the same on every machine: SplitMix64.
struct Drawn(u64);

impl Drawn {
    fn word(&mut self) -> u64 {
        self.0 = self.0.wrapping_add(0x9e37_79b9_7f4a_7c15);
        let z = (self.0 ^ (self.0 >> 30)).wrapping_mul(0xbf58_476d_1ce4_e5b9);
        let z = (z ^ (z >> 27)).wrapping_mul(0x94d0_49bb_1331_11eb);
        z ^ (z >> 31)
    }
}

fn names(drawn: &mut Drawn) -> Vec<String> {
    let name = |drawn: &mut Drawn| (0..WIDTH / 16).map(|_| format!("{:016x}", drawn.word())).collect::<String>();
    let mut names: Vec<String> = (0..NAMES).map(|_| name(drawn)).collect();
    names.sort();
    names.dedup();
    names
}

/// A manifest of about 2 KB that names some twelve blobs.
fn manifest(drawn: &mut Drawn, names: &[String]) -> Vec<u8> {
    let mut text =
        String::from(r#"{"schemaVersion":2,"mediaType":"application/vnd.oci.image.manifest.v1+json","layers":["#);
    while text.len() < 1_900 {
        let (name, size) = (&names[drawn.word() as usize % names.len()], drawn.word() % 100_000_000);
        text += r#"{"mediaType":"application/vnd.oci.image.layer.v1.tar+gzip","digest":"sha256:"#;
        text += name;
        text += &format!(r#"","size":{size}}},"#);
    }
    text.into_bytes()
}

/// A pass that classifies each byte: how many windows of digits there are.
fn classified(text: &[u8]) -> usize {
    let (mut run, mut windows) = (0, 0);
    for &byte in text {
        let digit = (byte.wrapping_sub(b'0') < 10) | (byte.wrapping_sub(b'a') < 6);
        run = if digit { run + 1 } else { 0 };
        windows += usize::from(run >= WIDTH);
    }
    windows
}

/// One row for each kind of texts, counted by bytes: the proved call, the pass as plain Rust, and the tuned scan.
fn rows(repetitions: usize) -> Vec<Row> {
    let mut drawn = Drawn(1);
    let names = names(&mut drawn);
    let manifests: Vec<Vec<u8>> = (0..MANIFESTS).map(|_| manifest(&mut drawn, &names)).collect();
    let ends = manifests.iter().scan(0, |end, text| {
        *end += text.len() as u64;
        Some(*end)
    });
    let ends: Vec<u64> = ends.collect();
    let none = r#"{"mediaType":"application/vnd.oci.image.config.v1+json","architecture":"amd64","os":"linux"},"#;
    let none = none.as_bytes().iter().copied().cycle().take(LONG).collect();
    let all = [
        ("10,000 manifests of 2 KB", manifests.concat(), ends),
        ("16 MB without a name", none, vec![LONG as u64]),
        ("16 MB of `a`", vec![b'a'; LONG], vec![LONG as u64]),
    ];
    let bytes = names.concat().into_bytes();
    let named: Vec<u32> = (0..names.len() as u32).collect();
    let row = |(name, texts, ends): &(&'static str, Vec<u8>, Vec<u64>)| {
        let owners = vec![0; ends.len()];
        let (objects, width) = (NAMES as u32, WIDTH as u32);
        let scan = Scan { objects, width, names: &bytes, named: &named, texts, ends, owners: &owners };
        let proved = |work: &mut Vec<u32>| {
            black_box(kullneyra::scan_length(objects, width, &bytes, &named, texts, ends, &owners, work))
                .expect("names and texts");
        };
        let plain = |_: &mut Vec<u32>| {
            black_box(classified(texts));
        };
        let tuned = |work: &mut Vec<u32>| {
            black_box(tuned::scan_length(scan, work)).expect("names and texts");
        };
        let mut work = vec![0; kullneyra::SCAN_WORK];
        call_row(name, texts.len(), &medians(&mut work, repetitions, [&proved, &plain, &tuned]))
    };
    all.iter().map(row).collect()
}
