#!/bin/sh
# Loads a text of 1,084,000 bytes with 4,000 records of ten fields, and one of half of that, each five times. Prints
# the best time in microseconds of each and their ratio in hundredths.
# It works in a copy of the crates, since a program of this kind is no part of the repository. Needs `rt` and some minutes.
set -eu
top=$(cd "$(dirname "$0")/.." && pwd)
work=$(mktemp -d)
trap 'rm -rf "$work"' EXIT
mkdir -p "$work/crates/load_bench/src"
for name in pvd_type db_text rec_kinds db_load; do cp -r "$top/crates/$name" "$work/crates/"; done
grep -E '^(pvd_type|db_text|rec_kinds|db_load):' "$top/crates.txt" > "$work/crates.txt"
echo 'load_bench: db_load pvd_type rec_kinds' >> "$work/crates.txt"
git init -q "$work"
cat > "$work/crates/load_bench/src/main.rt" <<'RT'
//! How fast a database text is loaded.
#![tactic(auto)]

use db_load::read_records;
use pvd_type::Name;
use std::alloc::{AllocError, Global};
use std::io;
use std::time::Instant;

/// A text with so many records of ten fields, of 271 bytes each.
fn text_of(alloc: Global, count: u32) -> Result<String, AllocError> {
    let mut text = String::new(alloc);
    for number in 0..count {
        let name = number.wrapping_add(10000);
        text.push_str(&format!(in alloc; "record(longout, \"$(P):Rec{name}\") {{\n")?)?;
        text.push_str("  field(DESC, \"a record\")  field(EGU, \"um\")\n")?;
        text.push_str("  field(SCAN, \"Passive\")   field(VAL, \"1200\")\n")?;
        text.push_str("  field(HIHI, \"5000\")      field(HHSV, \"MAJOR\")\n")?;
        text.push_str("  field(LOLO, \"-5000\")     field(LLSV, \"MAJOR\")\n")?;
        text.push_str("  field(DRVH, \"6000\")      field(DRVL, \"-6000\")\n}\n")?;
    }
    Ok(text)
}

/// The best time of five, in nanoseconds, and how many records were read.
fn best(rt: &HostRuntime, text: &str, macros: &[(Name, Name)]) -> io::Result<(u64, usize)> {
    let mut least = u64::MAX;
    let mut count = 0;
    for _ in 0..5 {
        let start = Instant::now(rt)?;
        if let Ok(records) = read_records(rt.alloc(), text, macros) {
            count = records.len();
        }
        let taken = start.elapsed(rt)?;
        let nanoseconds = taken
            .as_secs()
            .wrapping_mul(1_000_000_000)
            .wrapping_add(u64::from(taken.subsec_nanos()));
        least = least.min(nanoseconds);
    }
    Ok((least, count))
}

fn main(rt: HostRuntime) -> io::Result<()> {
    let alloc = rt.alloc();
    let mut macros = Vec::new(alloc);
    let (Ok(name), Ok(value)) = (Name::of(alloc, "P"), Name::of(alloc, "BL:M1")) else {
        return rt.println("no memory");
    };
    macros.push((name, value))?;
    let whole = text_of(alloc, 4000)?;
    let half = text_of(alloc, 2000)?;
    let (long, records) = best(&rt, whole.as_str(), &macros)?;
    let (short, _) = best(&rt, half.as_str(), &macros)?;
    let bytes = whole.len();
    let ratio = long.wrapping_mul(100) / short.max(1);
    let (long, short) = (long / 1000, short / 1000);
    println!(rt; "{bytes} bytes, {records} records: {long} us; half of it: {short} us; ratio {ratio} hundredths")
}
RT
cd "$work/crates/load_bench"
rt run 2>"$work/log" || { cat "$work/log"; exit 1; }
