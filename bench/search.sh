#!/bin/sh
# Answers a search for 40 names, all known, among 4,000 records in a map by name. Prints the nanoseconds that one answer takes, in the best of
# 400 runs of 50: a run is shorter than a turn on a processor, so that other work on the machine tells little.
# It works in a copy of the crates, since a program of this kind is no part of the repository. Needs `rt` and some minutes.
set -eu
top=$(cd "$(dirname "$0")/.." && pwd)
work=$(mktemp -d)
trap 'rm -rf "$work"' EXIT
mkdir -p "$work/crates/search_bench/src"
for name in pva_outside pvd_type pva_wire pva_frames pva_search; do
    mkdir -p "$work/crates/$name"
    (cd "$top/crates/$name" && cp -r src specs proofs "$work/crates/$name/")
    # what is proved already isn't proved again
    [ ! -d "$top/crates/$name/out/rlib" ] || { mkdir "$work/crates/$name/out" && cp -r "$top/crates/$name/out/rlib" "$work/crates/$name/out/"; }
    grep -E "^$name:" "$top/crates.txt" >> "$work/crates.txt"
done
echo 'search_bench: pva_search pva_wire pva_outside' >> "$work/crates.txt"
git init -q "$work"
cat > "$work/crates/search_bench/src/main.rt" <<'RT'
//! How fast a search is answered.
#![tactic(auto)]

use pva_search::{Order, Peer, Setup, answer};
use std::alloc::{AllocError, Global};
use std::collections::HashMap;
use std::io;
use std::time::Instant;

const SETUP: Setup = Setup {
    guid: [7; 12],
    port: 5_075,
    order: Order::Little,
};

const FROM: Peer = Peer {
    address: [0, 0, 0, 0, 0, 0, 0, 0, 0, 0, 255, 255, 10, 0, 0, 7],
    port: 40_000,
};

/// The name of a record, of 14 bytes.
fn name_of(alloc: Global, number: u32) -> Result<String, AllocError> {
    let shown = number.wrapping_add(10_000);
    format!(in alloc; "BL:M1:Rec{shown}")
}

/// So many records by their names.
fn records(alloc: Global, count: u32) -> Result<HashMap<String, u32>, AllocError> {
    let mut records = HashMap::new(alloc);
    for number in 0..count {
        let name = name_of(alloc, number)?;
        records.insert(name, number)?;
    }
    Ok(records)
}

/// A search for 40 of the records.
fn search_of_forty(alloc: Global) -> Result<Vec<u8>, AllocError> {
    let mut search = Vec::new(alloc);
    search.extend_from_slice(&[0xCA, 2, 0, 3, 0x19, 3, 0, 0, 1, 0, 0, 0, 0x80, 0, 0, 0])?;
    search.extend_from_slice(&[0; 16])?;
    search.extend_from_slice(&[0xD4, 0x13, 1, 3, b't', b'c', b'p', 40, 0])?;
    for number in 0..40u32 {
        search.extend_from_slice(&number.to_le_bytes())?;
        search.extend_from_slice(&[14])?;
        let name = name_of(alloc, number.wrapping_mul(97))?;
        search.extend_from_slice(name.as_str().as_bytes())?;
    }
    Ok(search)
}

/// Answers a search so many times; the bytes of the last answer.
fn answers(alloc: Global, search: &[u8], records: &HashMap<String, u32>, times: u32) -> usize {
    let known = |name: &str| records.contains_key(name);
    let mut size = 0;
    for _ in 0..times {
        if let Ok(Some((reply, _))) = answer(alloc, search, FROM, &SETUP, &known) {
            size = reply.len();
        }
    }
    size
}

/// The nanoseconds of one answer in the best of 400 runs of 50, and the bytes of an answer.
fn best(rt: &HostRuntime, search: &[u8], records: &HashMap<String, u32>) -> io::Result<(u64, usize)> {
    let mut least = u64::MAX;
    let mut size = 0;
    for _ in 0..400 {
        let start = Instant::now(rt)?;
        size = answers(rt.alloc(), search, records, 50);
        let taken = start.elapsed(rt)?;
        let nanoseconds = taken
            .as_secs()
            .wrapping_mul(1_000_000_000)
            .wrapping_add(u64::from(taken.subsec_nanos()));
        least = least.min(nanoseconds);
    }
    Ok((least / 50, size))
}

fn main(rt: HostRuntime) -> io::Result<()> {
    let alloc = rt.alloc();
    let records = records(alloc, 4000)?;
    let search = search_of_forty(alloc)?;
    let (nanoseconds, size) = best(&rt, search.as_slice(), &records)?;
    let known = records.len();
    let bytes = search.len();
    println!(rt; "{known} records, a search of {bytes} bytes for 40 of them: an answer of {size} bytes in {nanoseconds} ns")
}
RT
cd "$work/crates/search_bench"
rt run 2>"$work/log" || { cat "$work/log"; exit 1; }
