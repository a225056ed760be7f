#!/bin/sh
# Reads and writes a waveform of 1,000 ints, and copies its bytes as often, into one buffer beside writing and into fresh memory beside
# reading. Prints the nanoseconds of one round and the hundredths of the copy's speed, each of the best of 400 runs of 1,000 rounds: a run is
# shorter than a turn on a processor, so that other work on the machine tells little.
# It works in a copy of the crates, since a program of this kind is no part of the repository. Needs `rt` and some minutes.
set -eu
top=$(cd "$(dirname "$0")/.." && pwd)
work=$(mktemp -d)
trap 'rm -rf "$work"' EXIT
mkdir -p "$work/crates/values_bench/src"
for name in pvd_type pvd_value pva_wire pvd_desc pvd_codec; do
    mkdir -p "$work/crates/$name"
    (cd "$top/crates/$name" && cp -r src specs proofs "$work/crates/$name/")
    # what is proved already isn't proved again
    [ ! -d "$top/crates/$name/out/rlib" ] || { mkdir "$work/crates/$name/out" && cp -r "$top/crates/$name/out/rlib" "$work/crates/$name/out/"; }
    grep -E "^$name:" "$top/crates.txt" >> "$work/crates.txt"
done
echo 'values_bench: pvd_codec pvd_desc pvd_value pva_wire pvd_type' >> "$work/crates.txt"
git init -q "$work"
cat > "$work/crates/values_bench/src/main.rt" <<'RT'
//! How fast a waveform is read and written, beside a plain copy of its bytes.
#![tactic(auto)]

use pva_wire::{Cursor, Order};
use pvd_codec::{read_full, write_full};
use pvd_desc::Registry;
use pvd_type::{Extent, NoMemory, PvType, Scalar, Shape};
use pvd_value::{Items, PvValue, fits};
use std::alloc::{AllocError, Global};
use std::io;
use std::time::Instant;

const ROUNDS: u32 = 1_000;

/// A list of 1,000 ints.
fn ints(alloc: Global) -> Result<PvValue, AllocError> {
    let mut items: Vec<i32> = Vec::new(alloc);
    for i in 0..1000 {
        items.push(i)?;
    }
    Ok(PvValue::List(Items::I32(items)))
}

/// Reads the bytes so many times.
fn read_all(alloc: Global, ty: &PvType, order: Order, bytes: &[u8]) -> u64 {
    let mut registry = Registry::new(alloc);
    let mut count = 0u64;
    for _ in 0..ROUNDS {
        let mut from = Cursor::new(bytes, order);
        if let Ok(PvValue::List(items)) = read_full(alloc, &mut from, &mut registry, ty) {
            count = count.wrapping_add(items.len() as u64);
        }
    }
    count
}

/// Writes the value, which is of the type, so many times into one buffer.
fn write_all(out: &mut Vec<u8>, ty: &PvType, order: Order, value: &PvValue) -> u64 {
    let mut count = 0u64;
    if !fits(ty, value) {
        return count;
    }
    for _ in 0..ROUNDS {
        out.clear();
        if write_full(out, order, ty, value).is_ok() {
            count = count.wrapping_add(out.len() as u64);
        }
    }
    count
}

/// Copies the bytes so many times into fresh memory.
fn copy_fresh(alloc: Global, bytes: &[u8]) -> u64 {
    let mut count = 0u64;
    for _ in 0..ROUNDS {
        if let Ok(copy) = Vec::from_slice(alloc, bytes) {
            count = count.wrapping_add(copy.len() as u64);
        }
    }
    count
}

/// Copies the bytes so many times into one buffer.
fn copy_warm(out: &mut Vec<u8>, bytes: &[u8]) -> u64 {
    let mut count = 0u64;
    for _ in 0..ROUNDS {
        out.clear();
        if out.extend_from_slice(bytes).is_ok() {
            count = count.wrapping_add(out.len() as u64);
        }
    }
    count
}

fn nanoseconds(rt: &HostRuntime, start: Instant) -> io::Result<u64> {
    let taken = start.elapsed(rt)?;
    let whole = taken.as_secs().wrapping_mul(1_000_000_000);
    Ok(whole.wrapping_add(u64::from(taken.subsec_nanos())))
}

/// How many nanoseconds one round took.
fn each(total: u64) -> u64 {
    total / 1_000
}

/// So many hundredths of a's speed is b's, by their times.
fn hundredths(a: u64, b: u64) -> u64 {
    a.wrapping_mul(100) / b.max(1)
}

fn measure(rt: &HostRuntime, order: Order, name: &str) -> io::Result<()> {
    let alloc = rt.alloc();
    let Ok(ty) = PvType::check(alloc, Shape::List(Scalar::I32, Extent::Variable)) else {
        return rt.println("no memory");
    };
    let Ok(value) = ints(alloc) else {
        return rt.println("no memory");
    };
    let mut out: Vec<u8> = Vec::new(alloc);
    let mut warm: Vec<u8> = Vec::new(alloc);
    let mut best = [u64::MAX, u64::MAX, u64::MAX, u64::MAX];
    let mut sum = 0u64;
    for _ in 0..400 {
        let start = Instant::now(rt)?;
        sum = sum.wrapping_add(write_all(&mut out, &ty, order, &value));
        best[0] = best[0].min(nanoseconds(rt, start)?);
        let start = Instant::now(rt)?;
        sum = sum.wrapping_add(read_all(alloc, &ty, order, &out));
        best[1] = best[1].min(nanoseconds(rt, start)?);
        let start = Instant::now(rt)?;
        sum = sum.wrapping_add(copy_warm(&mut warm, &out));
        best[2] = best[2].min(nanoseconds(rt, start)?);
        let start = Instant::now(rt)?;
        sum = sum.wrapping_add(copy_fresh(alloc, &out));
        best[3] = best[3].min(nanoseconds(rt, start)?);
    }
    let [write, read, warm_copy, fresh_copy] = best;
    let (w, r, cw, cf) = (each(write), each(read), each(warm_copy), each(fresh_copy));
    let of_warm = hundredths(warm_copy, write);
    let of_fresh = hundredths(fresh_copy, read);
    println!(rt; "{name}: written in {w} ns ({of_warm} hundredths of a copy of {cw} ns), read in {r} ns ({of_fresh} hundredths of a copy of {cf} ns); {sum}")
}

fn main(rt: HostRuntime) -> io::Result<()> {
    measure(&rt, Order::Little, "lowest byte first")?;
    measure(&rt, Order::Big, "highest byte first")
}
RT
cd "$work/crates/values_bench"
rt run 2>"$work/log" || { cat "$work/log"; exit 1; }
