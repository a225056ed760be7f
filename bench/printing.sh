#!/bin/sh
# Prints a waveform of 16,384 numbers so many times into one buffer: ints of all lengths, shorts, and doubles, which are printed as bit
# patterns. Prints for each the bytes of one text and MB/s, as the processor's time of the best of 9 runs tells it, without the time in
# which the waveform is made. It works in a copy of the crates, since a program of this kind is no part of the repository. Needs `rt`,
# `/usr/bin/time` and some minutes.
set -eu
top=$(cd "$(dirname "$0")/.." && pwd)
work=$(mktemp -d)
trap 'rm -rf "$work"' EXIT
mkdir -p "$work/crates/printing_bench/src"
for name in pvd_type pvd_value cli_text; do
    mkdir -p "$work/crates/$name"
    (cd "$top/crates/$name" && cp -r src specs proofs "$work/crates/$name/")
    # what is proved already isn't proved again
    [ ! -d "$top/crates/$name/out/rlib" ] || { mkdir "$work/crates/$name/out" && cp -r "$top/crates/$name/out/rlib" "$work/crates/$name/out/"; }
    grep -E "^$name:" "$top/crates.txt" >> "$work/crates.txt"
done
echo 'printing_bench: cli_text pvd_value pvd_type' >> "$work/crates.txt"
git init -q "$work"
cat > "$work/crates/printing_bench/src/main.rt" <<'RT'
//! Prints a waveform many times.
#![tactic(auto)]

use cli_text::print_part;
use pvd_type::{BitSet, Extent, PvType, Scalar, Shape};
use pvd_value::{Items, PvValue, fits};
use std::alloc::{AllocError, Global};
use std::env;
use std::io;

/// Lets a value go in a function of its own.
fn discard<T: Drop>(_value: T) {}

/// Numbers of all lengths.
fn number(i: u32) -> i32 {
    let mixed = i.wrapping_mul(0x9E37_79B9);
    (mixed >> (i % 32)).cast_signed()
}

fn ints(alloc: Global) -> Result<Items, AllocError> {
    let mut items: Vec<i32> = Vec::new(alloc);
    for i in 0..16_384 {
        items.push(number(i))?;
    }
    Ok(Items::I32(items))
}

fn shorts(alloc: Global) -> Result<Items, AllocError> {
    let mut items: Vec<i16> = Vec::new(alloc);
    for i in 0..16_384u16 {
        items.push((i.wrapping_mul(40_503) >> (i % 16)).cast_signed())?;
    }
    Ok(Items::I16(items))
}

fn doubles(alloc: Global) -> Result<Items, AllocError> {
    let mut items: Vec<u64> = Vec::new(alloc);
    for i in 0..16_384u64 {
        items.push(i.wrapping_mul(0x9E37_79B9_7F4A_7C15))?;
    }
    Ok(Items::F64(items))
}

/// Prints the value so many times; the bytes of one text.
fn print(alloc: Global, ty: &PvType, value: &PvValue, count: u32) -> usize {
    let mut out: Vec<u8> = Vec::new(alloc);
    let mut mask = BitSet::new(alloc);
    if mask.insert(0).is_err() || !fits(ty, value) {
        return 0;
    }
    let overrun = BitSet::new(alloc);
    for _ in 0..count {
        out.clear();
        if print_part(alloc, &mut out, ty, &mask, &overrun, value).is_err() {
            return 0;
        }
    }
    out.len()
}

fn measure(rt: &HostRuntime, scalar: Scalar, items: Items, count: u32) -> io::Result<()> {
    let alloc = rt.alloc();
    let value = PvValue::List(items);
    let Ok(ty) = PvType::check(alloc, Shape::List(scalar, Extent::Variable)) else {
        discard(value);
        return rt.println("no type");
    };
    let bytes = print(alloc, &ty, &value, count);
    discard(value);
    println!(rt; "{bytes}")
}

fn main(rt: HostRuntime) -> io::Result<()> {
    let mut arguments = env::args(&rt)?;
    let _name = arguments.next();
    let words: Vec<String> = arguments.collect(rt.alloc())?;
    let count = if words.len() > 1 { 1 } else { 1_001 };
    let alloc = rt.alloc();
    match words.first() {
        Some(word) if word.as_str() == "shorts" => {
            measure(&rt, Scalar::I16, shorts(alloc)?, count)
        }
        Some(word) if word.as_str() == "doubles" => {
            measure(&rt, Scalar::F64, doubles(alloc)?, count)
        }
        _ => measure(&rt, Scalar::I32, ints(alloc)?, count),
    }
}
RT
cd "$work/crates/printing_bench"
rt run 2>"$work/log" >/dev/null || { cat "$work/log"; exit 1; }
for case in ints shorts doubles; do
    : > "$work/runs"
    for run in 1 2 3 4 5 6 7 8 9; do
        bytes=$(/usr/bin/time -f '%U %S' -o "$work/once" out/printing_bench "$case" once)
        /usr/bin/time -f '%U %S' -o "$work/all" out/printing_bench "$case" >/dev/null
        cat "$work/once" "$work/all" | tr '\n' ' ' >> "$work/runs"
        echo >> "$work/runs"
    done
    awk -v bytes="$bytes" -v case="$case" '
        { taken = $3 + $4 - $1 - $2; if (NR == 1 || taken < best) best = taken }
        END { printf "%s: %d bytes, %.0f MB/s\n", case, bytes, bytes * 1000 / best / 1e6 }' "$work/runs"
done
