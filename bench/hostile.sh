#!/bin/sh
# Reads the worst payloads of 64 MiB that we know of, one after another, each in a process of its own, and copies a payload of that size.
# Prints for each whether it was read, malformed or refused for want of memory, the seconds that passed while it was read, the seconds of a processor that the reading took
# (those of the process, less those of one that only makes the payload), and the memory in MiB that the process needed beyond that of one
# that only makes the payload. The stack has 2 MiB. It works in a copy of the crates. Needs `rt`, `/usr/bin/time` and some minutes.
set -eu
top=$(cd "$(dirname "$0")/.." && pwd)
work=$(mktemp -d)
trap 'rm -rf "$work"' EXIT
mkdir -p "$work/crates/hostile_bench/src"
for name in pvd_type pvd_value pva_wire pvd_desc pvd_codec; do
    mkdir -p "$work/crates/$name"
    (cd "$top/crates/$name" && cp -r src specs proofs "$work/crates/$name/")
    # what is proved already isn't proved again
    [ ! -d "$top/crates/$name/out/rlib" ] || { mkdir "$work/crates/$name/out" && cp -r "$top/crates/$name/out/rlib" "$work/crates/$name/out/"; }
    grep -E "^$name:" "$top/crates.txt" >> "$work/crates.txt"
done
echo 'hostile_bench: pvd_codec pvd_desc pvd_value pva_wire pvd_type' >> "$work/crates.txt"
git init -q "$work"
cat > "$work/crates/hostile_bench/src/main.rt" <<'RT'
//! Hostile payloads, each read once.
#![tactic(auto)]

use pva_wire::{Cursor, Order, write_size};
use pvd_codec::{ValueFault, read_full, read_part};
use pvd_desc::{DescFault, Registry, read_desc};
use pvd_type::{Extent, NoMemory, PvType, Scalar, Shape};
use std::alloc::{AllocError, Global};
use std::time::Instant;
use std::{env, io};

const SIZE: u32 = 67_108_864;

/// Bytes one after another, so many times.
fn repeat(out: &mut Vec<u8>, bytes: &[u8], times: u32) -> Result<(), AllocError> {
    for _ in 0..times {
        out.extend_from_slice(bytes)?;
    }
    Ok(())
}

/// A size, four bytes after its code.
fn size(out: &mut Vec<u8>, number: u32) -> Result<(), AllocError> {
    out.push(0xFE)?;
    out.extend_from_slice(&number.to_be_bytes())?;
    Ok(())
}

/// One of sixteen letters.
fn letter(number: u32) -> u8 {
    b'a' + (number % 16) as u8
}

/// A name of letters for a number: `length` letters, the last four of which tell it.
fn name(out: &mut Vec<u8>, number: u32, length: u32) -> Result<(), AllocError> {
    size(out, length)?;
    repeat(out, b"a", length.saturating_sub(4))?;
    out.push(letter(number))?;
    out.push(letter(number / 16))?;
    out.push(letter(number / 256))?;
    out.push(letter(number / 4096))?;
    Ok(())
}

/// The description of a structure or a union of so many members of this code, defined under 1.
fn defined(out: &mut Vec<u8>, code: u8, members: u32, member: &[u8]) -> Result<(), AllocError> {
    out.extend_from_slice(&[0xFD, 0, 1, code, 0])?;
    size(out, members)?;
    for number in 0..members {
        name(out, number, 4)?;
        out.extend_from_slice(member)?;
    }
    Ok(())
}

/// What is read before the payload, a description, or nothing.
fn before(out: &mut Vec<u8>, case: &str) -> Result<(), AllocError> {
    match case {
        "cached" => defined(out, 0x81, 4095, &[0x00]),
        "nested" => defined(out, 0x80, 4000, &[0x80, 0, 0]),
        "empty" => defined(out, 0x80, 4000, &[0x80, 0, 0]),
        "short" => defined(out, 0x80, 4000, &[0x60]),
        "ones" => defined(out, 0x80, 4000, &[0x2C]),
        "pairs" => defined(out, 0x80, 4000, &[0x29]),
        _ => Ok(()),
    }
}

/// So many elements of a list of variants.
fn list(out: &mut Vec<u8>, element: &[u8], count: u32) -> Result<(), AllocError> {
    size(out, count)?;
    repeat(out, element, count)
}

/// The payload of a case.
fn payload(out: &mut Vec<u8>, case: &str) -> Result<(), AllocError> {
    match case {
        "copy" => repeat(out, b"a", SIZE),
        // as many as the budget allows
        "nulls" => {
            size(out, 63_963_000)?;
            repeat(out, &[0], SIZE - 5)
        }
        "bytes" => list(out, &[1, 0x20, 0], SIZE / 3),
        "defined" => list(out, &[1, 0xFD, 0, 7, 0x20, 0], SIZE / 6),
        "cached" => list(out, &[1, 0xFE, 0, 1, 0xFF], SIZE / 5),
        "empty" => list(out, &[1, 0xFE, 0, 1], SIZE / 4),
        "nested" => list(out, &[1, 0x80, 0, 1, 1, b'a', 0xFE, 0, 1], SIZE / 9),
        "deep" => deep(out),
        "named" => named(out),
        "chain" => chain(out),
        "again" => again(out),
        "narrow" => narrow(out),
        "high" => list(out, &[1, 0xFD, 0xFF, 0xFF, 0x20, 0], SIZE / 6),
        "ids" => chains(out, 8, 2_400_000),
        "many" => chains(out, 1000, 22_000),
        "claims" => claims(out),
        "short" => rows(out, &[1, b'a'], 8380),
        "ones" => rows(out, &[1, 1], 8380),
        "pairs" => rows(out, &[1, 0, 1], 5590),
        "wide" => wide(out),
        "unmarked" => {
            out.extend_from_slice(&[1, 2, 1])?;
            Ok(())
        }
        "siblings" => siblings(out),
        "texts" => {
            size(out, SIZE / 5)?;
            repeat(out, b"\x04abcd", SIZE / 5)
        }
        "words" => {
            size(out, SIZE / 2)?;
            repeat(out, &[1, b'a'], SIZE / 2)
        }
        "letters" => {
            size(out, SIZE / 4)?;
            repeat(out, &[3, b'a', b'b', b'c'], SIZE / 4)
        }
        "types" => {
            let new = [1, 0x80, 0, 3, 1, b'a', 0x20, 1, b'b', 0x20, 1, b'c', 0x20, 7, 7, 7];
            list(out, &new, SIZE / 16)
        }
        "structures" => {
            size(out, SIZE / 2)?;
            repeat(out, &[1, 7], SIZE / 2)
        }
        "zeros" => {
            size(out, SIZE)?;
            repeat(out, &[0], SIZE)
        }
        _ => repeat(out, &[0], 1),
    }
}

/// A definition with a name of 60 MiB, and 2,000 members of that type.
fn named(out: &mut Vec<u8>) -> Result<(), AllocError> {
    out.extend_from_slice(&[0x80, 0])?;
    size(out, 2001)?;
    name(out, 0, 4)?;
    out.extend_from_slice(&[0xFD, 0, 2, 0x80])?;
    name(out, 0, 62_914_560)?;
    out.push(0)?;
    for number in 1..2001 {
        name(out, number, 4)?;
        out.extend_from_slice(&[0xFE, 0, 2])?;
    }
    Ok(())
}

/// That many lists inside one another, of structures of one member, and a leaf of this code: a type of 32 levels.
fn levels(out: &mut Vec<u8>, leaf: u8) -> Result<(), AllocError> {
    repeat(out, &[0x88, 0x80, 0, 1, 1, b'a'], 31)?;
    out.push(leaf)?;
    Ok(())
}

/// A value of such a type with a variant as its leaf: sixteen variants inside one another, each with a type of 32 levels.
fn deep(out: &mut Vec<u8>) -> Result<(), AllocError> {
    repeat(out, &[1, 1], 31)?;
    for number in 0..16u32 {
        levels(out, if number < 15 { 0x82 } else { 0x20 })?;
        repeat(out, &[1, 1], 31)?;
    }
    out.push(7)?;
    Ok(())
}

/// 22 million definitions of one byte, under all ids.
fn chain(out: &mut Vec<u8>) -> Result<(), AllocError> {
    for number in 0..22_369_621u32 {
        let id = number.wrapping_mul(40_503) % 65_536;
        out.extend_from_slice(&[0xFD, (id / 256) as u8, (id % 256) as u8])?;
    }
    out.push(0x20)?;
    Ok(())
}

/// A union of 4,092 members whose names of 16,000 letters differ at the end, and 2,100 structures with it as their member.
fn again(out: &mut Vec<u8>) -> Result<(), AllocError> {
    size(out, 2101)?;
    out.extend_from_slice(&[1, 0xFD, 0, 1, 0x81, 0])?;
    size(out, 4092)?;
    for number in 0..4092 {
        name(out, number, 16_000)?;
        out.push(0x00)?;
    }
    out.push(0xFF)?;
    repeat(out, &[1, 0x80, 0, 1, 1, b'a', 0xFE, 0, 1, 0xFF], 2100)
}

/// Null unions of 132 members, each of 31 structures inside one another, of one member each.
fn narrow(out: &mut Vec<u8>) -> Result<(), AllocError> {
    size(out, 2700)?;
    for _ in 0..2700u32 {
        out.extend_from_slice(&[1, 0x81, 0, 132])?;
        for member in 0..132u32 {
            out.extend_from_slice(&[2, letter(member), letter(member / 16)])?;
            repeat(out, &[0x80, 1, b'i', 1, 1, b'a'], 30)?;
            out.push(0x20)?;
        }
        out.push(0xFF)?;
    }
    Ok(())
}

/// Variants of a byte, each defined under so many ids that follow one another.
fn chains(out: &mut Vec<u8>, ids: u32, times: u32) -> Result<(), AllocError> {
    size(out, times)?;
    for number in 0..times {
        out.push(1)?;
        for place in 0..ids {
            let id = number.wrapping_mul(ids).wrapping_add(place).wrapping_mul(40_503) % 65_536;
            out.extend_from_slice(&[0xFD, (id / 256) as u8, (id % 256) as u8])?;
        }
        out.extend_from_slice(&[0x20, 0])?;
    }
    Ok(())
}

/// Sixteen lists of variants inside one another, of four million elements each: as many as the budget allows, all null but the first.
fn claims(out: &mut Vec<u8>) -> Result<(), AllocError> {
    for _ in 0..15u32 {
        size(out, 3_950_000)?;
        out.extend_from_slice(&[1, 0x8A])?;
    }
    size(out, 3_950_000)?;
    repeat(out, &[0], SIZE - 1024)
}

/// Structures of 4,000 such members.
fn rows(out: &mut Vec<u8>, member: &[u8], times: u32) -> Result<(), AllocError> {
    size(out, times)?;
    for _ in 0..times {
        out.extend_from_slice(&[1, 0xFE, 0, 1])?;
        repeat(out, member, 4000)?;
    }
    Ok(())
}

/// Null unions of 4,095 bytes, whose names of ten letters differ at the end.
fn wide(out: &mut Vec<u8>) -> Result<(), AllocError> {
    size(out, 1360)?;
    for _ in 0..1360u32 {
        out.extend_from_slice(&[1, 0x81, 0])?;
        size(out, 4095)?;
        for number in 0..4095u32 {
            let place = number * 1237 % 4096;
            out.push(10)?;
            repeat(out, b"a", 7)?;
            out.push(letter(place))?;
            out.push(letter(place / 16))?;
            out.push(letter(place / 256))?;
            out.push(0x20)?;
        }
        out.push(0xFF)?;
    }
    Ok(())
}

/// 4,095 siblings whose names of 16,384 letters differ at the end.
fn siblings(out: &mut Vec<u8>) -> Result<(), AllocError> {
    out.extend_from_slice(&[0x80, 0])?;
    size(out, 4095)?;
    for number in 0..4095 {
        name(out, number, 16_384)?;
        out.push(0x00)?;
    }
    Ok(())
}

/// The type of the value of a case.
fn shape(case: &str) -> Shape {
    match case {
        "texts" | "words" | "letters" => Shape::List(Scalar::Text, Extent::Variable),
        "part" => Shape::List(Scalar::I32, Extent::Fixed(0x7FFF_FFFE)),
        "zeros" => Shape::Plain(Scalar::I32),
        _ => Shape::VariantList,
    }
}

/// The type that these bytes describe.
fn described(alloc: Global, bytes: &[u8]) -> Option<PvType> {
    let mut from = Cursor::new(bytes, Order::Big);
    match read_desc(alloc, &mut from, &mut Registry::new(alloc)) {
        Ok(ty) => ty,
        Err(_) => None,
    }
}

/// A structure of a boolean and 4,094 lists of 67,108,864 bytes each.
fn of_fixed_lists(alloc: Global) -> Option<PvType> {
    let mut bytes: Vec<u8> = Vec::new(alloc);
    match fixed_lists(&mut bytes) {
        Ok(()) => described(alloc, &bytes),
        Err(_) => None,
    }
}

fn fixed_lists(out: &mut Vec<u8>) -> Result<(), AllocError> {
    out.extend_from_slice(&[0x80, 0])?;
    size(out, 4095)?;
    for number in 0..4095 {
        name(out, number, 4)?;
        if number == 0 {
            out.push(0x00)?;
        } else {
            out.push(0x38)?;
            size(out, SIZE)?;
        }
    }
    Ok(())
}

/// The type of the greatest depth with a variant as its leaf.
fn deepest_type(alloc: Global) -> Option<PvType> {
    let mut bytes: Vec<u8> = Vec::new(alloc);
    match levels(&mut bytes, 0x82) {
        Ok(()) => described(alloc, &bytes),
        Err(_) => None,
    }
}

/// What became of the payload.
fn read(
    alloc: Global,
    case: &str,
    ty: &PvType,
    known: &mut Registry,
    bytes: &[u8],
) -> &'static str {
    let mut from = Cursor::new(bytes, Order::Big);
    match case {
        "copy" => match Vec::from_slice(alloc, bytes) {
            Ok(_) => "copied",
            Err(_) => "not copied",
        },
        "named" | "chain" | "siblings" => match read_desc(alloc, &mut from, known) {
            Ok(_) => "read",
            Err(DescFault::NoMemory) => "refused for memory",
            Err(_) => "malformed",
        },
        "zeros" | "part" | "unmarked" => match read_part(alloc, &mut from, known, ty) {
            Ok(_) => "read",
            Err(fault) => refused(fault),
        },
        _ => match read_full(alloc, &mut from, known, ty) {
            Ok(_) => "read",
            Err(fault) => refused(fault),
        },
    }
}

fn refused(fault: ValueFault) -> &'static str {
    match fault {
        ValueFault::NoMemory => "refused for memory",
        _ => "malformed",
    }
}

fn measure(rt: &HostRuntime, case: &str, reads: bool) -> io::Result<()> {
    let alloc = rt.alloc();
    let mut known = Registry::new(alloc);
    let mut first: Vec<u8> = Vec::new(alloc);
    before(&mut first, case)?;
    if !first.is_empty() {
        let _ = read_desc(alloc, &mut Cursor::new(&first, Order::Big), &mut known);
    }
    let mut bytes: Vec<u8> = Vec::with_capacity(alloc, 70_000_000)?;
    payload(&mut bytes, case)?;
    let made = match case {
        "structures" => described(alloc, &[0x88, 0x80, 0, 1, 1, b'a', 0x20]),
        "deep" => deepest_type(alloc),
        "unmarked" => of_fixed_lists(alloc),
        _ => PvType::check(alloc, shape(case)).ok(),
    };
    let Some(ty) = made else {
        return rt.println("no type");
    };
    if !reads {
        return Ok(());
    }
    let start = Instant::now(rt)?;
    let told = read(alloc, case, &ty, &mut known, &bytes);
    let taken = start.elapsed(rt)?;
    let (seconds, hundredths) = (taken.as_secs(), taken.subsec_nanos() / 10_000_000);
    let length = bytes.len();
    println!(rt; "{case}: {length} bytes {told} in {seconds}.{hundredths:02} s")
}

fn main(rt: HostRuntime) -> io::Result<()> {
    let mut arguments = env::args(&rt)?;
    let _name = arguments.next();
    let words: Vec<String> = arguments.collect(rt.alloc())?;
    match words.first() {
        Some(word) => measure(&rt, word.as_str(), words.len() < 2),
        None => measure(&rt, "copy", true),
    }
}
RT
cd "$work/crates/hostile_bench"
rt run 2>"$work/log" >/dev/null || { cat "$work/log"; exit 1; }
for case in copy deep nulls bytes defined high ids many cached empty nested again narrow wide named chain siblings texts words letters short ones pairs types structures claims zeros part unmarked; do
    (ulimit -v 8000000; /usr/bin/time -f '%M %U %S' -o "$work/made" out/hostile_bench "$case" only)
    (ulimit -v 8000000; ulimit -s 2048; /usr/bin/time -f '%M %U %S' -o "$work/peak" out/hostile_bench "$case" || echo "$case: ended with no answer")
    cat "$work/made" "$work/peak" | grep -v '[A-Za-z]' | tr '\n' ' ' |
        awk '{ printf "    %.2f s of a processor, %d MiB\n", $5 + $6 - $2 - $3, ($4 - $1) / 1024 }'
done
