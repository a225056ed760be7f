#!/bin/sh
# Feeds 64 MiB of small messages to an assembler in pieces of 4,096 bytes, and copies the same pieces into one buffer, once
# into fresh memory and once into memory that was used before. Prints, for some sizes of payload, the bytes per second of
# the best of five runs and the ratios to the copies.
# It works in a copy of the crates, since a program of this kind is no part of the repository. Needs `rt` and about a minute.
set -eu
top=$(cd "$(dirname "$0")/.." && pwd)
work=$(mktemp -d)
trap 'rm -rf "$work"' EXIT
mkdir -p "$work/crates/frames_bench/src"
for name in pvd_type pva_wire pva_frames; do
    if [ -d "$top/crates/$name" ]; then cp -r "$top/crates/$name" "$work/crates/"; fi
done
grep -E '^(pvd_type|pva_wire|pva_frames):' "$top/crates.txt" > "$work/crates.txt"
echo 'frames_bench: pva_frames pva_wire' >> "$work/crates.txt"
git init -q "$work"
cat > "$work/crates/frames_bench/src/main.rt" <<'RT'
//! How fast an assembler takes small messages, beside a plain copy.
#![tactic(auto)]

use pva_frames::{Assembler, Next, NoMemory, write_message};
use pva_wire::Order;
use std::alloc::{AllocError, Global};
use std::io;
use std::time::Instant;

const PIECE: usize = 4096;
const TOTAL: u64 = 67_108_864;

/// 4,096 messages, which fill as many pieces as one message has bytes.
fn block(alloc: Global, payload: &[u8]) -> Result<Vec<u8>, NoMemory> {
    let mut out = Vec::new(alloc);
    for _ in 0..PIECE {
        write_message(&mut out, Order::Little, false, 10, payload, 65_528)?;
    }
    Ok(out)
}

/// Feeds one piece and takes its events.
fn feed(assembler: &mut Assembler, piece: &[u8]) -> Result<u64, NoMemory> {
    assembler.feed(piece)?;
    let mut bytes = 0u64;
    for _ in 0..PIECE {
        match assembler.next()? {
            Next::Event(event) => {
                if let pva_frames::Event::Message(whole) = event {
                    bytes = bytes.wrapping_add(whole.payload.as_slice().len() as u64);
                }
            }
            Next::Fault(_) => break,
            Next::More => break,
        }
    }
    Ok(bytes)
}

/// Feeds the block again and again, up to the total.
fn feed_all(alloc: Global, block: &[u8]) -> Result<u64, NoMemory> {
    let mut assembler = Assembler::new(alloc);
    let mut fed = 0u64;
    let mut bytes = 0u64;
    for _ in 0..PIECE {
        for piece in block.chunks(PIECE) {
            if fed < TOTAL {
                bytes = bytes.wrapping_add(feed(&mut assembler, piece)?);
                fed = fed.wrapping_add(piece.len() as u64);
            }
        }
        if fed >= TOTAL {
            break;
        }
    }
    Ok(bytes)
}

/// Copies the same pieces into one buffer.
fn copy_all(copy: &mut Vec<u8>, block: &[u8]) -> Result<u64, AllocError> {
    copy.clear();
    for _ in 0..PIECE {
        for piece in block.chunks(PIECE) {
            if (copy.len() as u64) < TOTAL {
                copy.extend_from_slice(piece)?;
            }
        }
        if copy.len() as u64 >= TOTAL {
            break;
        }
    }
    Ok(copy.len() as u64)
}

fn nanoseconds(rt: &HostRuntime, start: Instant) -> io::Result<u64> {
    let taken = start.elapsed(rt)?;
    let whole = taken.as_secs().wrapping_mul(1_000_000_000);
    Ok(whole.wrapping_add(u64::from(taken.subsec_nanos())))
}

/// So many hundredths of a's speed is b's, by their times.
fn hundredths(a: u64, b: u64) -> u64 {
    a.wrapping_mul(100) / b.max(1)
}

fn measure(rt: &HostRuntime, size: usize) -> io::Result<()> {
    let payload = vec![in rt.alloc(); 7u8; size]?;
    let Ok(bytes) = block(rt.alloc(), payload.as_slice()) else {
        return rt.println("no memory");
    };
    let mut feed = u64::MAX;
    let mut fresh = u64::MAX;
    let mut warm = u64::MAX;
    for _ in 0..5 {
        let start = Instant::now(rt)?;
        if feed_all(rt.alloc(), bytes.as_slice()).is_err() {
            return rt.println("no memory");
        }
        feed = feed.min(nanoseconds(rt, start)?);
        let start = Instant::now(rt)?;
        let mut copy: Vec<u8> = Vec::with_capacity(rt.alloc(), TOTAL as usize)?;
        let _ = copy_all(&mut copy, bytes.as_slice());
        fresh = fresh.min(nanoseconds(rt, start)?);
        let start = Instant::now(rt)?;
        let _ = copy_all(&mut copy, bytes.as_slice());
        warm = warm.min(nanoseconds(rt, start)?);
    }
    let rate = TOTAL.wrapping_mul(1000) / feed.max(1);
    let to_fresh = hundredths(fresh, feed);
    let to_warm = hundredths(warm, feed);
    println!(rt; "payloads of {size} bytes: {rate} MB/s; of a copy into fresh memory {to_fresh} hundredths, into used memory {to_warm}")
}

fn main(rt: HostRuntime) -> io::Result<()> {
    measure(&rt, 56)?;
    measure(&rt, 248)?;
    measure(&rt, 1000)
}
RT
cd "$work/crates/frames_bench"
rt run 2>"$work/log" || { cat "$work/log"; exit 1; }
