#!/bin/sh
# Reads and writes updates of a monitor and puts, of a scalar, a waveform of 1,000 ints and a group of 40 leaves, and copies the
# same bytes of each, into fresh memory beside reading and into one buffer beside writing. Prints, for the best of 200 runs of 2,000
# messages each, messages per second, MB/s and the hundredths of the copy's speed. Short runs let the best one fall into a time
# in which nothing else has the processor.
# It works in a copy of the crates, since a program of this kind is no part of the repository. Needs `rt` and some minutes.
set -eu
top=$(cd "$(dirname "$0")/.." && pwd)
work=$(mktemp -d)
trap 'rm -rf "$work"' EXIT
bench=$work/crates/messages_bench
mkdir -p "$bench/src"
for name in pvd_type pvd_value pva_wire pvd_desc pvd_codec pva_frames pva_messages; do
    mkdir -p "$work/crates/$name"
    (cd "$top/crates/$name" && cp -r src specs proofs "$work/crates/$name/")
    grep -E "^$name:" "$top/crates.txt" >> "$work/crates.txt"
done
echo 'messages_bench: pva_messages pvd_codec pvd_desc pvd_value pva_wire pvd_type' >> "$work/crates.txt"
git init -q "$work"
cat > "$bench/src/main.rt" <<'RT'
//! How fast messages are read and written, beside a plain copy of the same bytes.
#![tactic(auto)]

ghost use Rattle.std.specs.Prelude.{◌≤◌, length, IfSome};
ghost use Rattle.pvd_codec.specs.Written.{CanEach};
ghost use Rattle.pva_messages.specs.Fields as field;
ghost use Rattle.pva_messages.specs.Replies.{CanReply, reply_fields};
ghost use Rattle.pva_messages.specs.Requests.{CanSend, request_fields};
ghost use Rattle.pva_messages.specs.Written.{FitsField};
ghost use Rattle.pva_messages.specs.Views.{part_data, reply_view, request_view};

use pva_messages::{
    Part, PutPart, ToClient, ToServer, read_reply, read_request, read_request_part,
    write_to_client, write_to_server,
};
use pva_wire::{Cursor, Order};
use pvd_desc::{Registry, read_desc};
use pvd_type::{BitSet, PvType};
use pvd_value::{PvValue, fits};
use std::alloc::{AllocError, Global};
use std::io;
use std::time::Instant;

/// How many messages a run reads, writes or copies.
const COUNT: u64 = 2_000;

/// How many runs there are.
const RUNS: u32 = 200;

/// The part that marks all leaves of a value, where that is of the type.
fn part_of(alloc: Global, ty: PvType, value: PvValue) -> Option<Part>
    ensures { IfSome result (λ p. FitsField (field.part (part_data p))) }
{
    if !fits(&ty, &value) {
        discard(value);
        return None;
    }
    let Ok(mask) = ty.leaves(alloc) else {
        discard(value);
        return None;
    };
    Some(Part { ty, mask, value })
}

/// Lets a value go in a function of its own, since its many variants would else be let go one by one in each proof.
fn discard<T: Drop>(_value: T) {}

/// An update with this part and these overruns.
fn update_of(part: Part, overrun: BitSet) -> ToClient
    requires { FitsField (field.part (part_data part)) }
    ensures can { CanReply (reply_view result) }
    ensures fits { CanEach FitsField (reply_fields (reply_view result)) }
{
    ToClient::MonitorUpdate {
        req: 1,
        sub: 0,
        update: Some((part, overrun)),
    }
}

/// A put of this part.
fn put_of(part: Part) -> ToServer
    requires { FitsField (field.part (part_data part)) }
    ensures can { CanSend (request_view result) }
    ensures fits { CanEach FitsField (request_fields (request_view result)) }
{
    ToServer::Put {
        sid: 0,
        req: 1,
        sub: 0,
        request: None,
        part: PutPart::Given(part),
    }
}

/// The type of a description.
fn type_of(alloc: Global, description: &[u8]) -> Option<PvType> {
    let mut registry = Registry::new(alloc);
    let mut from = Cursor::new(description, Order::Little);
    match read_desc(alloc, &mut from, &mut registry) {
        Ok(ty) => ty,
        Err(_) => None,
    }
}

/// The value that a put brings.
fn value_of(alloc: Global, ty: &PvType, put: &[u8]) -> Option<PvValue>
    requires { 9 ≤ length put.now }
{
    let mut registry = Registry::new(alloc);
    match read_request_part(alloc, Order::Little, 0x0B, put, 9, &mut registry, ty) {
        Ok((_, value)) => Some(value),
        Err(_) => None,
    }
}

/// Reads an update so many times; how often it was read.
fn read_updates(alloc: Global, ty: &PvType, update: &[u8], count: u64) -> u64 {
    let mut registry = Registry::new(alloc);
    let mut read = 0u64;
    for _ in 0..count {
        if read_reply(alloc, Order::Little, 0x0D, update, &mut registry, Some(ty)).is_ok() {
            read = read.wrapping_add(1);
        }
    }
    read
}

/// Reads a put and its part once.
fn read_put(alloc: Global, registry: &mut Registry, ty: &PvType, put: &[u8]) -> bool
    requires { 9 ≤ length put.now }
{
    if read_request(alloc, Order::Little, 0x0B, put, registry).is_err() {
        return false;
    }
    read_request_part(alloc, Order::Little, 0x0B, put, 9, registry, ty).is_ok()
}

/// Reads a put and its part so many times; how often they were read.
fn read_puts(alloc: Global, ty: &PvType, put: &[u8], count: u64) -> u64
    requires { 9 ≤ length put.now }
{
    let mut registry = Registry::new(alloc);
    let mut read = 0u64;
    for _ in 0..count {
        if read_put(alloc, &mut registry, ty, put) {
            read = read.wrapping_add(1);
        }
    }
    read
}

/// Writes an update so many times into one buffer; the bytes of all.
fn write_updates(out: &mut Vec<u8>, message: &ToClient, count: u64) -> u64
    requires can { CanReply (reply_view message.now) }
    requires fits { CanEach FitsField (reply_fields (reply_view message.now)) }
{
    let mut bytes = 0u64;
    for _ in 0..count {
        out.clear();
        if write_to_client(out, Order::Little, 65_528, message).is_ok() {
            bytes = bytes.wrapping_add(out.len() as u64);
        }
    }
    bytes
}

/// Writes a put so many times into one buffer; the bytes of all.
fn write_puts(out: &mut Vec<u8>, message: &ToServer, count: u64) -> u64
    requires can { CanSend (request_view message.now) }
    requires fits { CanEach FitsField (request_fields (request_view message.now)) }
{
    let mut bytes = 0u64;
    for _ in 0..count {
        out.clear();
        if write_to_server(out, Order::Little, 65_528, message).is_ok() {
            bytes = bytes.wrapping_add(out.len() as u64);
        }
    }
    bytes
}

/// Copies bytes so many times into fresh memory.
fn copy_fresh(alloc: Global, bytes: &[u8], count: u64) -> u64 {
    let mut copied = 0u64;
    for _ in 0..count {
        if let Ok(copy) = Vec::from_slice(alloc, bytes) {
            copied = copied.wrapping_add(copy.len() as u64);
        }
    }
    copied
}

/// Copies bytes so many times into one buffer.
fn copy_warm(out: &mut Vec<u8>, bytes: &[u8], count: u64) -> u64 {
    let mut copied = 0u64;
    for _ in 0..count {
        out.clear();
        if out.extend_from_slice(bytes).is_ok() {
            copied = copied.wrapping_add(out.len() as u64);
        }
    }
    copied
}

fn nanoseconds(rt: &HostRuntime, start: Instant) -> io::Result<u64> {
    let taken = start.elapsed(rt)?;
    let whole = taken.as_secs().wrapping_mul(1_000_000_000);
    Ok(whole.wrapping_add(u64::from(taken.subsec_nanos())))
}

/// Tells how long so many messages took, beside a copy of them.
fn show(
    rt: &HostRuntime,
    what: &str,
    size: u64,
    count: u64,
    taken: u64,
    copy: u64,
) -> io::Result<()> {
    let each = count.wrapping_mul(1_000_000) / (taken / 1000).max(1);
    let rate = size.wrapping_mul(count).wrapping_mul(1000) / taken.max(1);
    let ratio = copy.wrapping_mul(100) / taken.max(1);
    println!(rt; "  {what}: {each} messages/s, {rate} MB/s, {ratio} hundredths of a copy")
}

/// The description of a structure of so many ints, whose names have two letters each.
fn ints(alloc: Global, count: u8) -> Result<Vec<u8>, AllocError> {
    let mut out = Vec::new(alloc);
    out.extend_from_slice(&[0x80, 0, count])?;
    for i in 0..count {
        let (high, low) = (i / 16, i % 16);
        out.extend_from_slice(&[2, high.wrapping_add(0x61), low.wrapping_add(0x61), 0x22])?;
    }
    Ok(out)
}

/// The head of a message, a part of so many zero bytes, and what ends it.
fn payload(
    alloc: Global,
    head: &[u8],
    part: &[u8],
    zeros: usize,
    end: &[u8],
) -> Result<Vec<u8>, AllocError> {
    let mut out = Vec::new(alloc);
    out.extend_from_slice(head)?;
    out.extend_from_slice(part)?;
    for _ in 0..zeros {
        out.push(0)?;
    }
    out.extend_from_slice(end)?;
    Ok(out)
}

/// Measures messages of a type, whose put has its part behind 9 bytes.
fn measure(rt: &HostRuntime, name: &str, ty: &PvType, update: &[u8], put: &[u8]) -> io::Result<()>
    requires { 9 ≤ length put.now }
{
    let alloc = rt.alloc();
    let size = update.len() as u64;
    let put_size = put.len() as u64;
    let count = COUNT;
    let mut best = [u64::MAX; 6];
    let mut out: Vec<u8> = Vec::new(alloc);
    let mut sum = 0u64;
    for _ in 0..RUNS {
        let start = Instant::now(rt)?;
        sum = sum.wrapping_add(copy_fresh(alloc, update, count));
        best[0] = best[0].min(nanoseconds(rt, start)?);
        let start = Instant::now(rt)?;
        sum = sum.wrapping_add(copy_warm(&mut out, update, count));
        best[1] = best[1].min(nanoseconds(rt, start)?);
        let start = Instant::now(rt)?;
        sum = sum.wrapping_add(copy_fresh(alloc, put, count));
        best[2] = best[2].min(nanoseconds(rt, start)?);
        let start = Instant::now(rt)?;
        sum = sum.wrapping_add(copy_warm(&mut out, put, count));
        best[3] = best[3].min(nanoseconds(rt, start)?);
        let start = Instant::now(rt)?;
        if read_updates(alloc, ty, update, count) != count {
            return rt.println("an update was refused");
        }
        best[4] = best[4].min(nanoseconds(rt, start)?);
        let start = Instant::now(rt)?;
        if read_puts(alloc, ty, put, count) != count {
            return rt.println("a put was refused");
        }
        best[5] = best[5].min(nanoseconds(rt, start)?);
    }
    let [fresh, warm, put_fresh, put_warm, update_read, put_read] = best;
    println!(rt; "{name}, {size} bytes an update, {put_size} a put ({sum})")?;
    show(rt, "update copied into fresh memory", size, count, fresh, fresh)?;
    show(rt, "update read", size, count, update_read, fresh)?;
    show(rt, "put copied into fresh memory", put_size, count, put_fresh, put_fresh)?;
    show(rt, "put read", put_size, count, put_read, put_fresh)?;
    show(rt, "update copied into one buffer", size, count, warm, warm)?;
    measure_update(rt, ty, put, size, count, warm)?;
    show(rt, "put copied into one buffer", put_size, count, put_warm, put_warm)?;
    measure_put(rt, ty, put, put_size, count, put_warm)
}

/// The part that a put brings, with all leaves marked.
fn whole_part(alloc: Global, ty: &PvType, put: &[u8]) -> Option<Part>
    requires { 9 ≤ length put.now }
    ensures { IfSome result (λ p. FitsField (field.part (part_data p))) }
{
    let value = value_of(alloc, ty, put)?;
    let Ok(again) = ty.clone_in(alloc) else {
        discard(value);
        return None;
    };
    part_of(alloc, again, value)
}

fn measure_update(
    rt: &HostRuntime,
    ty: &PvType,
    put: &[u8],
    size: u64,
    count: u64,
    copy: u64,
) -> io::Result<()>
    requires { 9 ≤ length put.now }
{
    let alloc = rt.alloc();
    let Some(part) = whole_part(alloc, ty, put) else {
        return rt.println("no part");
    };
    let message = update_of(part, BitSet::new(alloc));
    let taken = time_updates(rt, &message, count);
    discard(message);
    show(rt, "update written", size, count, taken?, copy)
}

/// How long the best run takes that writes an update so many times.
fn time_updates(rt: &HostRuntime, message: &ToClient, count: u64) -> io::Result<u64>
    requires can { CanReply (reply_view message.now) }
    requires fits { CanEach FitsField (reply_fields (reply_view message.now)) }
{
    let mut out: Vec<u8> = Vec::new(rt.alloc());
    let all = write_updates(&mut out, message, 1).wrapping_mul(count);
    let mut best = u64::MAX;
    for _ in 0..RUNS {
        let start = Instant::now(rt)?;
        if write_updates(&mut out, message, count) != all {
            rt.println("an update wasn't written")?;
        }
        best = best.min(nanoseconds(rt, start)?);
    }
    Ok(best)
}

fn measure_put(
    rt: &HostRuntime,
    ty: &PvType,
    put: &[u8],
    size: u64,
    count: u64,
    copy: u64,
) -> io::Result<()>
    requires { 9 ≤ length put.now }
{
    let alloc = rt.alloc();
    let Some(part) = whole_part(alloc, ty, put) else {
        return rt.println("no part");
    };
    let message = put_of(part);
    let taken = time_puts(rt, &message, count);
    discard(message);
    show(rt, "put written", size, count, taken?, copy)
}

/// How long the best run takes that writes a put so many times.
fn time_puts(rt: &HostRuntime, message: &ToServer, count: u64) -> io::Result<u64>
    requires can { CanSend (request_view message.now) }
    requires fits { CanEach FitsField (request_fields (request_view message.now)) }
{
    let mut out: Vec<u8> = Vec::new(rt.alloc());
    let all = write_puts(&mut out, message, 1).wrapping_mul(count);
    let mut best = u64::MAX;
    for _ in 0..RUNS {
        let start = Instant::now(rt)?;
        if write_puts(&mut out, message, count) != all {
            rt.println("a put wasn't written")?;
        }
        best = best.min(nanoseconds(rt, start)?);
    }
    Ok(best)
}

/// Measures messages of a value of the described type, whose part is these bytes and so many zeros.
fn measure_type(
    rt: &HostRuntime,
    name: &str,
    description: &[u8],
    part: &[u8],
    zeros: usize,
) -> io::Result<()> {
    let alloc = rt.alloc();
    let Some(ty) = type_of(alloc, description) else {
        return rt.println("no type");
    };
    let Ok(update) = payload(alloc, &[1, 0, 0, 0, 0], part, zeros, &[0]) else {
        return rt.println("no memory");
    };
    let Ok(put) = payload(alloc, &[0, 0, 0, 0, 1, 0, 0, 0, 0], part, zeros, &[]) else {
        return rt.println("no memory");
    };
    if put.len() < 9 {
        return rt.println("no put");
    }
    measure(rt, name, &ty, &update, &put)
}

fn main(rt: HostRuntime) -> io::Result<()> {
    measure_type(
        &rt,
        "scalar",
        &[0x80, 0, 1, 5, 0x76, 0x61, 0x6C, 0x75, 0x65, 0x22],
        &[1, 2],
        4,
    )?;
    measure_type(
        &rt,
        "waveform",
        &[0x80, 0, 1, 5, 0x76, 0x61, 0x6C, 0x75, 0x65, 0x2A],
        &[1, 2, 0xFE, 0xE8, 3, 0, 0],
        4000,
    )?;
    let Ok(group) = ints(rt.alloc(), 40) else {
        return rt.println("no memory");
    };
    measure_type(&rt, "group", &group, &[1, 1], 160)
}
RT
cd "$bench"
rt run 2>"$work/log" || { cat "$work/log"; exit 1; }
