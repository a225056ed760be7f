#!/bin/sh
# Reads 1 MiB of groups in each of four shapes, five times each: 1,024 groups of many records, full groups whose members
# trigger all, full groups whose triggers name many members, and one group with too many members. Prints the bytes, how
# many groups were read, and the best processor time in microseconds.
# It works in a copy of the crates, since a program of this kind is no part of the repository. Needs `rt` and some minutes.
set -eu
top=$(cd "$(dirname "$0")/.." && pwd)
work=$(mktemp -d)
trap 'rm -rf "$work"' EXIT
mkdir -p "$work/crates/groups_bench/src"
for name in pvd_type rec_kinds group_defs; do cp -r "$top/crates/$name" "$work/crates/"; done
grep -E '^(pvd_type|rec_kinds|group_defs):' "$top/crates.txt" > "$work/crates.txt"
echo 'groups_bench: group_defs pvd_type rec_kinds' >> "$work/crates.txt"
git init -q "$work"
cat > "$work/crates/groups_bench/src/main.rt" <<'RT'
//! How fast groups are read.
#![tactic(auto)]

use group_defs::read_groups;
use pvd_type::{Name, NoMemory};
use rec_kinds::{Info, Items, Kind, RecText};
use std::alloc::Global;
use std::io;
use std::time::CpuClock;

/// How many bytes of JSON are read.
const BYTES: usize = 1_048_576;

/// A record with one info.
fn record(alloc: Global, number: u32, json: &str) -> Result<RecText, NoMemory> {
    let name = format!(in alloc; "BL:M1:Rec{number}")?;
    let mut infos = Vec::new(alloc);
    infos.push(Info {
        name: Name::of(alloc, "Q:group")?,
        text: Name::of(alloc, json)?,
        json: true,
        line: 1,
    })?;
    Ok(RecText {
        kind: Kind::Longout,
        name: Name::of(alloc, name.as_str())?,
        fields: Items::from_vec(Vec::new(alloc)),
        infos: Items::from_vec(infos),
        line: 1,
    })
}

/// The object of a member with this trigger.
fn member(alloc: Global, number: u32, trigger: &str) -> Result<String, NoMemory> {
    Ok(format!(in alloc; "\"m{number}\":{{\"+channel\":\"VAL\",\"+type\":\"plain\",\"+putorder\":{number},\"+trigger\":\"{trigger}\"}}")?)
}

/// An object with so many members of a group.
fn group(alloc: Global, name: u32, first: u32, count: u32, trigger: &str) -> Result<String, NoMemory> {
    let mut json = format!(in alloc; "{{\"BL:M1:G{name}\":{{\"+atomic\":true")?;
    for number in 0..count {
        json.push_str(",")?;
        json.push_str(member(alloc, first.wrapping_add(number), trigger)?.as_str())?;
    }
    json.push_str("}}")?;
    Ok(json)
}

/// The names of the first members, divided by commas.
fn names(alloc: Global, count: u32) -> Result<String, NoMemory> {
    let mut text = String::from_str(alloc, "m0")?;
    for number in 1..count {
        text.push_str(&format!(in alloc; ", m{number}")?)?;
    }
    Ok(text)
}

/// Records that state groups in turn, each so many members.
fn records(alloc: Global, groups: u32, count: u32, trigger: &str) -> Result<Vec<RecText>, NoMemory> {
    let mut texts = Vec::new(alloc);
    let mut bytes = 0usize;
    for number in 0..u32::MAX {
        let first = (number / groups.max(1)).wrapping_mul(count);
        let json = group(alloc, number % groups.max(1), first, count, trigger)?;
        bytes = bytes.wrapping_add(json.len());
        if bytes > BYTES {
            break;
        }
        texts.push(record(alloc, number, json.as_str())?)?;
    }
    Ok(texts)
}

/// The best processor time of five, in microseconds, and how many groups were read.
fn best(rt: &HostRuntime, texts: &[RecText]) -> io::Result<(u64, usize)> {
    let mut least = u64::MAX;
    let mut count = 0;
    for _ in 0..5 {
        let start = rt.process_cpu_time()?;
        if let Ok(groups) = read_groups(rt.alloc(), texts) {
            count = groups.len();
        }
        let taken = rt.process_cpu_time()?.saturating_sub(start);
        let microseconds = taken
            .as_secs()
            .wrapping_mul(1_000_000)
            .wrapping_add(u64::from(taken.subsec_nanos() / 1000));
        least = least.min(microseconds);
    }
    Ok((least, count))
}

fn show(rt: &HostRuntime, what: &str, texts: Result<Vec<RecText>, NoMemory>) -> io::Result<()> {
    let Ok(texts) = texts else {
        return rt.println("no memory");
    };
    let mut bytes = 0usize;
    for text in &texts {
        for info in text.infos.as_slice() {
            bytes = bytes.wrapping_add(info.text.as_str().len());
        }
    }
    let (least, count) = best(rt, &texts)?;
    let records = texts.len();
    println!(rt; "{what}: {bytes} bytes, {records} records, {count} groups: {least} us")
}

fn main(rt: HostRuntime) -> io::Result<()> {
    let alloc = rt.alloc();
    show(&rt, "many groups", records(alloc, 1024, 4, ""))?;
    show(&rt, "members that trigger all", records(alloc, 60, 64, "*"))?;
    let Ok(few) = names(alloc, 64) else {
        return rt.println("no memory");
    };
    show(&rt, "members that trigger 64 by name", records(alloc, 12, 64, few.as_str()))?;
    show(&rt, "too many members", records(alloc, 1, 64, "*"))
}
RT
cd "$work/crates/groups_bench"
rt run 2>"$work/log" || { cat "$work/log"; exit 1; }
