#!/bin/sh
# Puts a number to a longout, processes the record without a put, and views it: a longout without fields, and one with a long
# DESC, limits and severities, whose figures are the same where no configuration is copied. Then puts a list of longs to a
# waveform, processes it and views it, for lists of 1,024, 4,096 and 16,384 elements, and copies as many longs into fresh
# memory. Prints the nanoseconds of a processor that one round took, of the best of five runs, and of a list's round also for
# each element. It works in a copy of the crates, since a program of this kind is no part of the repository. Needs `rt`,
# `/usr/bin/time` and some minutes.
set -eu
top=$(cd "$(dirname "$0")/.." && pwd)
work=$(mktemp -d)
trap 'rm -rf "$work"' EXIT
mkdir -p "$work/crates/records_bench/src"
for name in pvd_type pvd_value nt_types rec_kinds rec_fields; do
    mkdir -p "$work/crates/$name"
    (cd "$top/crates/$name" && cp -r src specs proofs "$work/crates/$name/")
    # What is proved already isn't proved again.
    for kept in rlib incremental; do
        [ ! -d "$top/crates/$name/out/$kept" ] || { mkdir -p "$work/crates/$name/out" && cp -r "$top/crates/$name/out/$kept" "$work/crates/$name/out/"; }
    done
    grep -E "^$name:" "$top/crates.txt" >> "$work/crates.txt"
done
echo 'records_bench: rec_fields rec_kinds nt_types pvd_value pvd_type' >> "$work/crates.txt"
git init -q "$work"
cat > "$work/crates/records_bench/src/main.rt" <<'RT'
//! Puts, processes and views a record so many times, or copies the elements of its list.
#![tactic(auto)]

ghost use Rattle.std.specs.Prelude.{◌≡◌, true, IfSome};
ghost use Rattle.pvd_value.specs.Fits.{fits_of};
ghost use Rattle.pvd_value.specs.View.{view as value_view};
ghost use Rattle.rec_kinds.specs.Validity.{IsValid, MayBeDone};
ghost use Rattle.rec_fields.specs.Types.{record_tree};

use pvd_type::{BitSet, Name, NoMemory};
use pvd_value::{Items, PvValue, fits};
use rec_fields::{Action, RecConfig, RecState, action_of, type_of, view};
use rec_kinds::{Datum, FieldText, Kind, Moment, build, process};
use std::alloc::Global;
use std::{env, io};

/// The fields of a longout with limits and severities, and of a waveform of longs.
const LIMITED: &str = "DESC=a description of nearly forty bytes here;VAL=42;DRVL=0;DRVH=1000;HIHI=900;HHSV=MAJOR;HIGH=800;HSV=MINOR;LOW=20;LSV=MINOR;LOLO=10;LLSV=MAJOR";
const LONGS: &str = "FTVL=LONG;NELM=16384";

/// The fields that a text gives: names and texts, divided by `=`, with `;` between any two.
fn fields(alloc: Global, given: &str) -> Result<Vec<FieldText>, NoMemory> {
    let mut fields = Vec::new(alloc);
    for field in given.split(';') {
        if let Some((name, text)) = field.split_once('=') {
            fields.push(FieldText {
                name: Name::of(alloc, name)?,
                text: Name::of(alloc, text)?,
                line: 1,
            })?;
        }
    }
    Ok(fields)
}

/// So many longs.
fn longs(alloc: Global, count: i32) -> Result<Vec<i32>, NoMemory> {
    let mut items: Vec<i32> = Vec::new(alloc);
    for i in 0..count {
        items.push(i)?;
    }
    Ok(items)
}

fn discard<T: Drop>(_value: T) {}

/// The number that a record holds, or how many elements.
fn held(state: &RecState) -> u64 {
    match &state.datum {
        Datum::Num(number) => number.unsigned_abs(),
        Datum::Nums(numbers) => numbers.len() as u64,
        Datum::Index(_) | Datum::Text(_) | Datum::Texts(_) => 0,
    }
}

/// A put, and the processing that follows.
fn put_once(
    alloc: Global,
    config: &RecConfig,
    state: &RecState,
    value: &PvValue,
    mask: &BitSet,
) -> u64
    requires valid { IsValid config.now state.now }
    requires fits { fits_of 16 (value_view value.now) (record_tree config.now) ≡ true }
{
    match action_of(alloc, config, value, mask) {
        Ok(action) => process_once(alloc, config, state, &action),
        Err(_) => 0,
    }
}

fn process_once(alloc: Global, config: &RecConfig, state: &RecState, action: &Action) -> u64
    requires valid { IsValid config.now state.now }
    requires may { MayBeDone config.now action.now }
{
    match process(alloc, config, state, action, Moment::zero(), true) {
        Ok(new) => held(&new),
        Err(_) => 0,
    }
}

fn view_once(alloc: Global, config: &RecConfig, state: &RecState) -> u64
    requires valid { IsValid config.now state.now }
{
    match view(alloc, config, state) {
        Ok(shown) => shown.members().len() as u64,
        Err(_) => 0,
    }
}

fn copy_once(alloc: Global, items: &[i32]) -> u64 {
    match Vec::from_slice(alloc, items) {
        Ok(copy) => copy.len() as u64,
        Err(_) => 0,
    }
}

fn puts(
    alloc: Global,
    config: &RecConfig,
    state: &RecState,
    value: &PvValue,
    mask: &BitSet,
    rounds: u32,
) -> u64
    requires valid { IsValid config.now state.now }
    requires fits { fits_of 16 (value_view value.now) (record_tree config.now) ≡ true }
{
    let mut sum = 0u64;
    for _ in 0..rounds {
        sum = sum.wrapping_add(put_once(alloc, config, state, value, mask));
    }
    sum
}

fn processes(alloc: Global, config: &RecConfig, state: &RecState, rounds: u32) -> u64
    requires valid { IsValid config.now state.now }
{
    let mut sum = 0u64;
    for _ in 0..rounds {
        sum = sum.wrapping_add(process_once(alloc, config, state, &Action::Process));
    }
    sum
}

fn views(alloc: Global, config: &RecConfig, state: &RecState, rounds: u32) -> u64
    requires valid { IsValid config.now state.now }
{
    let mut sum = 0u64;
    for _ in 0..rounds {
        sum = sum.wrapping_add(view_once(alloc, config, state));
    }
    sum
}

fn copies(alloc: Global, items: &[i32], rounds: u32) -> u64 {
    let mut sum = 0u64;
    for _ in 0..rounds {
        sum = sum.wrapping_add(copy_once(alloc, items));
    }
    sum
}

/// The value's leaf marked, where a value is of the record's type.
fn marked(alloc: Global, config: &RecConfig, value: &PvValue) -> Option<BitSet>
    ensures { IfSome result (λ _. fits_of 16 (value_view value.now) (record_tree config.now) ≡ true) }
{
    let Ok(ty) = type_of(alloc, config) else {
        return None;
    };
    if !fits(&ty, value) {
        return None;
    }
    let mut mask = BitSet::new(alloc);
    match mask.insert(1) {
        Ok(()) => Some(mask),
        Err(_) => None,
    }
}

/// What a record shows, with another value.
fn with_value(
    alloc: Global,
    config: &RecConfig,
    state: &RecState,
    value: PvValue,
) -> Result<PvValue, NoMemory>
    requires valid { IsValid config.now state.now }
{
    let mut shown = view(alloc, config, state)?;
    if let PvValue::Struct(members) = &mut shown {
        if let Some(first) = members.first_mut() {
            *first = value;
        }
    }
    Ok(shown)
}

/// A step of a record so many times: a put of the value, a process or a view of the state in which a put of it leaves the
/// record; or nothing.
fn run(
    alloc: Global,
    config: &RecConfig,
    old: &RecState,
    value: &PvValue,
    step: &str,
    rounds: u32,
) -> u64
    requires valid { IsValid config.now old.now }
{
    let Some(mask) = marked(alloc, config, value) else {
        return 0;
    };
    let Ok(action) = action_of(alloc, config, value, &mask) else {
        return 0;
    };
    let Ok(state) = process(alloc, config, old, &action, Moment::zero(), true) else {
        return 0;
    };
    match step {
        "put" => puts(alloc, config, &state, value, &mask, rounds),
        "process" => processes(alloc, config, &state, rounds),
        "view" => views(alloc, config, &state, rounds),
        _ => 0,
    }
}

/// The same for a record of this kind and these fields.
fn run_with(alloc: Global, kind: Kind, given: &str, put: PvValue, step: &str, rounds: u32) -> u64 {
    let Ok(fields) = fields(alloc, given) else {
        discard(put);
        return 0;
    };
    let Ok((config, state)) = build(alloc, kind, &fields) else {
        discard(put);
        return 0;
    };
    match with_value(alloc, &config, &state, put) {
        Ok(value) => run(alloc, &config, &state, &value, step, rounds),
        Err(_) => 0,
    }
}

/// A step of a waveform with so many longs.
fn run_list(alloc: Global, count: i32, step: &str, rounds: u32) -> u64 {
    let Ok(items) = longs(alloc, count) else {
        return 0;
    };
    if step == "copy" {
        return copies(alloc, &items, rounds);
    }
    let list = PvValue::List(Items::I32(items));
    run_with(alloc, Kind::Waveform, LONGS, list, step, rounds)
}

fn run_case(alloc: Global, case: &str, step: &str, rounds: u32) -> u64 {
    match case {
        "bare" => run_with(alloc, Kind::Longout, "VAL=42", PvValue::I32(7), step, rounds),
        "limited" => run_with(alloc, Kind::Longout, LIMITED, PvValue::I32(7), step, rounds),
        "1024" => run_list(alloc, 1_024, step, rounds),
        "4096" => run_list(alloc, 4_096, step, rounds),
        _ => run_list(alloc, 16_384, step, rounds),
    }
}

fn main(rt: HostRuntime) -> io::Result<()> {
    let mut arguments = env::args(&rt)?;
    let _name = arguments.next();
    let words: Vec<String> = arguments.collect(rt.alloc())?;
    let [case, step, rounds] = words.as_slice() else {
        return rt.println("a record, a step and a number of rounds");
    };
    let rounds = rounds.as_str().parse().unwrap_or(0);
    let sum = run_case(rt.alloc(), case.as_str(), step.as_str(), rounds);
    println!(rt; "{sum}")
}
RT
cd "$work/crates/records_bench"
rt run 2>"$work/log" >/dev/null || { cat "$work/log"; exit 1; }

# The nanoseconds of a processor for a round: of so many rounds, less those of none.
round() {
    for _ in 1 2 3 4 5; do
        /usr/bin/time -f '%U %S' -o "$work/none" out/records_bench "$1" "$2" 0 >/dev/null
        /usr/bin/time -f '%U %S' -o "$work/all" out/records_bench "$1" "$2" "$3" >/dev/null
        cat "$work/none" "$work/all" | tr '\n' ' ' | awk -v n="$3" '{ printf "%.1f\n", ($3 + $4 - $1 - $2) * 1e9 / n }'
    done | sort -n | head -1
}

for case in bare limited; do
    echo "$case longout: put $(round "$case" put 2000000) ns, process $(round "$case" process 5000000) ns, view $(round "$case" view 1000000) ns"
done
for count in 1024 4096 16384; do
    rounds=$((200000000 / count))
    for step in put process view copy; do
        [ "$step" = process ] && times=5000000 || times=$rounds
        round "$count" "$step" "$times" | awk -v n="$count" -v s="$step" '{ printf "%d longs: %s %s ns, %.3f ns an element\n", n, s, $1, $1 / n }'
    done
done
