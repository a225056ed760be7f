#!/bin/sh
# Pops updates of a monitor's queue and posts them again, and squashes posts into the newest update of a full queue, for a
# scalar of 7 leaves and for a group of 40, both with 2 marked leaves. Prints how many of them are done in a second, by the
# best of five runs.
# It works in a copy of the crates, since a program of this kind is no part of the repository. Needs `rt` and about two minutes.
set -eu
top=$(cd "$(dirname "$0")/.." && pwd)
work=$(mktemp -d)
trap 'rm -rf "$work"' EXIT
bench=$work/crates/queue_bench
mkdir -p "$bench/src" "$bench/proofs/post" "$bench/proofs/squash_all" "$bench/proofs/filled"
for name in pvd_type pvd_value mon_queue; do
    mkdir "$work/crates/$name"
    cp -r "$top/crates/$name/src" "$top/crates/$name/specs" "$top/crates/$name/proofs" "$work/crates/$name/"
done
grep -E '^(pvd_type|pvd_value|mon_queue):' "$top/crates.txt" > "$work/crates.txt"
echo 'queue_bench: mon_queue pvd_value pvd_type' >> "$work/crates.txt"
git init -q "$work"
cat > "$bench/src/main.rt" <<'RT'
//! How fast a queue takes posts and gives updates.
#![tactic(auto)]

ghost use Rattle.std.specs.Prelude.{◌≡◌, ◌≤◌, IfOk};
ghost use Rattle.mon_queue.specs.Told.{IsPostOf};
ghost use Rattle.mon_queue.specs.Unread.{type_of};

use mon_queue::{MonQueue, NoMemory, Post};
use pvd_type::{BitSet, Member, Name, Node, PvType, Shape, Scalar};
use pvd_value::blank;
use std::alloc::Global;
use std::io;
use std::time::Instant;

const NAMES: [&str; 8] = ["a", "b", "c", "d", "e", "f", "g", "h"];

/// A structure with as many members as there are names, all of one shape.
fn structure(alloc: Global, names: &[&str], shape: &Shape) -> Result<Shape, NoMemory> {
    let mut members = Vec::new(alloc);
    for name in names {
        members.push(Member {
            name: Name::of(alloc, name)?,
            shape: shape.clone_in(alloc)?,
        })?;
    }
    Ok(Shape::Struct(Node::of(alloc, Name::of(alloc, "")?, members)?))
}

/// So many structures of so many ints each.
fn type_with(alloc: Global, outer: usize, inner: usize) -> Result<PvType, NoMemory> {
    let ints = structure(alloc, &NAMES[..inner.min(8)], &Shape::Plain(Scalar::I32))?;
    let all = structure(alloc, &NAMES[..outer.min(8)], &ints)?;
    let Ok(ty) = PvType::check(alloc, all) else {
        return Err(NoMemory);
    };
    Ok(ty)
}

/// The set of two numbers.
fn bits(alloc: Global, first: u16, second: u16) -> Result<BitSet, NoMemory> {
    let mut set = BitSet::new(alloc);
    set.insert(u32::from(first))?;
    set.insert(u32::from(second))?;
    Ok(set)
}

/// A post of those of the two numbers that are leaves.
fn post(alloc: Global, ty: &PvType, first: u16, second: u16) -> Result<Post, NoMemory>
    ensures { IfOk result (IsPostOf ty.now) }
{
    let value = blank(alloc, ty)?;
    let mut mask = ty.leaves(alloc)?;
    mask.meet(&bits(alloc, first, second)?);
    Ok(Post { mask, value })
}

/// Pops an update and posts it again.
fn turn(alloc: Global, queue: &mut MonQueue) -> Result<(), NoMemory> {
    let Some(update) = queue.pop() else {
        return Ok(());
    };
    let again = Post {
        mask: update.changed,
        value: update.value,
    };
    let prepared = queue.prepare(alloc, again)?;
    queue.apply(prepared);
    Ok(())
}

fn turns(alloc: Global, queue: &mut MonQueue, count: u32) -> Result<(), NoMemory> {
    for _ in 0..count {
        turn(alloc, queue)?;
    }
    Ok(())
}

/// Moves one update of a queue into another as a post.
fn squash(alloc: Global, from: &mut MonQueue, into: &mut MonQueue) -> Result<(), NoMemory>
    requires { type_of from.old ≡ type_of into.old }
    ensures { type_of from.new ≡ type_of into.new }
{
    let Some(update) = from.pop() else {
        return Ok(());
    };
    let given = Post {
        mask: update.changed,
        value: update.value,
    };
    let prepared = into.prepare(alloc, given)?;
    into.apply(prepared);
    Ok(())
}

/// Does so 64 times.
fn squash_all(alloc: Global, from: &mut MonQueue, into: &mut MonQueue) -> Result<(), NoMemory>
    requires { type_of from.old ≡ type_of into.old }
{
    for _ in 0..64 {
        squash(alloc, from, into)?;
    }
    Ok(())
}

/// A queue with one post of a type, and the post's leaves.
fn begin(alloc: Global, ty: &PvType, marks: (u16, u16), size: u32) -> Result<MonQueue, NoMemory>
    requires { (1 ≤ size) × (size ≤ 64) }
    ensures { IfOk result (λ q. type_of q ≡ ty.now) }
{
    let first = post(alloc, ty, marks.0, marks.1)?;
    MonQueue::start(alloc, ty.clone_in(alloc)?, first.mask, first.value, size)
}

fn add(alloc: Global, queue: &mut MonQueue, marks: (u16, u16)) -> Result<(), NoMemory>
    ensures { type_of queue.new ≡ type_of queue.old }
{
    let given = post(alloc, queue.ty(), marks.0, marks.1)?;
    let prepared = queue.prepare(alloc, given)?;
    queue.apply(prepared);
    Ok(())
}

/// A queue of 64 posts.
fn filled(alloc: Global, ty: &PvType, marks: (u16, u16)) -> Result<MonQueue, NoMemory>
    ensures { IfOk result (λ q. type_of q ≡ ty.now) }
{
    let mut queue = begin(alloc, ty, marks, 64)?;
    for _ in 0..63 {
        add(alloc, &mut queue, marks)?;
    }
    Ok(queue)
}

fn nanoseconds(rt: &HostRuntime, start: Instant) -> io::Result<u64> {
    let taken = start.elapsed(rt)?;
    let whole = taken.as_secs().wrapping_mul(1_000_000_000);
    Ok(whole.wrapping_add(u64::from(taken.subsec_nanos())))
}

/// The nanoseconds of a thousand times 64 squashed posts.
fn squashing(rt: &HostRuntime, ty: &PvType, marks: (u16, u16)) -> io::Result<u64> {
    let mut spent = 0u64;
    for _ in 0..1000 {
        spent = spent.wrapping_add(one_round(rt, ty, marks)?);
    }
    Ok(spent)
}

fn one_round(rt: &HostRuntime, ty: &PvType, marks: (u16, u16)) -> io::Result<u64> {
    let alloc = rt.alloc();
    let Ok(mut from) = filled(alloc, ty, marks) else {
        return Ok(0);
    };
    let Ok(mut into) = begin(alloc, ty, marks, 1) else {
        return Ok(0);
    };
    let start = Instant::now(rt)?;
    let done = squash_all(alloc, &mut from, &mut into);
    let spent = nanoseconds(rt, start)?;
    if done.is_err() {
        return Ok(0);
    }
    Ok(spent)
}

/// The nanoseconds of a million pops and posts.
fn turning(rt: &HostRuntime, ty: &PvType, marks: (u16, u16)) -> io::Result<u64> {
    let Ok(mut queue) = begin(rt.alloc(), ty, marks, 4) else {
        return Ok(0);
    };
    let start = Instant::now(rt)?;
    let done = turns(rt.alloc(), &mut queue, 1_000_000);
    let spent = nanoseconds(rt, start)?;
    if done.is_err() {
        return Ok(0);
    }
    Ok(spent)
}

fn measure(rt: &HostRuntime, name: &str, sizes: (usize, usize), marks: (u16, u16)) -> io::Result<()> {
    let Ok(ty) = type_with(rt.alloc(), sizes.0, sizes.1) else {
        return rt.println("no memory");
    };
    let mut turned = u64::MAX;
    let mut squashed = u64::MAX;
    for _ in 0..5 {
        turned = turned.min(turning(rt, &ty, marks)?);
        squashed = squashed.min(squashing(rt, &ty, marks)?);
    }
    let pairs = 1_000_000_000_000_000u64 / turned.max(1);
    let joins = 64_000_000_000_000u64 / squashed.max(1);
    println!(rt; "{name}: {pairs} posts and pops a second, {joins} squashed posts a second")
}

fn main(rt: HostRuntime) -> io::Result<()> {
    measure(&rt, "a scalar of 7 leaves", (1, 7), (2, 6))?;
    measure(&rt, "a group of 40 leaves", (5, 8), (2, 40))
}
RT
cat > "$bench/proofs/Lib.antt" <<'ANTT'
ANTT
cat > "$bench/proofs/post/Answers.antt" <<'ANTT'
use Rattle.std.proofs.Common.{◌≡◌, ◌∙◌, true, ap}
use Rattle.std.specs.Ordering.{nat_cmp}
use Rattle.std.specs.FinSet.{FinSet, intersection}
use Rattle.pvd_type.specs.Numbers.{leaves}
use Rattle.mon_queue.specs.Told.{are_leaves}
use Rattle.mon_queue.proofs.Rings.{both_leaves, all_leaves}
use Rattle.queue_bench.proofs.post.Goals as goal

pub returns : goal.returns
returns c =
    let t = c.args.ty.now in
    let others = c.in_ok-bits.field-0 in
    record {
      fits = c.in_ok-value.ensures.fits;
      mask =
          ap (are_leaves t) (c.meet.ensures ∙ ap (λ (s : FinSet nat_cmp). intersection s others) (c.in_ok-mask.ensures {u = tt}))
          ∙ both_leaves t (leaves t) others (all_leaves t);
    }
ANTT
cat > "$bench/proofs/squash_all/Invariants.antt" <<'ANTT'
use Rattle.std.proofs.Common.{◌≡◌}
use Rattle.mon_queue.specs.Unread.{type_of}
use Rattle.queue_bench.proofs.squash_all.Given as goal

abbrev pub invariant-loop : goal.invariant-loop
invariant-loop l = type_of l.from ≡ type_of l.into
ANTT
cat > "$bench/proofs/filled/Invariants.antt" <<'ANTT'
use Rattle.std.proofs.Common.{◌≡◌}
use Rattle.mon_queue.specs.Unread.{type_of}
use Rattle.queue_bench.proofs.filled.Given as goal

abbrev pub invariant-loop : goal.invariant-loop
invariant-loop l = type_of l.queue ≡ l.ty
ANTT
cd "$bench"
rt run 2>"$work/log" || { cat "$work/log"; exit 1; }
