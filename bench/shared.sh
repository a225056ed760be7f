#!/bin/sh
# Puts to a record and gets of it by a desk of one session, and by a desk on a pass of a hall; by the same four times as often, so that
# the history is four times as long; by the same beside 1,000 subscriptions of another record; and by as many desks on passes of one hall
# as there are processors, in a thread each, on a record each and all on one. Prints how many of them are done in a second, by the best of three runs.
# Then it prints what as many threads as there are processors do at a bare word (shared.rs).
# It works in a copy of the crates, since a program of this kind is no part of the repository. Needs `rt` and `rustc`, and takes over what
# was proved of the crates below; the program itself is proved first, which takes ten minutes and more.
set -eu
top=$(cd "$(dirname "$0")/.." && pwd)
work=$(mktemp -d)
trap 'rm -rf "$work"' EXIT
bench=$work/crates/shared_bench
desks=$(nproc)
[ "$desks" -ge 2 ] || desks=2
[ "$desks" -le 64 ] || desks=64
# the counts of desks into whose halves that of all is split again and again, from the least one on
counts=
halve() {
    case " $counts " in *" $1 "*) return 0 ;; esac
    [ "$1" -lt 2 ] || { halve $(($1 / 2)); halve $((($1 + 1) / 2)); }
    counts="$counts $1"
}
halve "$desks"
mkdir -p "$work/crates"
for name in histories hall_core hall_locks pvd_type pvd_value mon_queue db_text nt_types rec_kinds db_load group_defs rec_fields group_view journal_core mon_shown pva_outside desk_api desk_hub desk_core desk_shared; do
    mkdir -p "$work/crates/$name/out"
    for part in src specs proofs; do
        [ ! -d "$top/crates/$name/$part" ] || cp -a "$top/crates/$name/$part" "$work/crates/$name/$part"
    done
    # linked where the folder stands on the same file system
    [ ! -d "$top/crates/$name/out/rlib" ] || cp -al "$top/crates/$name/out/rlib" "$work/crates/$name/out/rlib" 2> /dev/null \
        || cp -a "$top/crates/$name/out/rlib" "$work/crates/$name/out/"
    grep -E "^$name[ :]" "$top/crates.txt" >> "$work/crates.txt"
done
echo 'shared_bench: desk_shared desk_core desk_api hall_locks hall_core mon_shown mon_queue journal_core group_view rec_fields rec_kinds histories nt_types pva_outside pvd_type pvd_value atomic_table' >> "$work/crates.txt"
cp "$top/HANDLES" "$work/HANDLES"
git init -q "$work"
mkdir -p "$bench/proofs" "$bench/proofs/desks/no_ports" "$bench/proofs/desks/watched" "$bench/proofs/desks/with_desk_here" "$bench/proofs/rounds/gets" "$bench/proofs/rounds/leaf_of" "$bench/proofs/rounds/put_times" "$bench/src"
cat > "$bench/src/desks.rt" <<'RT'
// Desks of one session, and on passes.
ghost use Rattle.std.specs.Prelude.{◌≡◌, IfOk, IfSome, IsTrue, is_some, length, true};
ghost use Rattle.desk_api.specs.Sites.{is_channel};
ghost use Rattle.desk_api.specs.Triggers.{may_be_watched};
ghost use Rattle.desk_api.specs.Types.{HoldsLeaves, type_of};
ghost use Rattle.desk_core.specs.Ports.{ports_there, ports_wanted};

use crate::rounds::{Rounds, leaf_of};
use desk_api::{Channel, Desk, NoMemory, Site, found_channels};
use desk_core::{SoloDesk, discard};
use desk_shared::{Hall, Home, Pass, Records, SharedDesk, open_hall};
use pva_outside::{MemoryPort, Port};
use pvd_type::BitSet;
use std::alloc::Global;
use std::marker::Brand;
use std::sync::Wait;
use std::thread::{self, Threads};

/// The records that are put to, and one that is only watched.
const RECORDS: &str = "\
RT
for record in $(seq 0 $((desks - 1))); do echo "record(longout, \\\"R$record\\\") {}"; done >> "$bench/src/desks.rt"
cat >> "$bench/src/desks.rt" <<'RT'
record(longout, \"IDLE\") {}
";

/// The record of this number.
fn name_of(record: u8) -> &'static str {
    match record {
RT
for record in $(seq 1 $((desks - 1))); do echo "        $record => \"R$record\","; done >> "$bench/src/desks.rt"
cat >> "$bench/src/desks.rt" <<'RT'
        _ => "R0",
    }
}

/// The site of these records.
fn site(alloc: Global) -> Result<Site, NoMemory> {
    match Site::build(alloc, RECORDS, &[]) {
        Ok(site) => Ok(site),
        Err(fault) => {
            discard(fault);
            Err(NoMemory)
        }
    }
}

/// No port, where none is wanted.
fn no_port(wanted: bool) -> Result<Option<MemoryPort>, NoMemory>
    ensures { IfOk result (λ port. is_some port ≡ wanted) }
{
    if wanted {
        return Err(NoMemory);
    }
    Ok(None)
}

/// A place without a port for each record, of which none wants one.
fn no_ports(alloc: Global, site: &Site) -> Result<Vec<Option<MemoryPort>>, NoMemory>
    ensures { IfOk result (λ ports. ports_there ports.items ≡ ports_wanted site.now.configs) }
{
    let count = site.records();
    let mut ports = Vec::with_capacity(alloc, count)?;
    for rec in 0..count {
        let place = no_port(site.port(rec).is_some())?;
        ports.push(place)?;
    }
    Ok(ports)
}

/// Done by a desk of one session.
pub(crate) fn solo(alloc: Global, rounds: Rounds) -> u32 {
    let Ok(site) = site(alloc) else {
        return 0;
    };
    let Ok(ports) = no_ports(alloc, &site) else {
        return 0;
    };
    let Ok(mut desk) = SoloDesk::<MemoryPort>::new(alloc, site, ports, u64::MAX) else {
        return 0;
    };
    let done = rounds.with(alloc, &mut desk, "R0");
    discard(desk);
    done
}

/// A site with its hall and first pass.
type Opened = (Site, Hall<Records<MemoryPort>>, Pass<Records<MemoryPort>>);

fn opened(alloc: Global) -> Option<Opened>
    ensures own { IfSome result (λ r. r.2.seat.table_id ≡ r.1.table.shared.table_id) }
    ensures count { IfSome result (λ r. r.1.count ≡ length r.0.names) }
    ensures site { IfSome result (λ r. r.2.seat.me.0.seen.base.site ≡ r.0) }
{
    let Ok(site) = site(alloc) else {
        return None;
    };
    let Ok(ports) = no_ports(alloc, &site) else {
        return None;
    };
    match open_hall(alloc, &site, ports, u64::MAX) {
        Ok((hall, pass)) => Some((site, hall, pass)),
        Err(_) => None,
    }
}

/// What a desk on a pass does.
#[derive(Clone, Copy)]
struct Work {
    rounds: Rounds,
    /// The number of the record.
    record: u8,
    /// Subscriptions of another record, which it begins before.
    idle: u32,
}

/// Done by a desk on this pass.
fn with_desk<R: Wait, P: Port + Drop, K: Home>(
    rt: &R,
    alloc: Global,
    hall: &Hall<Records<P>>,
    site: &Site,
    pass: Pass<Records<P>>,
    work: Work,
) -> u32
    requires hall { hall.now.table.shared.table_id ≡ K.table }
    requires site { site.now ≡ K.base.site }
    requires count { hall.now.count ≡ length site.now.names }
    requires own { pass.seat.table_id ≡ hall.now.table.shared.table_id }
    requires base { pass.seat.me.0.seen.base ≡ K.base }
    requires others { pass.seat.me.0.others ≡ K.others }
{
    match SharedDesk::<'_, R, P, Records<P>, K>::new(rt, alloc, hall, site, pass) {
        Ok(mut desk) => {
            subscribe(alloc, &mut desk, work.idle);
            work.rounds.with(alloc, &mut desk, name_of(work.record))
        }
        Err(_) => 0,
    }
}

/// The same, of a pass of this hall.
fn with_desk_here<R: Wait, P: Port + Drop>(
    rt: &R,
    alloc: Global,
    hall: &Hall<Records<P>>,
    site: &Site,
    pass: Pass<Records<P>>,
    work: Work,
) -> u32
    requires site { pass.seat.me.0.seen.base.site ≡ site.now }
    requires count { hall.now.count ≡ length site.now.names }
    requires own { pass.seat.table_id ≡ hall.now.table.shared.table_id }
{
    with_desk::<R, P, Brand>(rt, alloc, hall, site, pass, work)
}

/// The leaf of a channel's value, where it may be subscribed to.
fn watched<D: Desk>(alloc: Global, desk: &D, channel: Channel) -> Result<BitSet, NoMemory>
    requires { IsTrue (is_channel (D.seat desk.now).seen.base.site channel) }
    ensures may { IfOk result (λ m. may_be_watched (D.seat desk.now).seen.base.site channel ≡ true) }
    ensures leaves { IfOk result (HoldsLeaves (type_of (D.seat desk.now).seen.base.site channel)) }
{
    let Some(ty) = desk.type_of(channel) else {
        return Err(NoMemory);
    };
    leaf_of(alloc, ty)
}

/// Begins so many subscriptions to a record that nobody puts to.
fn subscribe<D: Desk>(alloc: Global, desk: &mut D, times: u32) {
    for _ in 0..times {
        subscribe_once(alloc, desk);
    }
}

fn subscribe_once<D: Desk>(alloc: Global, desk: &mut D) {
    found_channels();
    let Some(channel) = desk.find("IDLE") else {
        return;
    };
    let Ok(mask) = watched(alloc, desk, channel) else {
        return;
    };
    let _ = desk.subscribe(alloc, channel, &mask, 4);
}

/// Done by a desk on a pass of a hall of its own, behind so many subscriptions of another record.
pub(crate) fn alone<R: Wait>(rt: &R, alloc: Global, rounds: Rounds, idle: u32) -> u32 {
    let Some((site, hall, pass)) = opened(alloc) else {
        return 0;
    };
    let work = Work {
        rounds,
        record: 0,
        idle,
    };
    with_desk_here(rt, alloc, &hall, &site, pass, work)
}

/// Done by one desk of several.
fn by_1<R: Wait, P: Port + Drop>(
    rt: &R,
    alloc: Global,
    hall: &Hall<Records<P>>,
    site: &Site,
    pass: Pass<Records<P>>,
    work: Work,
    _step: u8,
) -> u32
    requires site { pass.seat.me.0.seen.base.site ≡ site.now }
    requires count { hall.now.count ≡ length site.now.names }
    requires own { pass.seat.table_id ≡ hall.now.table.shared.table_id }
{
    with_desk_here(rt, alloc, hall, site, pass, work)
}

/// The same, done to the record that is so many times so many behind.
fn behind(work: Work, step: u8, times: u8) -> Work {
    Work {
        rounds: work.rounds,
        record: work.record.wrapping_add(step.wrapping_mul(times)),
        idle: work.idle,
    }
}
RT
for count in $counts; do
    [ "$count" -ge 2 ] || continue
    less=$((count / 2)) more=$((count - count / 2))
    cat >> "$bench/src/desks.rt" <<RT

/// Done by $count desks, each on a pass of its own, in a thread each: by the first as told, and by each other to the record so many behind.
fn by_$count<R: Threads + Wait + Sync, P: Port + Drop + Send>(
    rt: &R,
    alloc: Global,
    hall: &Hall<Records<P>>,
    site: &Site,
    pass: Pass<Records<P>>,
    first: Work,
    step: u8,
) -> u32
    requires site { pass.seat.me.0.seen.base.site ≡ site.now }
    requires count { hall.now.count ≡ length site.now.names }
    requires own { pass.seat.table_id ≡ hall.now.table.shared.table_id }
{
    let mut one = pass;
    let Ok(two) = hall.split(&mut one) else {
        return 0;
    };
    let second = behind(first, step, $more);
    let (a, b) = thread::join(
        rt,
        move || -> u32
            requires { (hall.now.count ≡ length site.now.names) × (one.seat.table_id ≡ hall.now.table.shared.table_id) × (one.seat.me.0.seen.base.site ≡ site.now) }
        { by_$more(rt, alloc, hall, site, one, first, step) },
        move || -> u32
            requires { (hall.now.count ≡ length site.now.names) × (two.seat.table_id ≡ hall.now.table.shared.table_id) × (two.seat.me.0.seen.base.site ≡ site.now) }
        { by_$less(rt, alloc, hall, site, two, second, step) },
    );
    a.saturating_add(b)
}
RT
    mkdir -p "$bench/proofs/desks/by_$count"
    cat > "$bench/proofs/desks/by_$count/Answers.antt" <<ANTT
use contract.Lifetimes.{Lfts}
use denote.Param.{param}
use denote.Param.Send.{IsSend, IsSync, sendable, param_send, arg_send, shr_send, struct_send, enum_send, recorded_send}
use Rattle.std.proofs.Crossing.{crosses, send as heap_send}
use Rattle.hall_locks.proofs.hall.Hall.TheSendSync as hall
use Rattle.hall_locks.proofs.pass.Pass.TheSendSync as pass
use Rattle.desk_shared.proofs.records.RecCell.TheSendSync as cell
use Rattle.desk_shared.proofs.Crossing.{books_send}
use Rattle.desk_api.proofs.Crossing.{site_sync}
use Rattle.shared_bench.proofs.desks.Work.TheSendSync as work
use Rattle.shared_bench.proofs.desks.by_$count.Given.{Over}
use Rattle.shared_bench.proofs.desks.by_$count.Lts as Lts
use Rattle.shared_bench.proofs.desks.by_$count.Goals as goal

-- What a thread takes along, apart from all that is known where it is made: a search among that takes too many steps.
sends : (g : Over) (κs : Lfts 12) → IsSync (param 0 g.row.R) → IsSend (param 1 g.row.P) → IsSend (param 1 (Lts.arg-3-1 g.row.R g.row.P g.R.laws g.P.laws g.R.Threads-dict g.R.Wait-dict g.P.Port-dict g.P.Destruct-dict κs))
sends g κs r p = search (heap_send, pass.the_send, hall.the_sync, cell.the_send, books_send, site_sync, work.the_send, param_send, arg_send, shr_send, struct_send, enum_send, recorded_send) depth 80 fits 20000

pub join-a-requires-send-F : goal.join-a-requires-send-F
join-a-requires-send-F g c κs within = sends g κs c.type_bounds.sync-R c.type_bounds.send-P
ANTT
done
cat >> "$bench/src/desks.rt" <<RT

/// Done by all desks on passes of a hall of their own, in a thread each: each to the record so many behind that of the one before.
pub(crate) fn together<R: Threads + Wait + Sync>(
    rt: &R,
    alloc: Global,
    rounds: Rounds,
    step: u8,
) -> u32 {
    let Some((site, hall, pass)) = opened(alloc) else {
        return 0;
    };
    let first = Work {
        rounds,
        record: 0,
        idle: 0,
    };
    by_$desks(rt, alloc, &hall, &site, pass, first, step)
}
RT
cat > "$bench/src/main.rt" <<'RT'
//! The time of puts and gets by a desk of one session, and by desks on passes of a hall.
#![tactic(auto)]

mod desks;
mod rounds;

use crate::desks::{alone, solo, together};
use crate::rounds::{Rounds, What};
use std::alloc::Global;
use std::io;
use std::rt::Clock;
use std::sync::Wait;
use std::thread::Threads;
use std::time::Instant;

/// So often each does it.
const TIMES: u32 = 200_000;

/// Which desks do it.
#[derive(Clone, Copy)]
enum By {
    /// One of one session.
    Solo,
    /// One on a pass.
    One,
    /// The same, beside 1,000 subscriptions of another record.
    Beside,
    /// As many as there are processors, on passes, in a thread each, on a record each.
    Many,
    /// The same, all on one record.
    Crowd,
}

fn run<R: Threads + Wait + Sync>(rt: &R, alloc: Global, by: By, rounds: Rounds) -> u32 {
    match by {
        By::Solo => solo(alloc, rounds),
        By::One => alone(rt, alloc, rounds, 0),
        By::Beside => alone(rt, alloc, rounds, 1000),
        By::Many => together(rt, alloc, rounds, 1),
        By::Crowd => together(rt, alloc, rounds, 0),
    }
}

/// How many are done, in how many nanoseconds.
fn timed<R: Threads + Wait + Clock + Sync>(
    rt: &R,
    alloc: Global,
    by: By,
    rounds: Rounds,
) -> io::Result<(u32, u64)> {
    let start = Instant::now(rt)?;
    let done = run(rt, alloc, by, rounds);
    let taken = start.elapsed(rt)?;
    let whole = taken.as_secs().wrapping_mul(1_000_000_000);
    Ok((done, whole.wrapping_add(u64::from(taken.subsec_nanos()))))
}

/// How many were done in each of three runs at least, and in how many nanoseconds in the best of them.
fn best<R: Threads + Wait + Clock + Sync>(
    rt: &R,
    alloc: Global,
    by: By,
    rounds: Rounds,
) -> io::Result<(u32, u64)> {
    let mut done = u32::MAX;
    let mut least = u64::MAX;
    for _ in 0..3 {
        let (all, spent) = timed(rt, alloc, by, rounds)?;
        done = done.min(all);
        least = least.min(spent);
    }
    Ok((done, least))
}

/// A line of a name, the number done, and the nanoseconds.
fn line(rt: &HostRuntime, name: &str, told: (u32, u64)) -> io::Result<()> {
    let (done, least) = told;
    println!(rt; "{name} {done} {least}")
}

fn main(rt: HostRuntime) -> io::Result<()> {
    let alloc = rt.alloc();
    let puts = Rounds {
        what: What::Put,
        times: TIMES,
    };
    let gets = Rounds {
        what: What::Get,
        times: TIMES,
    };
    let longer_puts = Rounds {
        what: What::Put,
        times: TIMES.saturating_mul(4),
    };
    let longer_gets = Rounds {
        what: What::Get,
        times: TIMES.saturating_mul(4),
    };
    line(&rt, "solo puts", best(&rt, alloc, By::Solo, puts)?)?;
    line(&rt, "one puts", best(&rt, alloc, By::One, puts)?)?;
    line(&rt, "longer puts", best(&rt, alloc, By::One, longer_puts)?)?;
    line(&rt, "beside puts", best(&rt, alloc, By::Beside, puts)?)?;
    line(&rt, "many puts", best(&rt, alloc, By::Many, puts)?)?;
    line(&rt, "crowd puts", best(&rt, alloc, By::Crowd, puts)?)?;
    line(&rt, "solo gets", best(&rt, alloc, By::Solo, gets)?)?;
    line(&rt, "one gets", best(&rt, alloc, By::One, gets)?)?;
    line(&rt, "longer gets", best(&rt, alloc, By::One, longer_gets)?)?;
    line(&rt, "beside gets", best(&rt, alloc, By::Beside, gets)?)?;
    line(&rt, "many gets", best(&rt, alloc, By::Many, gets)?)?;
    line(&rt, "crowd gets", best(&rt, alloc, By::Crowd, gets)?)?;
    Ok(())
}
RT
cat > "$bench/src/rounds.rt" <<'RT'
// What a desk does so often, whichever desk it is.
ghost use Rattle.std.specs.Prelude.{◌≡◌, IfOk, IsTrue, OnOk, true};
ghost use Rattle.desk_api.specs.Sites.{is_channel};
ghost use Rattle.desk_api.specs.Types.{HoldsLeaves, type_of};
ghost use Rattle.pvd_value.specs.Fits.{fits_of};
ghost use Rattle.pvd_value.specs.View.{view};

use desk_api::{Channel, Desk, Moment, NoMemory, PvType, PvValue, found_channels};
use desk_core::discard;
use pvd_type::BitSet;
use pvd_value::fits;
use rec_fields::view;
use rec_kinds::longout;
use std::alloc::Global;

/// What is done.
#[derive(Clone, Copy)]
pub(crate) enum What {
    /// Puts.
    Put,
    /// Gets.
    Get,
}

/// So many puts to a record, or gets of it.
#[derive(Clone, Copy)]
pub(crate) struct Rounds {
    pub(crate) what: What,
    pub(crate) times: u32,
}

impl Rounds {
    /// Does them, and tells how many were done.
    pub(crate) fn with<D: Desk>(self, alloc: Global, desk: &mut D, name: &str) -> u32 {
        found_channels();
        let Some(channel) = desk.find(name) else {
            return 0;
        };
        match self.what {
            What::Put => puts(alloc, desk, channel, self.times),
            What::Get => gets(alloc, desk, channel, self.times),
        }
    }
}

/// A record's structure with this number.
fn value_with(alloc: Global, number: i32) -> Result<PvValue, NoMemory> {
    let (config, state) = longout(alloc, number)?;
    let value = view(alloc, &config, &state);
    discard(config);
    discard(state);
    value
}

/// The leaf of a record's value, where the value is one of the channel.
fn mask_for<D: Desk>(
    alloc: Global,
    desk: &D,
    channel: Channel,
    value: &PvValue,
) -> Result<BitSet, NoMemory>
    requires { IsTrue (is_channel (D.seat desk.now).seen.base.site channel) }
    ensures fits { OnOk result (fits_of 16 (view value.now) (type_of (D.seat desk.now).seen.base.site channel) ≡ true) }
    ensures leaves { IfOk result (HoldsLeaves (type_of (D.seat desk.now).seen.base.site channel)) }
{
    let Some(ty) = desk.type_of(channel) else {
        return Err(NoMemory);
    };
    if !fits(ty, value) {
        return Err(NoMemory);
    }
    leaf_of(alloc, ty)
}

/// The number 1, where it is a leaf of the type.
pub(crate) fn leaf_of(alloc: Global, ty: &PvType) -> Result<BitSet, NoMemory>
    ensures { IfOk result (HoldsLeaves ty.now) }
{
    let mut mask = BitSet::new(alloc);
    mask.insert(1)?;
    let leaves = ty.leaves(alloc)?;
    mask.meet(&leaves);
    Ok(mask)
}

fn puts<D: Desk>(alloc: Global, desk: &mut D, channel: Channel, times: u32) -> u32
    requires { IsTrue (is_channel (D.seat desk.old).seen.base.site channel) }
{
    let Ok(value) = value_with(alloc, 7) else {
        return 0;
    };
    let done = put_times(alloc, desk, channel, &value, times);
    discard(value);
    done
}

fn put_times<D: Desk>(
    alloc: Global,
    desk: &mut D,
    channel: Channel,
    value: &PvValue,
    times: u32,
) -> u32
    requires { IsTrue (is_channel (D.seat desk.old).seen.base.site channel) }
{
    let Ok(mask) = mask_for(alloc, desk, channel, value) else {
        return 0;
    };
    let mut done = 0u32;
    for _ in 0..times {
        let answer = desk.put(alloc, channel, &mask, value, Moment::new(100, 5), None);
        done = done.saturating_add(u32::from(answer.is_ok()));
    }
    done
}

fn gets<D: Desk>(alloc: Global, desk: &mut D, channel: Channel, times: u32) -> u32
    requires { IsTrue (is_channel (D.seat desk.old).seen.base.site channel) }
{
    let mut done = 0u32;
    for _ in 0..times {
        done = done.saturating_add(get_once(alloc, desk, channel));
    }
    done
}

fn get_once<D: Desk>(alloc: Global, desk: &mut D, channel: Channel) -> u32
    requires { IsTrue (is_channel (D.seat desk.old).seen.base.site channel) }
    ensures { (D.seat desk.new).seen.base ≡ (D.seat desk.old).seen.base }
{
    match desk.get(alloc, channel, None) {
        Ok(value) => {
            discard(value);
            1
        }
        Err(_) => 0,
    }
}
RT
cat > "$bench/proofs/Lib.antt" <<'ANTT'
ANTT
cat > "$bench/proofs/desks/no_ports/Answers.antt" <<'ANTT'
use Rattle.std.proofs.Common.{◌≡◌, ◌+◌, ◌≤◌, ◌++◌, ℕ, suc, [], ◌∷◌, length, take, sym, ap, ◌∙◌, arith}
use Rattle.std.proofs.lemmas.List.{length-map, map-append, take_all}
use Rattle.std.specs.Prelude.{is_some}
use Rattle.rec_kinds.specs.Configs.{Config}
use Rattle.desk_core.proofs.Listing.{valid_count}
use Rattle.desk_core.specs.Ports.{ports_there, ports_wanted}
use Rattle.desk_shared.proofs.Places.{one_more}
use Rattle.shared_bench.proofs.desks.no_ports.Goals as goal

pub loop-rec-preserved : goal.loop-rec-preserved
loop-rec-preserved c =
    let configs = c.args.site.now.configs in
    let ports = c.loop-rec.ports.items in
    let place = c.in_ok-place.place in
    let same : is_some place ≡ is_some c.port.result = c.in_ok-place.ensures {u = tt} ∙ c.is_some.ensures in
    let next : suc c.loop-rec.rec ≡ c.loop-rec.rec + 1 = omega arith in
    ap ports_there c.in_ok-push.ensures.items ∙ map-append (λ p. is_some p) ports (place ∷ [])
    ∙ (λ i. c.loop-rec.invariant i ++ same i ∷ []) ∙ sym (one_more configs c.loop-rec.rec c.port.result c.port.ensures)
    ∙ ap (λ (n : ℕ). take n (ports_wanted configs)) next

pub returns : goal.returns
returns c =
    let configs = c.args.site.now.configs in
    let enough : length (ports_wanted configs) ≤ c.loop-rec.rec = omega (arith, length-map configs (λ (config : Config). is_some config.port), c.loop-rec-test.false, c.records-count.ensures.opening, valid_count _ _ c.records-count.ensures.valid) in
    c.loop-rec.invariant ∙ take_all c.loop-rec.rec (ports_wanted configs) enough
ANTT
cat > "$bench/proofs/desks/no_ports/Invariants.antt" <<'ANTT'
use Rattle.std.proofs.Common.{◌≡◌, take}
use Rattle.desk_core.specs.Ports.{ports_there, ports_wanted}
use Rattle.shared_bench.proofs.desks.no_ports.Given as goal

-- the ports so far are those that are wanted
abbrev pub invariant-loop-rec : goal.invariant-loop-rec
invariant-loop-rec l = ports_there l.ports.items ≡ take l.rec (ports_wanted l.site.configs)
ANTT
cat > "$bench/proofs/desks/watched/Answers.antt" <<'ANTT'
use Rattle.std.proofs.Common.{◌≡◌, Bool, true, false, cond, None, Some, Result, Ok, Err, IfOk, Bor, refl, sym, ap, ◌∙◌}
use Rattle.std.proofs.lemmas.Bool.{false≢true}
use Rattle.std.proofs.lemmas.Option.{none-some}
use Rattle.std.specs.Prelude.{◌&&◌, IsTrue, option_map}
use Rattle.pvd_type.specs.Tree.{Tree}
use Rattle.shared_bench.proofs.desks.watched.Goals as goal

valued : (b : Bool) (t u : Tree) → Some t ≡ cond b (Some u) None → b ≡ true
valued true t u is = refl
valued false t u is = absurd (none-some t (sym is))

both : (a b : Bool) → IsTrue a → b ≡ true → (a && b) ≡ true
both true b here is = is
both false b here is = absurd (false≢true here)

ok_by : {A E P : Type 0} (r : Result A E) → P → IfOk r (λ a. P)
ok_by (Ok a) p = p
ok_by (Err e) p = tt

pub returns-clause-may : goal.returns-clause-may
returns-clause-may g c =
    ok_by c.leaf_of.result (both _ _ c.requires (valued _ c.in-Some.ty.now _ (sym (ap (option_map (λ (t : Bor Tree). t.now)) c.in-Some.is) ∙ c.type_of.ensures)))
ANTT
cat > "$bench/proofs/desks/with_desk_here/Invariants.antt" <<'ANTT'
use Rattle.shared_bench.proofs.desks.with_desk_here.Given as goal

-- the desk's type names this hall, this history, and the logs that the pass took in
abbrev pub ghosts-with_desk : goal.ghosts-with_desk
ghosts-with_desk g a = record { table = a.hall.now.table.shared.table_id; base = a.pass.seat.me.0.seen.base; others = a.pass.seat.me.0.others }
ANTT
cat > "$bench/proofs/rounds/gets/Invariants.antt" <<'ANTT'
use Rattle.std.proofs.Common.{◌≡◌}
use Rattle.shared_bench.proofs.rounds.gets.Given as goal

-- the site stays
abbrev pub invariant-loop : goal.invariant-loop
invariant-loop g l = (g.D.Desk.seat l.desk).seen.base ≡ (g.D.Desk.seat l.fn.desk).seen.base
ANTT
cat > "$bench/proofs/rounds/leaf_of/Answers.antt" <<'ANTT'
use Rattle.std.proofs.Common.{sym, ap, ◌∙◌}
use Rattle.std.proofs.lemmas.Bool.{and_parts}
use Rattle.std.specs.Cmp.{nat_cmp_total}
use Rattle.std.specs.FinSet.{contains, contains-intersection}
use Rattle.shared_bench.proofs.rounds.leaf_of.Goals as goal

pub returns : goal.returns
returns c n marked =
    let both = sym (contains-intersection nat_cmp_total _ _ n) ∙ ap (λ s. contains s n) (sym c.meet.ensures) ∙ marked in
    ap (λ s. contains s n) (sym (c.in_ok-leaves.ensures {u = tt})) ∙ (and_parts _ _ both).1
ANTT
cat > "$bench/proofs/rounds/put_times/Answers.antt" <<'ANTT'
use Rattle.std.proofs.Common.{◌≡◌, ◌∙◌, true, sym, subst}
use Rattle.std.specs.Prelude.{IsTrue}
use Rattle.pvd_value.specs.Fits.{fits_of}
use Rattle.pvd_value.specs.View.{view}
use Rattle.desk_api.specs.Sites.{is_channel}
use Rattle.desk_api.specs.Types.{HoldsLeaves, type_of}
use Rattle.desk_api.specs.declared.history.Base.{Base}
use Rattle.shared_bench.proofs.rounds.put_times.Goals as goal

pub put-answer-requires-clause-channel : goal.put-answer-requires-clause-channel
put-answer-requires-clause-channel g c = subst (λ (b : Base). IsTrue (is_channel b.site c.args.channel)) (sym c.loop.invariant) c.requires

pub put-answer-requires-clause-fits : goal.put-answer-requires-clause-fits
put-answer-requires-clause-fits g c = subst (λ (b : Base). fits_of 16 (view c.args.value.now) (type_of b.site c.args.channel) ≡ true) (sym c.loop.invariant) (c.in-Ok.ensures {u = tt}).fits

pub put-answer-requires-clause-leaves : goal.put-answer-requires-clause-leaves
put-answer-requires-clause-leaves g c = subst (λ (b : Base). HoldsLeaves (type_of b.site c.args.channel) c.in-Ok.mask) (sym c.loop.invariant) (c.in-Ok.ensures {u = tt}).leaves

pub loop-preserved : goal.loop-preserved
loop-preserved g c = c.put-answer.ensures.base ∙ c.loop.invariant
ANTT
cat > "$bench/proofs/rounds/put_times/Invariants.antt" <<'ANTT'
use Rattle.std.proofs.Common.{◌≡◌}
use Rattle.shared_bench.proofs.rounds.put_times.Given as goal

-- the site stays
abbrev pub invariant-loop : goal.invariant-loop
invariant-loop g l = (g.D.Desk.seat l.desk).seen.base ≡ (g.D.Desk.seat l.fn.desk).seen.base
ANTT
cd "$bench"
rt run > "$work/told" 2> "$work/log" || { cat "$work/log"; exit 1; }
awk -v cores="$(nproc)" -v desks="$desks" '
    function expected(name) { return 200000 * (name == "longer" ? 4 : name == "many" || name == "crowd" ? desks : 1) }
    function told(text, name, beside) {
        printf "  %s: %d, %.0f ns each, %.0f a second, ratio to %s %.2f\n", text, count[name, what], 1e9 / per[name, what], per[name, what], beside == "solo" ? "that" : "one", per[name, what] / per[beside, what]
    }
    $3 != expected($1) { printf "%s %s: %d were done\n", $1, $2, $3; failed = 1; exit }
    { count[$1, $2] = $3; per[$1, $2] = $3 * 1e9 / $4 }
    END {
        if (failed) exit 1
        printf "%d cores\n", cores
        split("puts gets", kinds, " ")
        for (n = 1; n <= 2; n++) {
            what = kinds[n]
            printf "%s by a desk of one session: %d, %.0f ns each, %.0f a second\n", what, count["solo", what], 1e9 / per["solo", what], per["solo", what]
            told("one desk on a pass", "one", "solo")
            told("with four times as many", "longer", "one")
            told("beside 1,000 subscriptions of another record", "beside", "one")
            told(desks " desks in threads, on a record each", "many", "one")
            told(desks " desks in threads, on one record", "crowd", "one")
        }
    }' "$work/told"
rustc --edition 2021 -O -o "$work/bare" "$top/bench/shared.rs"
"$work/bare"
