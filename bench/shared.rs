//! What as many threads as there are processors do at one word, as desks do at the hub's, with the standard library alone: own work of about
//! 200 ns, and then a step at a word that all share. Each line is one kind of step, by one thread and by all: the median of 15 short runs
//! in turns, in nanoseconds from one step to the next.

use std::hint::black_box;
use std::sync::atomic::{AtomicU64, Ordering::SeqCst};
use std::time::Instant;

/// Steps of a thread in one run.
const STEPS: u64 = 20_000;

/// Runs of each kind.
const RUNS: usize = 15;

/// What a thread works by itself between two steps, in nanoseconds.
const OWN: u64 = 200;

/// A word, and behind it, in other lines of the cache, what is kept under it.
#[repr(align(128))]
struct Shared {
    word: AtomicU64,
    apart: [u64; 31],
    kept: [u64; 16],
}

/// What is done at the word.
#[derive(Clone, Copy)]
enum Step {
    /// One is added to it.
    Add,
    /// It is taken, as soon as it is free, and given back.
    Take,
    /// And so many words that are kept under it are moved out and back meanwhile.
    Move(usize),
}

/// So many rounds of work that share nothing.
fn work(rounds: u64) {
    let mut number = 1u64;
    for round in 0..rounds {
        number = black_box(
            number
                .wrapping_mul(6_364_136_223_846_793_005)
                .wrapping_add(round),
        );
    }
    black_box(number);
}

/// How many rounds of work take so many nanoseconds, by the fastest of several runs.
fn rounds_in(nanoseconds: u64) -> u64 {
    let many = 100_000;
    let runs = (0..RUNS).map(|_run| {
        let start = Instant::now();
        work(many);
        start.elapsed().as_nanos() as u64
    });
    many * nanoseconds / runs.min().unwrap_or(1).max(1)
}

/// Takes the word, and looks at it while it is taken.
fn take(word: &AtomicU64) {
    while word.compare_exchange(0, 1, SeqCst, SeqCst).is_err() {
        for _ in 0..256 {
            if word.load(SeqCst) == 0 {
                break;
            }
        }
    }
}

/// One step.
fn step(shared: *mut Shared, kind: Step) {
    // the word is shared by reference alone, and what is kept under it is touched by whoever has the word
    let word = unsafe { &(*shared).word };
    match kind {
        Step::Add => {
            word.fetch_add(1, SeqCst);
        }
        Step::Take => {
            take(word);
            word.swap(0, SeqCst);
        }
        Step::Move(words) => {
            take(word);
            let mut out = [0u64; 16];
            unsafe {
                let kept = std::ptr::addr_of_mut!((*shared).kept).cast::<u64>();
                for (at, number) in out.iter_mut().enumerate().take(words) {
                    *number = black_box(kept.add(at).read());
                }
                out[0] = out[0].wrapping_add(1);
                for (at, number) in out.iter().enumerate().take(words) {
                    kept.add(at).write(black_box(*number));
                }
            }
            word.swap(0, SeqCst);
        }
    }
}

/// The nanoseconds from one step to the next, by so many threads.
fn run(threads: u64, rounds: u64, kind: Step) -> f64 {
    let shared = Box::into_raw(Box::new(Shared {
        word: AtomicU64::new(0),
        apart: [0; 31],
        kept: [0; 16],
    }));
    let address = shared as usize;
    let start = Instant::now();
    std::thread::scope(|scope| {
        for _thread in 0..threads {
            scope.spawn(move || {
                for _ in 0..STEPS {
                    work(rounds);
                    step(address as *mut Shared, kind);
                }
            });
        }
    });
    let taken = start.elapsed().as_nanos() as f64 / (STEPS * threads) as f64;
    let shared = unsafe { Box::from_raw(shared) };
    black_box(shared.apart[0] + shared.kept[0]);
    taken
}

fn main() {
    let threads = std::thread::available_parallelism().map_or(4, |count| count.get() as u64);
    let rounds = rounds_in(OWN);
    let kinds = [
        ("a word is added to", Step::Add),
        ("a word is taken and given back", Step::Take),
        ("16 bytes move under it", Step::Move(2)),
        ("128 bytes move under it", Step::Move(16)),
    ];
    println!("threads at one word, each with {OWN} ns of work of its own between");
    let mut told = vec![[Vec::new(), Vec::new()]; kinds.len()];
    for _ in 0..RUNS {
        for (at, (_, kind)) in kinds.iter().enumerate() {
            told[at][0].push(run(1, rounds, *kind));
            told[at][1].push(run(threads, rounds, *kind));
        }
    }
    for ((name, _), runs) in kinds.iter().zip(&mut told) {
        let [one, all] = runs;
        one.sort_by(f64::total_cmp);
        all.sort_by(f64::total_cmp);
        let (one, all) = (one[RUNS / 2], all[RUNS / 2]);
        println!(
            "  {name}: {one:.0} ns by one thread, {all:.0} by {threads}, ratio {:.2}",
            one / all
        );
    }
}
