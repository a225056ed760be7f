// The load of bench/soak.sh: clients that come, monitor, put, break off in the middle of messages and vanish, and hostile ones, for a long
// time, beside some that only monitor, and stay. It is built by `rustc` with nothing but the standard library.
//
//   soak PORT PID CLIENTS HOSTILE SECONDS SILENCE
//        PORT and PID are those of a server of the longouts R0 to R63, which gives up a client who is silent for SILENCE seconds
//
// At the end each of those that stayed shows the value that a get gives; no thread, descriptor or mapping of the server is left over; and a
// newcomer is served within 50 ms. It ends with a message where any of this is otherwise.
mod conn;

use conn::*;
use std::fs::{read_dir, read_to_string};
use std::io::{Read, Write};
use std::net::{Shutdown, TcpStream};
use std::process::ExitCode;
use std::sync::atomic::{AtomicBool, AtomicI32, AtomicU64, Ordering::SeqCst};
use std::thread;
use std::time::{Duration, Instant};

const RECORDS: usize = 64;

/// The mappings that memory of the C library for threads may add, which it keeps: two for each of its arenas.
const ARENAS: usize = 2 * 8 * 16;

/// Numbers that look drawn (xorshift).
struct Draw(u64);

impl Draw {
    fn below(&mut self, most: u64) -> u64 {
        self.0 ^= self.0 << 13;
        self.0 ^= self.0 >> 7;
        self.0 ^= self.0 << 17;
        self.0 % most
    }
}

/// What the server has of the system.
#[derive(Clone, Copy, Debug)]
struct Held {
    threads: usize,
    descriptors: usize,
    mappings: usize,
    #[allow(dead_code)] // it is printed
    kibibytes: u64,
}

fn held(pid: u32) -> Outcome<Held> {
    let maps = told(read_to_string(format!("/proc/{pid}/maps")), "the server is gone")?;
    Ok(Held {
        threads: status_of(pid, "Threads")? as usize,
        descriptors: told(read_dir(format!("/proc/{pid}/fd")), "the server is gone")?.count(),
        mappings: maps.lines().count(),
        kibibytes: status_of(pid, "VmRSS")?,
    })
}

/// What all threads share.
struct Run {
    port: u16,
    silence: u64,
    over: AtomicBool,
    /// All who put have ended.
    is_still: AtomicBool,
    /// The value of the next put, of whichever record.
    next: AtomicI32,
    came: AtomicU64,
    puts: AtomicU64,
    updates: AtomicU64,
    given_up: AtomicU64,
}

impl Run {
    fn is_over(&self) -> bool {
        self.over.load(SeqCst)
    }

    /// Waits so long, or until all is over.
    fn wait(&self, time: Duration) {
        let end = Instant::now() + time;
        while Instant::now() < end && !self.is_over() {
            thread::sleep(Duration::from_millis(20));
        }
    }
}

/// A monitor of this record that has begun and was started, and the value of its first update. Puts come from everywhere, so that nothing is
/// said of how the values go on.
fn monitored(port: u16, record: usize) -> Outcome<(Conn, i32)> {
    let mut conn = Conn::open(port, record)?;
    conn.begin(MONITOR, 8, ALL)?;
    conn.ask(MONITOR, 0x44, &[])?;
    let value = value_of(&conn.expect(MONITOR)?)?.ok_or("a first update has no value")?;
    Ok((conn, value))
}

/// The value of an update, if it has one.
fn value_of(payload: &[u8]) -> Outcome<Option<i32>> {
    if u32_at(payload, 0)? != 1 || payload.get(4) != Some(&0) {
        return Err("a message of a monitor is no update".into());
    }
    Ok(part_of(&payload[5..])?.value)
}

/// Reads updates for so long, or until this is so and none comes: behind the time whether more come or not. The last value of them, or else this one.
fn listen(run: &Run, conn: &mut Conn, value: i32, time: Duration, over: &AtomicBool) -> Outcome<i32> {
    told(conn.stream.set_read_timeout(Some(Duration::from_millis(100))), "read timeout")?;
    let (mut last, end) = (value, Instant::now() + time);
    loop {
        while let Some((command, payload)) = conn.held_message()? {
            if command == MONITOR {
                last = value_of(payload)?.unwrap_or(last);
                run.updates.fetch_add(1, SeqCst);
            }
        }
        let quiet = !conn.fill()?;
        if quiet && over.load(SeqCst) || Instant::now() >= end {
            return Ok(last);
        }
    }
}

/// Reads updates until none came for half a second.
fn run_on(run: &Run, conn: &mut Conn, value: i32) -> Outcome<i32> {
    let (mut last, mut quiet) = (value, 0);
    while quiet < 5 {
        let before = run.updates.load(SeqCst);
        last = listen(run, conn, last, Duration::ZERO, &run.is_still)?;
        quiet = if run.updates.load(SeqCst) == before { quiet + 1 } else { 0 };
    }
    Ok(last)
}

/// Gets a record once, over a new connection.
fn got(port: u16, record: usize) -> Outcome<i32> {
    let mut conn = Conn::open(port, record)?;
    conn.begin(GET, 8, ALL)?;
    conn.ask(GET, 0, &[])?;
    let payload = conn.expect(GET)?;
    part_of(payload.get(6..).ok_or("a reply is too short")?)?.value.ok_or("a get has no value".into())
}

/// Puts some values to a record.
fn put_some(run: &Run, draw: &mut Draw) -> Outcome<()> {
    let mut conn = putter(run.port, draw.below(RECORDS as u64) as usize)?;
    for _ in 0..1 + draw.below(20) {
        conn.put(run.next.fetch_add(1, SeqCst))?;
        conn.put_is_done()?;
        run.puts.fetch_add(1, SeqCst);
        run.wait(Duration::from_millis(draw.below(50)));
    }
    Ok(())
}

/// Monitors a record for a while, which is short enough for who says nothing meanwhile.
fn monitor_some(run: &Run, draw: &mut Draw) -> Outcome<()> {
    let (mut conn, value) = monitored(run.port, draw.below(RECORDS as u64) as usize)?;
    let time = Duration::from_millis(draw.below(1 + 500 * run.silence));
    listen(run, &mut conn, value, time, &run.over)?;
    Ok(())
}

/// Breaks off inside a message: a put of which a part is sent.
fn break_off(run: &Run, draw: &mut Draw) -> Outcome<()> {
    let mut conn = putter(run.port, draw.below(RECORDS as u64) as usize)?;
    let put = conn.request(PUT, 0, b"\x01\x02\0\0\0\0");
    let part = 1 + draw.below(put.len() as u64 - 1) as usize;
    conn.write(&put[..part])?;
    if draw.below(2) == 0 {
        let _ = conn.stream.shutdown(Shutdown::Both);
    }
    Ok(())
}

/// Vanishes: nothing comes of it any more, and it takes nothing. The server has to give it up.
fn vanish(run: &Run, draw: &mut Draw) -> Outcome<()> {
    let (mut conn, _) = monitored(run.port, draw.below(RECORDS as u64) as usize)?;
    run.wait(Duration::from_secs(2 * run.silence + 5));
    if run.is_over() {
        return Ok(());
    }
    told(conn.stream.set_read_timeout(Some(Duration::from_secs(5))), "read timeout")?;
    let mut buffer = [0; 65_536];
    loop {
        match conn.stream.read(&mut buffer) {
            Ok(0) => break,
            Ok(_) => {}
            Err(error) if error.kind() == std::io::ErrorKind::ConnectionReset => break,
            Err(error) => return Err(format!("a silent client isn't given up: {error}")),
        }
    }
    run.given_up.fetch_add(1, SeqCst);
    Ok(())
}

/// A client that does one thing after another, each over a connection of its own.
fn come_and_go(run: &Run, seed: u64) -> Outcome<()> {
    let mut draw = Draw(seed);
    while !run.is_over() {
        run.came.fetch_add(1, SeqCst);
        match draw.below(16) {
            0..=5 => monitor_some(run, &mut draw)?,
            6..=10 => put_some(run, &mut draw)?,
            11..=12 => break_off(run, &mut draw)?,
            13..=14 => drop(got(run.port, draw.below(RECORDS as u64) as usize)?),
            _ => vanish(run, &mut draw)?,
        }
    }
    Ok(())
}

/// A hostile client: garbage, headers of the largest messages, one byte at a time, and connections that go at once. Whatever comes of it.
fn attack(run: &Run, seed: u64) {
    let mut draw = Draw(seed);
    while !run.is_over() {
        let Ok(mut stream) = TcpStream::connect(("127.0.0.1", run.port)) else {
            run.wait(Duration::from_millis(100));
            continue;
        };
        let bytes: Vec<u8> = match draw.below(4) {
            0 => (0..draw.below(10_000)).map(|_| draw.below(256) as u8).collect(),
            1 => {
                let mut bytes = vec![0xCA, 2, 0, draw.below(32) as u8];
                bytes.extend((draw.below(1 << 32) as u32).to_le_bytes());
                bytes.extend((0..draw.below(100_000)).map(|_| draw.below(256) as u8));
                bytes
            }
            2 => frame(VALIDATION, b"\0\0\x01\0\0\0\0\0\x09anonymous\xFF").repeat(1 + draw.below(50) as usize),
            _ => Vec::new(),
        };
        if draw.below(4) == 0 {
            for byte in bytes.iter().take(50) {
                if run.is_over() || stream.write_all(&[*byte]).is_err() {
                    break;
                }
                run.wait(Duration::from_millis(20));
            }
        } else {
            let _ = stream.write_all(&bytes);
        }
    }
}

/// Waits until the server has let go what it had of clients that have gone, and says what is left over.
fn let_go(pid: u32, before: Held, patience: Duration) -> Outcome<Held> {
    let end = Instant::now() + patience;
    loop {
        let now = held(pid)?;
        let is_clean = now.threads == before.threads
            && now.descriptors == before.descriptors
            && now.mappings <= before.mappings + ARENAS;
        if is_clean {
            return Ok(now);
        }
        if Instant::now() >= end {
            return Err(format!("the server had {before:?} and is left with {now:?}"));
        }
        thread::sleep(Duration::from_millis(200));
    }
}

fn soak(port: u16, pid: u32, clients: u64, hostile: u64, seconds: u64, silence: u64) -> Outcome<()> {
    let mut staying = (0..RECORDS)
        .map(|record| monitored(port, record))
        .collect::<Outcome<Vec<_>>>()?;
    let before = held(pid)?;
    let run = Run {
        port,
        silence,
        over: AtomicBool::new(false),
        is_still: AtomicBool::new(false),
        next: AtomicI32::new(1_000_000),
        came: AtomicU64::new(0),
        puts: AtomicU64::new(0),
        updates: AtomicU64::new(0),
        given_up: AtomicU64::new(0),
    };
    let shown = thread::scope(|scope| -> Outcome<Vec<i32>> {
        let small = || thread::Builder::new().stack_size(256 * 1024);
        let mut others = Vec::new();
        for seed in 1..=clients {
            let run = &run;
            others.push(told(small().spawn_scoped(scope, move || come_and_go(run, seed * 0x9E37_79B9)), "thread")?);
        }
        for seed in 1..=hostile {
            let run = &run;
            told(small().spawn_scoped(scope, move || attack(run, seed * 0x85EB_CA6B)), "thread")?;
        }
        let listeners: Vec<_> = staying
            .iter_mut()
            .map(|(conn, value)| {
                let (run, value) = (&run, *value);
                // an echo keeps a client that only listens
                scope.spawn(move || stay(run, conn, value))
            })
            .collect();
        thread::sleep(Duration::from_secs(seconds));
        run.over.store(true, SeqCst);
        let ended: Vec<_> = others.into_iter().map(|other| other.join().unwrap()).collect();
        run.is_still.store(true, SeqCst);
        ended.into_iter().collect::<Outcome<Vec<()>>>()?;
        listeners.into_iter().map(|listener| listener.join().unwrap()).collect()
    })?;
    for (record, value) in shown.iter().enumerate() {
        let now = got(port, record)?;
        if now != *value {
            return Err(format!("R{record} is {now}, and the monitor that stayed shows {value}"));
        }
    }
    let after = let_go(pid, before, Duration::from_secs(3 * silence + 30))?;
    let begun = Instant::now();
    got(port, 0)?;
    let newcomer = begun.elapsed();
    let count = |number: &AtomicU64| number.load(SeqCst);
    println!(
        "{} connections came beside {hostile} hostile clients, {} puts, {} updates, {} silent clients given up",
        count(&run.came),
        count(&run.puts),
        count(&run.updates),
        count(&run.given_up)
    );
    println!("before: {before:?}\nbehind: {after:?}");
    println!("each of {RECORDS} monitors that stayed shows the last value; a newcomer is served in {newcomer:.1?}");
    if newcomer > Duration::from_millis(50) {
        return Err("a newcomer waits for more than 50 ms".into());
    }
    Ok(())
}

/// A monitor that stays, and echoes as clients of EPICS do. The value that it shows at the end.
fn stay(run: &Run, conn: &mut Conn, value: i32) -> Outcome<i32> {
    let mut last = value;
    let echo = [0xCA, 2, 1, 3, 0, 0, 0, 0];
    while !run.is_still.load(SeqCst) {
        conn.write(&echo)?;
        let pause = (run.silence * 1000 / 2).clamp(200, 15_000);
        last = listen(run, conn, last, Duration::from_millis(pause), &run.is_still)?;
    }
    // what was put last may be on the way
    conn.write(&echo)?;
    run_on(run, conn, last)
}

fn main() -> ExitCode {
    let numbers: Vec<u64> = std::env::args().skip(1).filter_map(|word| word.parse().ok()).collect();
    let [port, pid, clients, hostile, seconds, silence] = numbers[..] else {
        eprintln!("which load? The first lines of bench/soak.rs tell");
        return ExitCode::FAILURE;
    };
    match soak(port as u16, pid as u32, clients, hostile, seconds, silence) {
        Ok(()) => ExitCode::SUCCESS,
        Err(message) => {
            eprintln!("soak: {message}");
            ExitCode::FAILURE
        }
    }
}
