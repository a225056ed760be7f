// The load of bench/host.sh, bench/client.sh, bench/latency.sh and, for its storms, bench/soak.sh: clients that speak pvAccess, and the echo server that the first compares with. It is built
// by `rustc` with nothing but the standard library. The records are longouts R0, R1 and so on, which open with their own number.
//
//   host port                         prints a TCP port that is free
//   host udp                          prints a UDP port that is free
//   host echo PORT                    answers each 17 bytes with 46, as many as a get and its reply have, in a thread for each client
//   host gets PORT PID PORT PID CLIENTS FLIGHT SECONDS ROUNDS
//                                     gets of a record by each of CLIENTS connections, with FLIGHT on the way, beside the same of the
//                                     echo server (the second port and process), in turns of SECONDS
//   host delay PORT COUNT             how long after a put the monitor of another connection has the update
//   host latency PORT RATE SECONDS    the same while so many puts a second are made, at times that don't depend on what is heard
//   host rest PORT PID CLIENTS SECONDS
//                                     the processor's share of CLIENTS connections with a monitor each, of which none does anything
//   host storm PORT PID COUNT AT_ONCE
//                                     COUNT connections that go at once, so many at a time, and what the server keeps of them
//   host hold PORT PID CLIENTS RECORDS SECONDS
//                                     CLIENTS connections with a monitor each, while all records are put to ten times a second
//   host puts PORT FLIGHT             puts 1, 2, 3 and so on to R0 as fast as they are answered, with FLIGHT on the way, until it is killed
//   host watch PORT COUNT WINDOW QUEUE
//                                     prints how many updates a second of R0 come, of so many, to a client that only reads and acknowledges
//   host follow COUNT FILE COMMAND .. prints how many updates a second a client prints that runs as this command, with its output in FILE
//   host times COUNT TEXT COMMAND ..  prints the median and the greatest time of so many runs of a command that prints TEXT, in ms
//
// It ends with a message where a reply is wrong or an update was lost.
mod conn;

use conn::*;
use std::fs::{read_to_string, File};
use std::io::{ErrorKind, Read, Write};
use std::net::{TcpListener, TcpStream, UdpSocket};
use std::process::{Command, ExitCode, Stdio};
use std::sync::atomic::{AtomicBool, Ordering::SeqCst};
use std::sync::{Barrier, Mutex};
use std::thread;
use std::time::{Duration, Instant};

/// The bytes of a get, and of its reply for a longout with all its fields.
const REQUEST: usize = 17;
const REPLY: usize = 46;

fn echo_to(mut stream: TcpStream) -> std::io::Result<()> {
    stream.set_nodelay(true)?;
    stream.set_read_timeout(Some(Duration::from_millis(50)))?;
    let (mut buffer, mut held) = ([0; 4096], 0);
    let replies = vec![0; 4096 / REQUEST * REPLY + REPLY];
    loop {
        match stream.read(&mut buffer) {
            Ok(0) => return Ok(()),
            Ok(count) => {
                held += count;
                stream.write_all(&replies[..held / REQUEST * REPLY])?;
                held %= REQUEST;
            }
            Err(error) if error.kind() == ErrorKind::WouldBlock => {}
            Err(error) => return Err(error),
        }
    }
}

/// The peer of the comparison: blocking reads and writes of the same sizes as the server's, in a thread for each client.
fn echo(port: u16) -> Outcome<()> {
    for stream in told(TcpListener::bind(("127.0.0.1", port)), "bind")?.incoming() {
        let stream = told(stream, "accept")?;
        thread::spawn(move || echo_to(stream));
    }
    Ok(())
}

/// One connection of a load: what it sends, and the reply that comes to each.
struct Lane {
    stream: TcpStream,
    request: Vec<u8>,
    reply: Vec<u8>,
}

impl Lane {
    /// A get of this record, which has begun and was answered once.
    fn get(port: u16, record: usize) -> Outcome<Lane> {
        let mut conn = Conn::open(port, record)?;
        conn.begin(GET, 8, ALL)?;
        let request = conn.request(GET, 0, &[]);
        conn.write(&request)?;
        let payload = conn.expect(GET)?;
        let part = part_of(payload.get(6..).ok_or("a reply is too short")?)?;
        if payload[..6] != *b"\x01\0\0\0\0\xFF" || part.value != Some(record as i32) || payload.len() != 6 + part.size {
            return Err(format!("the get of R{record} has a wrong reply: {payload:02X?}"));
        }
        let mut reply = frame(GET, &payload);
        reply[2] = 0x40;
        if request.len() != REQUEST || reply.len() != REPLY {
            return Err(format!(
                "a get has {} bytes and its reply {}",
                request.len(),
                reply.len()
            ));
        }
        Ok(Lane {
            stream: conn.stream,
            request,
            reply,
        })
    }

    fn echo(port: u16) -> Outcome<Lane> {
        let stream = told(TcpStream::connect(("127.0.0.1", port)), "connect")?;
        told(stream.set_nodelay(true), "no delay")?;
        told(stream.set_read_timeout(Some(PATIENCE)), "read timeout")?;
        Ok(Lane {
            stream,
            request: vec![0; REQUEST],
            reply: vec![0; REPLY],
        })
    }

    /// Sends requests with so many on the way up to this time, and counts the replies. With one on the way it gives the times
    /// between a request and its reply, in nanoseconds.
    fn run(&mut self, flight: usize, end: Instant) -> Outcome<(u64, Vec<u64>)> {
        let requests = self.request.repeat(flight);
        let replies = self.reply.repeat(flight + 1);
        let mut buffer = vec![0; REPLY * flight];
        let (mut count, mut inside, mut under_way) = (0, 0, flight);
        let mut times = Vec::new();
        let mut sent = Instant::now();
        told(self.stream.write_all(&requests), "write")?;
        while under_way > 0 {
            let size = told(self.stream.read(&mut buffer), "no reply")?;
            if size == 0 {
                return Err("the server ended the connection".into());
            }
            if buffer[..size] != replies[inside..inside + size] {
                return Err("a reply is wrong".into());
            }
            let whole = (inside + size) / REPLY;
            inside = (inside + size) % REPLY;
            let now = Instant::now();
            if flight == 1 && whole == 1 {
                times.push((now - sent).as_nanos() as u64);
            }
            count += whole as u64;
            under_way -= whole;
            if now < end && whole > 0 {
                sent = now;
                told(self.stream.write_all(&requests[..whole * REQUEST]), "write")?;
                under_way += whole;
            }
        }
        Ok((count, times))
    }
}

/// What a load came to: its rate in a second, the processor time of the other end for each in nanoseconds, and the times of the first
/// connection in order.
struct Load {
    rate: f64,
    cost: f64,
    times: Vec<u64>,
}

fn load(lanes: &mut [Lane], pid: u32, flight: usize, seconds: f64) -> Outcome<Load> {
    let start = Barrier::new(lanes.len() + 1);
    let before = processor_time(pid)?;
    let (runs, elapsed) = thread::scope(|scope| {
        let threads: Vec<_> = lanes
            .iter_mut()
            .map(|lane| {
                let start = &start;
                let run = move || {
                    start.wait();
                    lane.run(flight, Instant::now() + Duration::from_secs_f64(seconds))
                };
                thread::Builder::new()
                    .stack_size(128 * 1024)
                    .spawn_scoped(scope, run)
                    .unwrap()
            })
            .collect();
        start.wait();
        let begun = Instant::now();
        let runs: Vec<_> = threads.into_iter().map(|thread| thread.join().unwrap()).collect();
        (runs, begun.elapsed().as_secs_f64())
    });
    let spent = processor_time(pid)? - before;
    let mut runs = runs.into_iter().collect::<Outcome<Vec<_>>>()?;
    let count: u64 = runs.iter().map(|run| run.0).sum();
    let mut times = std::mem::take(&mut runs[0].1);
    times.sort_unstable();
    Ok(Load {
        rate: count as f64 / elapsed,
        cost: spent * 1e9 / count as f64,
        times,
    })
}

fn gets(
    server: (u16, u32),
    other: (u16, u32),
    clients: usize,
    flight: usize,
    seconds: f64,
    rounds: usize,
) -> Outcome<()> {
    let mut gets = (0..clients)
        .map(|client| Lane::get(server.0, client))
        .collect::<Outcome<Vec<_>>>()?;
    let mut echoes = (0..clients).map(|_| Lane::echo(other.0)).collect::<Outcome<Vec<_>>>()?;
    let mut all = Vec::new();
    for _ in 0..rounds {
        let echo = load(&mut echoes, other.1, flight, seconds)?;
        let get = load(&mut gets, server.1, flight, seconds)?;
        all.push((get, echo));
    }
    // the round whose quotient is in the middle
    all.sort_by(|a, b| (a.0.rate / a.1.rate).total_cmp(&(b.0.rate / b.1.rate)));
    let quotient = |round: &(Load, Load)| round.0.rate / round.1.rate;
    let (least, most) = (quotient(&all[0]), quotient(&all[rounds - 1]));
    let middle = &all[rounds / 2];
    let (get, echo) = middle;
    println!(
        "{clients} connection{}, {flight} on the way: {:.0} gets/s, {:.0} echoes/s, ratio {:.2} ({least:.2} to {most:.2}); processor time {:.0} ns a get, {:.0} ns an echo",
        if clients == 1 { "" } else { "s" },
        get.rate,
        echo.rate,
        quotient(middle),
        get.cost,
        echo.cost
    );
    if flight == 1 {
        let us = |load: &Load, part| at(&load.times, part) as f64 / 1e3;
        println!(
            "    one of these waits for a get {:.1} us (median) and {:.1} us (99%), for an echo {:.1} and {:.1} us",
            us(get, 50),
            us(get, 99),
            us(echo, 50),
            us(echo, 99)
        );
    }
    Ok(())
}

fn delay(port: u16, count: i32) -> Outcome<()> {
    let (mut conn, mut shown) = watch_record(port, 0, 1)?;
    let mut writer = putter(port, 0)?;
    let mut times = Vec::new();
    for value in 1..=count {
        // at another moment of what the server waits for each time
        thread::sleep(Duration::from_millis(20 + (value as u64 * 37) % 50));
        let sent = Instant::now();
        writer.put(value)?;
        shown.update(&conn.expect(MONITOR)?)?;
        times.push(sent.elapsed().as_nanos() as f64 / 1e6);
        writer.put_is_done()?;
        if shown.puts != Some(value) {
            return Err(format!("the update shows {:?} in place of {value}", shown.puts));
        }
    }
    times.sort_by(f64::total_cmp);
    println!(
        "a put is shown to another connection's monitor within {:.2} ms (median) and {:.2} ms (99%)",
        at(&times, 50),
        at(&times, 99)
    );
    Ok(())
}

/// Puts 1, 2, 3 and so on, so many a second, each at its own time whatever was heard by then. Each gives the time at which it was sent.
fn put_in_time(writer: &mut Conn, rate: f64, sent: &[Mutex<Option<Instant>>]) -> Outcome<()> {
    let begun = Instant::now();
    for (place, time) in sent.iter().enumerate() {
        let due = begun + Duration::from_secs_f64(place as f64 / rate);
        thread::sleep(due.saturating_duration_since(Instant::now()));
        *time.lock().unwrap() = Some(Instant::now());
        writer.put(place as i32 + 1)?;
        writer.put_is_done()?;
    }
    Ok(())
}

fn latency(port: u16, rate: u32, seconds: u32) -> Outcome<()> {
    let (mut conn, mut shown) = watch_record(port, 0, 1)?;
    let mut writer = putter(port, 0)?;
    let count = rate * seconds;
    let sent: Vec<Mutex<Option<Instant>>> = (0..count).map(|_| Mutex::new(None)).collect();
    let mut times = Vec::new();
    let put = thread::scope(|scope| {
        let putting = scope.spawn(|| put_in_time(&mut writer, rate.into(), &sent));
        while shown.puts != Some(count as i32) {
            shown.update(&conn.expect(MONITOR)?)?;
            let heard = Instant::now();
            let put = shown.puts.unwrap_or(0) as usize;
            if let Some(at) = put.checked_sub(1).and_then(|place| *sent[place].lock().unwrap()) {
                times.push((heard - at).as_nanos() as f64 / 1e6);
            }
        }
        putting.join().unwrap()
    });
    put?;
    times.sort_by(f64::total_cmp);
    println!(
        "{rate} puts a second: shown to another connection's monitor within {:.2} ms (median), {:.2} ms (99%) and {:.2} ms (all); {} of {count} updates stand for several puts",
        at(&times, 50),
        at(&times, 99),
        at(&times, 100),
        shown.squashed
    );
    Ok(())
}

fn rest(port: u16, pid: u32, clients: usize, seconds: u64) -> Outcome<()> {
    let watched = (0..clients)
        .map(|client| watch_record(port, client % 64, 64))
        .collect::<Outcome<Vec<_>>>()?;
    // the first seconds are those in which they aren't yet at rest
    thread::sleep(Duration::from_secs(2));
    let (spent, begun) = (processor_time(pid)?, Instant::now());
    thread::sleep(Duration::from_secs(seconds));
    let share = (processor_time(pid)? - spent) / begun.elapsed().as_secs_f64();
    println!("{} connections at rest take {:.1}% of a processor", watched.len(), share * 100.0);
    Ok(())
}

/// How many threads, descriptors and mappings a process has.
fn counted(pid: u32) -> Outcome<[usize; 3]> {
    let maps = told(read_to_string(format!("/proc/{pid}/maps")), "the server is gone")?;
    let descriptors = told(std::fs::read_dir(format!("/proc/{pid}/fd")), "the server is gone")?.count();
    Ok([status_of(pid, "Threads")? as usize, descriptors, maps.lines().count()])
}

/// Opens so many connections, as many at a time, each of which is greeted and goes.
fn storm(port: u16, pid: u32, count: usize, at_once: usize) -> Outcome<()> {
    let (before, memory, begun) = (counted(pid)?, status_of(pid, "VmRSS")?, Instant::now());
    let mut came = 0;
    while came < count {
        let mut streams = Vec::new();
        for _ in 0..at_once.min(count - came) {
            streams.push(told(TcpStream::connect(("127.0.0.1", port)), "connect")?);
        }
        for stream in &mut streams {
            told(stream.set_read_timeout(Some(PATIENCE)), "read timeout")?;
            told(stream.read_exact(&mut [0; 8]), "no greeting")?;
        }
        came += streams.len();
    }
    let elapsed = begun.elapsed().as_secs_f64();
    thread::sleep(Duration::from_secs(2));
    let (after, grew) = (counted(pid)?, status_of(pid, "VmRSS")?.saturating_sub(memory));
    println!(
        "{count} connections, {at_once} at a time, in {elapsed:.1} s: threads, descriptors and mappings {before:?} before and {after:?} behind; {:.0} bytes of memory for each",
        grew as f64 * 1024.0 / count as f64
    );
    if after[0] != before[0] || after[1] != before[1] {
        return Err("threads or descriptors are left over".into());
    }
    Ok(())
}

/// Takes in updates until the last put is shown, which is told once all are made.
fn hear(conn: &mut Conn, shown: &mut Shown, last: &Mutex<Option<i32>>) -> Outcome<()> {
    told(
        conn.stream.set_read_timeout(Some(Duration::from_secs(1))),
        "read timeout",
    )?;
    let mut late = 0;
    loop {
        while let Some((command, payload)) = conn.held_message()? {
            if command != MONITOR {
                return Err(format!("message {command:02X} in place of an update"));
            }
            shown.update(payload)?;
        }
        let last = *last.lock().unwrap();
        if last.is_some() && shown.puts == last {
            return Ok(());
        }
        if !conn.fill()? && last.is_some() {
            late += 1;
            if late == PATIENCE.as_secs() {
                return Err(format!(
                    "R{} ends with the put {:?} in place of {last:?}",
                    shown.base, shown.puts
                ));
            }
        }
    }
}

fn hold(port: u16, pid: u32, clients: usize, records: usize, seconds: u64) -> Outcome<()> {
    let before = status_of(pid, "VmRSS")?;
    let begun = Instant::now();
    let mut watched = (0..clients)
        .map(|client| watch_record(port, client % records, records))
        .collect::<Outcome<Vec<_>>>()?;
    let elapsed = begun.elapsed().as_secs_f64();
    let memory = (status_of(pid, "VmRSS")? - before) as f64 / clients as f64;
    println!("{clients} connections with a monitor each, one after another, in {elapsed:.2} s; {memory:.1} KiB each, {} threads", status_of(pid, "Threads")?);

    let (spent, begun) = (processor_time(pid)?, Instant::now());
    thread::sleep(Duration::from_secs(5));
    let share = (processor_time(pid)? - spent) / begun.elapsed().as_secs_f64();
    println!("while nothing comes they take {:.1}% of a processor", share * 100.0);

    let mut writers = (0..records)
        .map(|record| putter(port, record))
        .collect::<Outcome<Vec<_>>>()?;
    let (last, failed) = (Mutex::new(None), AtomicBool::new(false));
    let spent = processor_time(pid)?;
    let (puts, elapsed, heard) = thread::scope(|scope| {
        let threads: Vec<_> = watched
            .iter_mut()
            .map(|(conn, shown)| {
                let (last, failed) = (&last, &failed);
                let run = move || hear(conn, shown, last).inspect_err(|_| failed.store(true, SeqCst));
                thread::Builder::new()
                    .stack_size(256 * 1024)
                    .spawn_scoped(scope, run)
                    .unwrap()
            })
            .collect();
        let begun = Instant::now();
        let puts = put_all(&mut writers, begun + Duration::from_secs(seconds), &failed);
        let elapsed = begun.elapsed().as_secs_f64();
        *last.lock().unwrap() = Some(*puts.as_ref().unwrap_or(&0));
        (
            puts,
            elapsed,
            threads
                .into_iter()
                .map(|thread| thread.join().unwrap())
                .collect::<Outcome<Vec<_>>>(),
        )
    });
    let puts = puts?;
    heard?;
    let share = (processor_time(pid)? - spent) / elapsed;
    let total = |of: fn(&Shown) -> u64| watched.iter().map(|(_, shown)| of(shown)).sum::<u64>();
    println!(
        "{elapsed:.0} s, {} puts to {records} records, {} updates, {} of them of several puts and marked so; {:.0}% of a processor, {:.1} MiB",
        puts as usize * records,
        total(|shown| shown.updates) - clients as u64,
        total(|shown| shown.squashed),
        share * 100.0,
        status_of(pid, "VmRSS")? as f64 / 1024.0
    );
    println!("no update lost: each of {clients} clients ends with the value that was put last");
    Ok(())
}

/// Puts to all records ten times a second up to this time. It says how many puts each had.
fn put_all(writers: &mut [Conn], end: Instant, failed: &AtomicBool) -> Outcome<i32> {
    let records = writers.len() as i32;
    let mut puts = 0;
    let mut next = Instant::now();
    while Instant::now() < end && !failed.load(SeqCst) {
        puts += 1;
        for (record, writer) in writers.iter_mut().enumerate() {
            writer.put(record as i32 + puts * records)?;
        }
        for writer in writers.iter_mut() {
            writer.put_is_done()?;
        }
        next += Duration::from_millis(100);
        thread::sleep(next.saturating_duration_since(Instant::now()));
    }
    Ok(puts)
}

fn puts(port: u16, flight: i32) -> Outcome<()> {
    let mut conn = putter(port, 0)?;
    let mut put = conn.request(PUT, 0, b"\x01\x02\0\0\0\0");
    let at = put.len() - 4;
    let (mut value, mut free, mut bytes) = (0i32, flight, Vec::new());
    loop {
        bytes.clear();
        for _ in 0..free {
            value += 1;
            put[at..].copy_from_slice(&value.to_le_bytes());
            bytes.extend(&put);
        }
        conn.write(&bytes)?;
        if !conn.fill()? {
            return Err("no reply to a put".into());
        }
        free = 0;
        while let Some((_, payload)) = conn.held_message()? {
            if payload != b"\x01\0\0\0\0\xFF" {
                return Err(format!("a put was refused: {:?}", String::from_utf8_lossy(payload)));
            }
            free += 1;
        }
    }
}

fn text(bytes: &str) -> Vec<u8> {
    [&[bytes.len() as u8], bytes.as_bytes()].concat()
}

/// The request of `pvac monitor --fields value --queue QUEUE --pipeline WINDOW`.
fn pipelined(queue: &str, window: u32) -> Vec<u8> {
    let members = |count: u8| vec![0x80, 0, count];
    [
        members(2),
        text("field"),
        members(1),
        text("value"),
        members(0),
        text("record"),
        members(1),
        text("_options"),
        members(2),
        text("queueSize"),
        vec![0x60],
        text("pipeline"),
        vec![0x60],
        text(queue),
        text("true"),
        window.to_le_bytes().to_vec(),
    ]
    .concat()
}

fn watch(port: u16, count: u64, window: u32, queue: &str) -> Outcome<()> {
    let begun = Instant::now();
    let mut conn = Conn::open(port, 0)?;
    conn.begin(MONITOR, 0x88, &pipelined(queue, window))?;
    conn.ask(MONITOR, 0x44, &[])?;
    let one = conn.request(MONITOR, 0x80, &1u32.to_le_bytes());
    let mut shown = Shown::new(0, 1);
    while shown.updates < count {
        if !conn.fill()? {
            return Err(format!("no update in {PATIENCE:?}"));
        }
        let mut came = 0;
        while let Some((_, payload)) = conn.held_message()? {
            shown.update(payload)?;
            came += 1;
        }
        conn.write(&one.repeat(came))?;
    }
    println!(
        "{:.0} {:.0}",
        shown.updates as f64 / begun.elapsed().as_secs_f64(),
        shown.squashed as f64 / shown.updates as f64 * 100.0
    );
    Ok(())
}

fn run(command: &[String], output: Stdio) -> Outcome<(f64, Vec<u8>)> {
    let begun = Instant::now();
    let child = Command::new(&command[0])
        .args(&command[1..])
        .stdin(Stdio::null())
        .stdout(output)
        .spawn();
    let ended = told(
        told(child, "the client doesn't start")?.wait_with_output(),
        "the client",
    )?;
    let elapsed = begun.elapsed().as_secs_f64();
    if !ended.status.success() {
        return Err(format!("the client ended with {}", ended.status));
    }
    Ok((elapsed, ended.stdout))
}

fn follow(count: usize, path: &str, command: &[String]) -> Outcome<()> {
    let output = told(File::create(path), path)?;
    let (elapsed, _) = run(command, output.into())?;
    let printed = told(read_to_string(path), path)?;
    let mut lines = printed.lines();
    if lines.next() != Some("R0") {
        return Err("the client doesn't print the channel's name".into());
    }
    let mut shown = Shown::new(0, 1);
    for line in lines {
        let words: Vec<&str> = line.split(' ').collect();
        match (words.as_slice(), words.get(1).and_then(|word| word.parse().ok())) {
            (["value", _], Some(value)) => shown.show(value, false)?,
            (["value", _, "overrun"], Some(value)) => shown.show(value, true)?,
            _ => return Err(format!("the client prints {line:?}")),
        }
    }
    if shown.updates != count as u64 {
        return Err(format!(
            "the client prints {} updates in place of {count}",
            shown.updates
        ));
    }
    println!(
        "{:.0} {:.0}",
        shown.updates as f64 / elapsed,
        shown.squashed as f64 / shown.updates as f64 * 100.0
    );
    Ok(())
}

fn times(count: usize, wanted: &str, command: &[String]) -> Outcome<()> {
    let mut times = Vec::new();
    for _ in 0..count {
        let (elapsed, printed) = run(command, Stdio::piped())?;
        if printed != wanted.as_bytes() {
            return Err(format!("the client prints {:?}", String::from_utf8_lossy(&printed)));
        }
        times.push(elapsed * 1e3);
    }
    times.sort_by(f64::total_cmp);
    println!("{:.2} {:.2}", at(&times, 50), at(&times, 100));
    Ok(())
}

fn free_port(is_udp: bool) -> std::io::Result<u16> {
    Ok(if is_udp {
        UdpSocket::bind(("127.0.0.1", 0))?.local_addr()?.port()
    } else {
        TcpListener::bind(("127.0.0.1", 0))?.local_addr()?.port()
    })
}

fn do_as(words: &[String]) -> Outcome<()> {
    let number = |at: usize| {
        words
            .get(at)
            .and_then(|word| word.parse::<u32>().ok())
            .ok_or(format!("word {at} is no number"))
    };
    let port = |at: usize| Ok::<u16, String>(number(at)? as u16);
    match words.first().map(String::as_str) {
        Some("port") => println!("{}", told(free_port(false), "bind")?),
        Some("udp") => println!("{}", told(free_port(true), "bind")?),
        Some("echo") => echo(port(1)?)?,
        Some("gets") => {
            let seconds = words.get(7).and_then(|word| word.parse().ok()).ok_or("no seconds")?;
            let (server, other) = ((port(1)?, number(2)?), (port(3)?, number(4)?));
            gets(
                server,
                other,
                number(5)? as usize,
                number(6)? as usize,
                seconds,
                number(8)? as usize,
            )?;
        }
        Some("delay") => delay(port(1)?, number(2)? as i32)?,
        Some("latency") => latency(port(1)?, number(2)?, number(3)?)?,
        Some("rest") => rest(port(1)?, number(2)?, number(3)? as usize, number(4)?.into())?,
        Some("storm") => storm(port(1)?, number(2)?, number(3)? as usize, number(4)? as usize)?,
        Some("hold") => hold(
            port(1)?,
            number(2)?,
            number(3)? as usize,
            number(4)? as usize,
            number(5)?.into(),
        )?,
        Some("puts") => puts(port(1)?, number(2)? as i32)?,
        Some("watch") => watch(port(1)?, number(2)?.into(), number(3)?, &number(4)?.to_string())?,
        Some("follow") => follow(number(1)? as usize, &words[2], &words[3..])?,
        Some("times") => times(number(1)? as usize, &words[2], &words[3..])?,
        _ => return Err("which load? The first lines of bench/host.rs tell".into()),
    }
    Ok(())
}

fn main() -> ExitCode {
    let words: Vec<String> = std::env::args().skip(1).collect();
    match do_as(&words) {
        Ok(()) => ExitCode::SUCCESS,
        Err(message) => {
            eprintln!("{}: {message}", words.join(" "));
            ExitCode::FAILURE
        }
    }
}
