// Clients that speak pvAccess, for the loads of this folder: connections, and what they are told of longouts. It is a part of
// bench/host.rs and of bench/soak.rs, with nothing but the standard library.
#![allow(dead_code)] // each load uses a part of it

use std::fs::read_to_string;
use std::io::{ErrorKind, Read, Write};
use std::net::TcpStream;
use std::time::Duration;

pub type Outcome<T> = Result<T, String>;

/// How long a reply may take.
pub const PATIENCE: Duration = Duration::from_secs(20);

pub const VALIDATION: u8 = 0x01;
pub const CREATE: u8 = 0x07;
pub const VALIDATED: u8 = 0x09;
pub const GET: u8 = 0x0A;
pub const PUT: u8 = 0x0B;
pub const MONITOR: u8 = 0x0D;

/// A request for all fields: a structure without members.
pub const ALL: &[u8] = b"\x80\0\0";

pub fn told<T>(result: std::io::Result<T>, what: &str) -> Outcome<T> {
    result.map_err(|error| format!("{what}: {error}"))
}

pub fn u32_at(bytes: &[u8], at: usize) -> Outcome<u32> {
    match bytes.get(at..at + 4) {
        Some(four) => Ok(u32::from_le_bytes(four.try_into().unwrap())),
        None => Err("a message is too short".into()),
    }
}

pub fn frame(command: u8, payload: &[u8]) -> Vec<u8> {
    let mut bytes = vec![0xCA, 2, 0, command];
    bytes.extend((payload.len() as u32).to_le_bytes());
    bytes.extend(payload);
    bytes
}

/// A connection to a server. Of `buffer` the bytes of `from` up to `to` were read, and not yet taken.
pub struct Conn {
    pub stream: TcpStream,
    buffer: Vec<u8>,
    from: usize,
    to: usize,
    sid: u32,
}

impl Conn {
    /// A connection that is validated, with the channel of this record.
    pub fn open(port: u16, record: usize) -> Outcome<Conn> {
        let stream = told(TcpStream::connect(("127.0.0.1", port)), "connect")?;
        told(stream.set_nodelay(true), "no delay")?;
        told(stream.set_read_timeout(Some(PATIENCE)), "read timeout")?;
        let mut conn = Conn {
            stream,
            buffer: vec![0; 16_384],
            from: 0,
            to: 0,
            sid: 0,
        };
        conn.say(VALIDATION, b"\0\0\x01\0\0\0\0\0\x09anonymous\xFF")?;
        let validated = conn.expect(VALIDATED)?;
        if validated != [0xFF] {
            return Err("the server doesn't validate".into());
        }
        let name = format!("R{record}");
        let mut create = vec![1, 0, 1, 0, 0, 0, name.len() as u8];
        create.extend(name.bytes());
        conn.say(CREATE, &create)?;
        let created = conn.expect(CREATE)?;
        if u32_at(&created, 0)? != 1 || created.get(8..) != Some(&[0xFF]) {
            return Err(format!("the channel {name} isn't created"));
        }
        conn.sid = u32_at(&created, 4)?;
        Ok(conn)
    }

    pub fn write(&mut self, bytes: &[u8]) -> Outcome<()> {
        told(self.stream.write_all(bytes), "write")
    }

    pub fn say(&mut self, command: u8, payload: &[u8]) -> Outcome<()> {
        self.write(&frame(command, payload))
    }

    /// A message to request 1 of this connection's channel.
    pub fn request(&self, command: u8, subcommand: u8, more: &[u8]) -> Vec<u8> {
        let mut payload = self.sid.to_le_bytes().to_vec();
        payload.extend(1u32.to_le_bytes());
        payload.push(subcommand);
        payload.extend(more);
        frame(command, &payload)
    }

    pub fn ask(&mut self, command: u8, subcommand: u8, more: &[u8]) -> Outcome<()> {
        self.write(&self.request(command, subcommand, more))
    }

    /// Begins request 1 by this command.
    pub fn begin(&mut self, command: u8, subcommand: u8, more: &[u8]) -> Outcome<()> {
        self.ask(command, subcommand, more)?;
        let begun = self.expect(command)?;
        if begun.len() < 6 || u32_at(&begun, 0)? != 1 || begun[4] & 8 == 0 || begun[5] != 0xFF {
            return Err("a request didn't begin".into());
        }
        Ok(())
    }

    /// The next message, if it was read: its command and its payload. Control messages are passed over.
    pub fn held_message(&mut self) -> Outcome<Option<(u8, &[u8])>> {
        loop {
            let held = &self.buffer[self.from..self.to];
            if held.len() < 8 {
                return Ok(None);
            }
            let is_control = held[2] & 1 == 1;
            if held[0] != 0xCA || held[2] & 0xF0 != 0x40 {
                return Err(format!("a header is wrong: {:02X?}", &held[..8]));
            }
            let size = if is_control { 0 } else { u32_at(held, 4)? as usize };
            if held.len() < 8 + size {
                return Ok(None);
            }
            let begin = self.from;
            self.from += 8 + size;
            if !is_control {
                return Ok(Some((self.buffer[begin + 3], &self.buffer[begin + 8..self.from])));
            }
        }
    }

    /// Reads once. False where nothing came in time.
    pub fn fill(&mut self) -> Outcome<bool> {
        self.buffer.copy_within(self.from..self.to, 0);
        (self.from, self.to) = (0, self.to - self.from);
        match self.stream.read(&mut self.buffer[self.to..]) {
            Ok(0) => Err("the server ended the connection, or a message is too long".into()),
            Ok(count) => {
                self.to += count;
                Ok(true)
            }
            Err(error) if matches!(error.kind(), ErrorKind::WouldBlock | ErrorKind::Interrupted) => Ok(false),
            Err(error) => Err(format!("read: {error}")),
        }
    }

    /// The payload of the next message, which has this command; others before a validation are passed over.
    pub fn expect(&mut self, command: u8) -> Outcome<Vec<u8>> {
        loop {
            while let Some((came, payload)) = self.held_message()? {
                match came {
                    _ if came == command => return Ok(payload.to_vec()),
                    VALIDATION => {}
                    _ => return Err(format!("message {came:02X} in place of {command:02X}")),
                }
            }
            if !self.fill()? {
                return Err(format!("no message {command:02X} in {PATIENCE:?}"));
            }
        }
    }

    pub fn put(&mut self, value: i32) -> Outcome<()> {
        let mut part = b"\x01\x02".to_vec();
        part.extend(value.to_le_bytes());
        self.ask(PUT, 0, &part)
    }

    pub fn put_is_done(&mut self) -> Outcome<()> {
        let done = self.expect(PUT)?;
        match done.get(5) {
            Some(0xFF) => Ok(()),
            _ => Err(format!("a put was refused: {:?}", String::from_utf8_lossy(&done))),
        }
    }
}

/// What a part tells of a longout.
pub struct Part {
    pub value: Option<i32>,
    /// How many bytes it has.
    pub size: usize,
}

/// The set of numbers at the front of these bytes, and how many bytes it has.
pub fn bits_of(bytes: &[u8]) -> Outcome<(u64, usize)> {
    let size = *bytes.first().ok_or("a set is missing")? as usize;
    let set = bytes
        .get(1..1 + size)
        .filter(|set| set.len() <= 8)
        .ok_or("a set is wrong")?;
    let bits = set.iter().rev().fold(0, |bits, byte| bits << 8 | u64::from(*byte));
    Ok((bits, 1 + size))
}

/// The part at the front of these bytes: the set of its leaves and these, of the value, the alarm and the time stamp of an NTScalar.
pub fn part_of(bytes: &[u8]) -> Outcome<Part> {
    let (bits, mut at) = bits_of(bytes)?;
    if bits & !0x03BA != 0 {
        return Err(format!("a part has the fields {bits:X}"));
    }
    let value = if bits & 2 != 0 {
        Some(u32_at(bytes, at)? as i32)
    } else {
        None
    };
    for leaf in 1..10 {
        if bits >> leaf & 1 == 1 {
            at += match leaf {
                5 => 1 + *bytes.get(at).ok_or("a text is missing")? as usize,
                7 => 8,
                _ => 4,
            };
        }
    }
    if bytes.len() < at {
        return Err("a part is too short".into());
    }
    Ok(Part { value, size: at })
}

/// What the updates of one record showed, whose values count its puts: a record that opened with `base` is put `base + step`, then
/// `base + 2 * step`, and so on.
pub struct Shown {
    pub base: i32,
    step: i32,
    pub puts: Option<i32>,
    pub updates: u64,
    pub squashed: u64,
}

impl Shown {
    pub fn new(base: usize, step: usize) -> Shown {
        Shown {
            base: base as i32,
            step: step as i32,
            puts: None,
            updates: 0,
            squashed: 0,
        }
    }

    /// Takes in a value, of which it is told whether it changed more than once since the update before. One that passes a put over and
    /// isn't marked so has lost an update.
    pub fn show(&mut self, value: i32, is_overrun: bool) -> Outcome<()> {
        let put = (value - self.base) / self.step;
        if self.base + put * self.step != value {
            return Err(format!("the value {value} is none that was put to R{}", self.base));
        }
        if let Some(before) = self.puts {
            let is_told = if is_overrun {
                put > before + 1
            } else {
                put == before + 1
            };
            if !is_told {
                let kind = if is_overrun {
                    "marked as overrun"
                } else {
                    "not marked as overrun"
                };
                return Err(format!("R{}: put {put} behind put {before}, {kind}", self.base));
            }
        }
        self.puts = Some(put);
        self.updates += 1;
        self.squashed += u64::from(is_overrun);
        Ok(())
    }

    /// Takes in an update.
    pub fn update(&mut self, payload: &[u8]) -> Outcome<()> {
        if u32_at(payload, 0)? != 1 || payload.get(4) != Some(&0) {
            return Err("a message of a monitor is no update".into());
        }
        let part = part_of(&payload[5..])?;
        let (overrun, size) = bits_of(&payload[5 + part.size..])?;
        if payload.len() != 5 + part.size + size {
            return Err("an update has bytes behind it".into());
        }
        match part.value {
            Some(value) => self.show(value, overrun & 2 != 0),
            None => Err("an update has no value".into()),
        }
    }
}

/// The first of these, in order, below which this part of a hundred stands.
pub fn at<T: Copy>(sorted: &[T], part: usize) -> T {
    sorted[(sorted.len() - 1) * part / 100]
}

/// The processor time of a process so far, in seconds: the ticks that /proc tells, of which Linux has 100 in a second.
pub fn processor_time(pid: u32) -> Outcome<f64> {
    let text = told(read_to_string(format!("/proc/{pid}/stat")), "the server is gone")?;
    let words: Vec<&str> = text.rsplit(')').next().unwrap().split_whitespace().collect();
    let ticks = |at: usize| words[at].parse::<f64>().unwrap();
    Ok((ticks(11) + ticks(12)) / 100.0)
}

/// A number of /proc/PID/status, such as the KiB of memory.
pub fn status_of(pid: u32, name: &str) -> Outcome<u64> {
    let text = told(read_to_string(format!("/proc/{pid}/status")), "the server is gone")?;
    let line = text
        .lines()
        .find_map(|line| line.strip_prefix(name))
        .ok_or("no such line")?;
    Ok(line.split_whitespace().nth(1).unwrap_or("").parse().unwrap_or(0))
}

/// A monitor of all fields of this record that has begun and was started, and what its first update shows.
pub fn watch_record(port: u16, record: usize, step: usize) -> Outcome<(Conn, Shown)> {
    let mut conn = Conn::open(port, record)?;
    conn.begin(MONITOR, 8, ALL)?;
    conn.ask(MONITOR, 0x44, &[])?;
    let mut shown = Shown::new(record, step);
    shown.update(&conn.expect(MONITOR)?)?;
    Ok((conn, shown))
}

/// A connection that may put to this record.
pub fn putter(port: u16, record: usize) -> Outcome<Conn> {
    let mut conn = Conn::open(port, record)?;
    conn.begin(PUT, 8, ALL)?;
    Ok(conn)
}
