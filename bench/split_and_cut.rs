//! The baseline of `segments.sh`: splits standard input into frames of eight header bytes and a payload, and writes each payload
//! of an echo back in segments of 1,016 bytes. It reads pieces of 4,096 bytes, as the server does, and checks nothing.

use std::io::{self, Read, Write};

const SEGMENT: usize = 1016;

fn cut(payload: &[u8], out: &mut Vec<u8>) {
    let last = payload.len().div_ceil(SEGMENT) - 1;
    for (i, segment) in payload.chunks(SEGMENT).enumerate() {
        let kind = if i == 0 {
            0x10
        } else if i == last {
            0x20
        } else {
            0x30
        };
        out.extend_from_slice(&[0xCA, 2, 0x40 | kind, 2]);
        out.extend_from_slice(&(segment.len() as u32).to_le_bytes());
        out.extend_from_slice(segment);
    }
}

fn main() -> io::Result<()> {
    let (mut input, mut output) = (io::stdin().lock(), io::stdout().lock());
    let mut buffer = [0; 4096];
    let mut held = Vec::new();
    let mut replies = Vec::new();
    loop {
        let count = input.read(&mut buffer)?;
        if count == 0 {
            return Ok(());
        }
        held.extend_from_slice(&buffer[..count]);
        let mut at = 0;
        while held.len() - at >= 8 {
            let size = u32::from_le_bytes([held[at + 4], held[at + 5], held[at + 6], held[at + 7]]);
            let end = at + 8 + size as usize;
            if held.len() < end {
                break;
            }
            if held[at + 3] == 2 {
                cut(&held[at + 8..end], &mut replies);
            }
            at = end;
        }
        held.drain(..at);
        output.write_all(&replies)?;
        replies.clear();
    }
}
