//! The baseline of `gets.sh`: splits standard input into frames of eight header bytes and a payload, and copies one fixed
//! reply of 46 bytes to standard output for each. It reads pieces of 4,096 bytes, as the server does, and checks nothing.

use std::io::{self, Read, Write};

const REPLY: [u8; 46] = {
    let mut reply = [0; 46];
    let head = [
        0xCA, 2, 0x40, 0x0A, 0x26, 0, 0, 0, 1, 0, 0, 0, 0, 0xFF, 2, 0xBA, 3, 42,
    ];
    let mut i = 0;
    while i < head.len() {
        reply[i] = head[i];
        i += 1;
    }
    reply
};

fn main() -> io::Result<()> {
    let (mut input, mut output) = (io::stdin().lock(), io::stdout().lock());
    let mut buffer = [0; 4096];
    let mut held = Vec::new();
    let mut replies = Vec::new();
    loop {
        let count = input.read(&mut buffer)?;
        if count == 0 {
            return Ok(());
        }
        held.extend_from_slice(&buffer[..count]);
        let mut at = 0;
        while held.len() - at >= 8 {
            let size = u32::from_le_bytes([held[at + 4], held[at + 5], held[at + 6], held[at + 7]]);
            let end = at + 8 + size as usize;
            if held.len() < end {
                break;
            }
            replies.extend_from_slice(&REPLY);
            at = end;
        }
        held.drain(..at);
        output.write_all(&replies)?;
        replies.clear();
    }
}
