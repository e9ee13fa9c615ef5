//! What `rio decode` does, written plainly and with no proofs, to measure beside it.
//!
//! build: rustc --edition 2021 -C opt-level=3 -C target-cpu=x86-64-v2 -o decode decode.rs
//! usage: decode < CHARACTERS
//!
//! It is no reference: tests/speed compares what it writes with what `rio decode` writes, and the
//! time that both take.
use std::io::{self, Read, Write};

const PD: u16 = 0x17c;
const SC: u16 = 0x11c;
const IDLES: [u16; 3] = [0x1bc, 0x1fd, 0x1fb];
const INVALID: u16 = 0x200;

/// What a reader is in: nothing, a packet with so many bytes, or data that it skips.
#[derive(Clone, Copy, PartialEq)]
enum Mode {
    Between,
    Packet,
    Skipping,
}

struct Reader {
    mode: Mode,
    /// The delimiter of a symbol in progress, and how many of its bytes have come.
    symbol: Option<(u16, usize)>,
    bytes: [u8; 3],
    packet: Vec<u8>,
    crc5: [u8; 32],
    crc16: [u16; 256],
    out: Vec<u8>,
}

fn table5() -> [u8; 32] {
    std::array::from_fn(|n| {
        let shifted = |r: u8, _| if r & 16 != 0 { (r << 1 ^ 0x15) & 31 } else { r << 1 };
        (0..5).fold(n as u8, shifted)
    })
}

fn table16() -> [u16; 256] {
    std::array::from_fn(|n| {
        let shifted = |r: u16, _| if r & 0x8000 != 0 { r << 1 ^ 0x1021 } else { r << 1 };
        (0..8).fold((n as u16) << 8, shifted)
    })
}

impl Reader {
    fn new() -> Reader {
        Reader {
            mode: Mode::Between,
            symbol: None,
            bytes: [0; 3],
            packet: Vec::with_capacity(276),
            crc5: table5(),
            crc16: table16(),
            out: Vec::with_capacity(1 << 16),
        }
    }

    fn number(&mut self, number: usize) {
        let mut digits = [0; 20];
        let mut from = 20;
        let mut left = number;
        loop {
            from -= 1;
            digits[from] = b'0' + (left % 10) as u8;
            left /= 10;
            if left == 0 {
                break;
            }
        }
        self.out.extend_from_slice(&digits[from..]);
    }

    fn bad(&mut self, place: usize, cause: u8, next: Mode) {
        self.number(place);
        self.out.extend_from_slice(b" bad ");
        self.number(usize::from(cause));
        self.out.push(b'\n');
        self.mode = next;
        self.symbol = None;
    }

    fn take(&mut self, place: usize, c: u16) {
        if let Some((delimiter, count)) = self.symbol {
            return self.take_in_symbol(place, c, delimiter, count);
        }
        match (self.mode, c) {
            (_, PD | SC) => {
                self.symbol = Some((c, 0));
                if self.mode == Mode::Skipping {
                    self.mode = Mode::Between;
                }
            }
            (Mode::Packet, 0..=0xff) if self.packet.len() < 276 => self.packet.push(c as u8),
            (Mode::Packet, 0..=0xff) => self.bad(place, 31, Mode::Skipping),
            (Mode::Packet, _) if IDLES.contains(&c) => self.bad(place, 5, Mode::Between),
            (Mode::Packet, _) => self.bad(place, 5, Mode::Skipping),
            (_, _) if IDLES.contains(&c) => self.mode = Mode::Between,
            (Mode::Between, _) => self.bad(place, 5, Mode::Skipping),
            (Mode::Skipping, _) => {}
        }
    }

    fn take_in_symbol(&mut self, place: usize, c: u16, delimiter: u16, count: usize) {
        match c {
            0..=0xff => {
                self.bytes[count] = c as u8;
                self.symbol = Some((delimiter, count + 1));
                if count == 2 {
                    self.finish(place, delimiter);
                }
            }
            PD | SC => {
                self.bad(place, 5, Mode::Between);
                self.symbol = Some((c, 0));
            }
            _ if IDLES.contains(&c) => self.bad(place, 5, Mode::Between),
            _ => self.bad(place, 5, Mode::Skipping),
        }
    }

    fn finish(&mut self, place: usize, delimiter: u16) {
        let [x, y, z] = self.bytes.map(u32::from);
        let bits = x << 16 | y << 8 | z;
        let fields = bits >> 5 << 1;
        let step = |r: u8, at: u32| self.crc5[usize::from(r ^ (fields >> at & 31) as u8)];
        let crc = [15, 10, 5, 0].into_iter().fold(31, step);
        let (s1, cmd) = (y & 7, z >> 5);
        if u32::from(crc) != z & 31 {
            return self.bad(place, 2, Mode::Skipping);
        }
        if if delimiter == PD { s1 > 4 } else { s1 < 3 } {
            return self.bad(place, 31, Mode::Skipping);
        }
        if self.mode == Mode::Packet && (s1 == 0 || s1 == 2) {
            self.end_packet(place);
        }
        self.number(place);
        self.out.extend_from_slice(b" symbol");
        for field in [x >> 5, x & 31, y >> 3, s1, cmd] {
            self.out.push(b' ');
            self.number(field as usize);
        }
        self.out.push(b'\n');
        self.symbol = None;
        match s1 {
            0 => {
                self.packet.clear();
                self.mode = Mode::Packet;
            }
            1..=4 => self.mode = Mode::Between,
            _ => {}
        }
    }

    fn end_packet(&mut self, place: usize) {
        let len = self.packet.len();
        if len < 8 {
            return self.bad(place, 31, Mode::Between);
        }
        let ack = self.packet[0] >> 3;
        self.packet[0] &= 3;
        let fed = |r: u16, b: &u8| r << 8 ^ self.crc16[usize::from((r >> 8) as u8 ^ b)];
        let (front, rest) = self.packet.split_at(len.min(82));
        let early = front.iter().fold(0xffff, fed);
        if len % 4 != 0 || len > 80 && early != 0 || rest.iter().fold(early, fed) != 0 {
            return self.bad(place, 4, Mode::Between);
        }
        self.number(place);
        self.out.extend_from_slice(b" packet ");
        self.number(usize::from(ack));
        self.out.push(b' ');
        for b in &self.packet {
            let digit = |n: u8| b"0123456789abcdef"[usize::from(n)];
            self.out.extend_from_slice(&[digit(b >> 4), digit(b & 15)]);
        }
        self.out.push(b'\n');
    }
}

/// A word as a character: its byte, above it 1 of a special one, or `INVALID`.
fn character(word: &[u8]) -> Option<u16> {
    let value = |digit: u8| match digit {
        b'0'..=b'9' => Some(u16::from(digit - b'0')),
        b'a'..=b'f' => Some(u16::from(digit - b'a') + 10),
        _ => None,
    };
    match *word {
        [b'd', high, low] => Some(value(high)? << 4 | value(low)?),
        [b'k', high, low] => Some(0x100 | value(high)? << 4 | value(low)?),
        [b'i', b'n', b'v'] => Some(INVALID),
        _ => None,
    }
}

fn main() -> io::Result<()> {
    let mut input = Vec::new();
    io::stdin().read_to_end(&mut input)?;
    let words = input.split(|b| b" \t\r\n".contains(b)).filter(|word| !word.is_empty());
    let chars: Option<Vec<u16>> = words.map(character).collect();
    let Some(chars) = chars else {
        std::process::exit(3);
    };
    let mut reader = Reader::new();
    let mut out = io::stdout().lock();
    for (place, c) in chars.iter().enumerate() {
        reader.take(place, *c);
        if reader.out.len() > 1 << 15 {
            out.write_all(&reader.out)?;
            reader.out.clear();
        }
    }
    let cut = reader.mode == Mode::Packet || reader.symbol.is_some();
    reader.out.extend_from_slice(if cut { b"end cut\n" } else { b"end\n" });
    out.write_all(&reader.out)
}
