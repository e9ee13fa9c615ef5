//! Characters, control symbols and packets of a link: how they are built, read and written as text.
use std::cell::OnceCell;
use std::ops::Deref;
use std::rc::Rc;

/// A character: its byte, above it 1 of a special one, or `INVALID`.
pub type Char = u16;

/// A packet as a link carries it, with an ackID of 0.
pub type Packet = Rc<Whole>;

/// The bytes of a packet, and their text once it was written.
pub struct Whole {
    bytes: Vec<u8>,
    hex: OnceCell<Vec<u8>>,
}

impl Whole {
    fn packet(bytes: Vec<u8>) -> Packet {
        Rc::new(Whole {
            bytes,
            hex: OnceCell::new(),
        })
    }
}

impl Deref for Whole {
    type Target = [u8];

    fn deref(&self) -> &[u8] {
        &self.bytes
    }
}

impl PartialEq for Whole {
    fn eq(&self, other: &Whole) -> bool {
        self.bytes == other.bytes
    }
}

pub const PD: Char = 0x17c;
pub const SC: Char = 0x11c;
pub const IDLES: [Char; 3] = [0x1bc, 0x1fd, 0x1fb];
pub const INVALID: Char = 0x200;

#[derive(Clone, Copy, PartialEq)]
pub struct Symbol {
    pub s0: u8,
    pub p0: u8,
    pub p1: u8,
    pub s1: u8,
    pub cmd: u8,
}

/// What characters say.
#[derive(Clone, PartialEq)]
pub enum Event {
    Symbol(Symbol),
    Packet(u8, Packet),
    Bad(u8),
}

static TEXTS: [[u8; 4]; 0x201] = texts();
static CRC5: [u8; 32] = table5();
static CRC16: [[u16; 256]; 4] = tables16();
const DIGITS: &[u8; 16] = b"0123456789abcdef";

const fn texts() -> [[u8; 4]; 0x201] {
    let mut table = [*b" inv"; 0x201];
    let mut c = 0;
    while c < 0x200 {
        let kind = if c < 0x100 { b'd' } else { b'k' };
        table[c] = [b' ', kind, DIGITS[c >> 4 & 15], DIGITS[c & 15]];
        c += 1;
    }
    table
}

const fn table5() -> [u8; 32] {
    let mut table = [0; 32];
    let mut n = 0;
    while n < 32 {
        let mut r = n as u8;
        let mut bit = 0;
        while bit < 5 {
            r = if r & 16 != 0 {
                (r << 1 ^ 0x15) & 31
            } else {
                r << 1
            };
            bit += 1;
        }
        table[n] = r;
        n += 1;
    }
    table
}

/// The CRC of each byte, and of it with one, two and three bytes of 0 after it.
const fn tables16() -> [[u16; 256]; 4] {
    let mut tables = [[0; 256]; 4];
    let mut n = 0;
    while n < 4 * 256 {
        let (at, byte) = (n / 256, n % 256);
        let mut r = if at == 0 {
            (byte as u16) << 8
        } else {
            tables[at - 1][byte]
        };
        let mut bit = 0;
        while bit < 8 {
            r = if r & 0x8000 != 0 {
                r << 1 ^ 0x1021
            } else {
                r << 1
            };
            bit += 1;
        }
        tables[at][byte] = r;
        n += 1;
    }
    tables
}

pub fn write_chars(out: &mut Vec<u8>, chars: &[Char]) {
    let from = out.len();
    out.resize(from + 4 * chars.len(), 0);
    for (text, c) in out[from..].chunks_exact_mut(4).zip(chars) {
        text.copy_from_slice(&TEXTS[usize::from(*c)]);
    }
}

pub fn write_hex(out: &mut Vec<u8>, packet: &Whole) {
    let digits = |b: &u8| [TEXTS[usize::from(*b)][2], TEXTS[usize::from(*b)][3]];
    let text = || packet.bytes.iter().flat_map(digits).collect();
    out.extend_from_slice(packet.hex.get_or_init(text));
}

fn crc5(bits: u32) -> u32 {
    let fields = bits >> 5 << 1;
    let step = |r: u8, at: u32| CRC5[usize::from(r ^ (fields >> at & 31) as u8)];
    u32::from([15, 10, 5, 0].into_iter().fold(31, step))
}

/// The register after some bytes, four at a time.
fn crc16(from: u16, bytes: &[u8]) -> u16 {
    let at = |table: usize, byte: u8| CRC16[table][usize::from(byte)];
    let fours = bytes.chunks_exact(4);
    let rest = fours.remainder();
    let r = fours.fold(from, |r, four| {
        let [high, low] = r.to_be_bytes();
        at(3, four[0] ^ high) ^ at(2, four[1] ^ low) ^ at(1, four[2]) ^ at(0, four[3])
    });
    rest.iter()
        .fold(r, |r, b| r << 8 ^ at(0, (r >> 8) as u8 ^ b))
}

impl Symbol {
    /// The four characters of the symbol.
    pub fn chars(self) -> [Char; 4] {
        let [s0, p0, p1, s1, cmd] = [self.s0, self.p0, self.p1, self.s1, self.cmd].map(u32::from);
        let bits = s0 << 21 | p0 << 16 | p1 << 11 | s1 << 8 | cmd << 5;
        let [_, x, y, z] = (bits | crc5(bits)).to_be_bytes();
        let delimiter = if self.s1 < 3 { PD } else { SC };
        [delimiter, Char::from(x), Char::from(y), Char::from(z)]
    }

    /// The symbol of three bytes, or its cause.
    pub fn read(delimiter: Char, [x, y, z]: [u8; 3]) -> Result<Symbol, u8> {
        let bits = u32::from_be_bytes([0, x, y, z]);
        if crc5(bits) != bits & 31 {
            return Err(2);
        }
        let s1 = y & 7;
        if if delimiter == PD { s1 > 4 } else { s1 < 3 } {
            return Err(31);
        }
        Ok(Symbol {
            s0: x >> 5,
            p0: x & 31,
            p1: y >> 3,
            s1,
            cmd: z >> 5,
        })
    }
}

/// The packet of a header and the bytes after it; with large IDs they have two bytes each.
pub fn build(prio: u8, ftype: u8, large: bool, ids: (u16, u16), rest: &[u8]) -> Packet {
    let (dest, source) = ids;
    let mut bytes = vec![0, prio << 6 | u8::from(large) << 4 | ftype];
    if large {
        bytes.extend(dest.to_be_bytes());
        bytes.extend(source.to_be_bytes());
    } else {
        bytes.extend([dest as u8, source as u8]);
    }
    bytes.extend_from_slice(rest);
    if bytes.len() > 80 {
        let early = crc16(0xffff, &bytes[..80]).to_be_bytes();
        bytes.splice(80..80, early);
    }
    bytes.extend(crc16(0xffff, &bytes).to_be_bytes());
    if bytes.len() % 4 != 0 {
        bytes.extend([0, 0]);
    }
    Whole::packet(bytes)
}

/// The event of the bytes of a packet.
pub fn read_packet(bytes: &mut [u8]) -> Event {
    if bytes.len() < 8 {
        return Event::Bad(31);
    }
    let ack = bytes[0] >> 3;
    bytes[0] &= 3;
    let (front, rest) = bytes.split_at(bytes.len().min(82));
    let early = crc16(0xffff, front);
    if bytes.len() % 4 != 0 || bytes.len() > 80 && early != 0 || crc16(early, rest) != 0 {
        return Event::Bad(4);
    }
    Event::Packet(ack, Whole::packet(bytes.to_vec()))
}

pub fn prio(packet: &[u8]) -> usize {
    usize::from(packet[1] >> 6)
}

/// A maintenance packet with its hop count lowered by one.
pub fn lower_hop(packet: &[u8], hop: usize) -> Packet {
    let mut bytes = packet.to_vec();
    bytes[hop] -= 1;
    let end = bytes.len() - if packet[1] >> 4 & 3 == 1 { 4 } else { 2 };
    let crc = crc16(0xffff, &bytes[..end]).to_be_bytes();
    bytes[end..end + 2].copy_from_slice(&crc);
    Whole::packet(bytes)
}

/// What a reader is in: nothing, a packet, or data that it skips.
#[derive(Clone, Copy, PartialEq)]
enum Mode {
    Between,
    Packet,
    Skipping,
}

/// Reads characters one by one.
pub struct Reader {
    mode: Mode,
    /// The delimiter of a symbol in progress, and how many of its bytes have come.
    symbol: Option<(Char, usize)>,
    bytes: [u8; 3],
    packet: Vec<u8>,
}

impl Reader {
    pub fn new() -> Reader {
        Reader {
            mode: Mode::Between,
            symbol: None,
            bytes: [0; 3],
            packet: Vec::new(),
        }
    }

    pub fn at_rest(&self) -> bool {
        self.mode != Mode::Packet && self.symbol.is_none()
    }

    /// Takes the bytes of a packet at the front of some characters, and says how many they are.
    pub fn take_run(&mut self, chars: &[Char]) -> usize {
        if self.mode != Mode::Packet || self.symbol.is_some() {
            return 0;
        }
        let room = &chars[..chars.len().min(276 - self.packet.len())];
        let is_data = |some: &&[Char]| some.iter().fold(0, |all, c| all | c) < 0x100;
        let blocks = 16 * room.chunks_exact(16).take_while(is_data).count();
        let more = room[blocks..].iter().take_while(|c| **c < 0x100).count();
        let count = blocks + more;
        self.packet.extend(room[..count].iter().map(|c| *c as u8));
        count
    }

    /// Takes a character, and has what it completes: a packet, and anything else.
    pub fn take(&mut self, c: Char) -> (Option<Event>, Option<Event>) {
        if let Some((delimiter, count)) = self.symbol {
            return self.take_in_symbol(c, delimiter, count);
        }
        let bad = match (self.mode, c) {
            (_, PD | SC) => {
                self.symbol = Some((c, 0));
                if self.mode == Mode::Skipping {
                    self.mode = Mode::Between;
                }
                None
            }
            (Mode::Packet, 0..=0xff) if self.packet.len() < 276 => {
                self.packet.push(c as u8);
                None
            }
            (Mode::Packet, 0..=0xff) => self.bad(31, Mode::Skipping),
            (Mode::Packet, _) if IDLES.contains(&c) => self.bad(5, Mode::Between),
            (Mode::Packet, _) => self.bad(5, Mode::Skipping),
            (_, _) if IDLES.contains(&c) => {
                self.mode = Mode::Between;
                None
            }
            (Mode::Between, _) => self.bad(5, Mode::Skipping),
            (Mode::Skipping, _) => None,
        };
        (None, bad)
    }

    fn bad(&mut self, cause: u8, next: Mode) -> Option<Event> {
        self.mode = next;
        self.symbol = None;
        Some(Event::Bad(cause))
    }

    fn take_in_symbol(
        &mut self,
        c: Char,
        delimiter: Char,
        count: usize,
    ) -> (Option<Event>, Option<Event>) {
        let bad = match c {
            0..=0xff => {
                self.bytes[count] = c as u8;
                self.symbol = Some((delimiter, count + 1));
                return if count == 2 {
                    self.finish(delimiter)
                } else {
                    (None, None)
                };
            }
            PD | SC => {
                let bad = self.bad(5, Mode::Between);
                self.symbol = Some((c, 0));
                bad
            }
            _ if IDLES.contains(&c) => self.bad(5, Mode::Between),
            _ => self.bad(5, Mode::Skipping),
        };
        (None, bad)
    }

    fn finish(&mut self, delimiter: Char) -> (Option<Event>, Option<Event>) {
        let symbol = match Symbol::read(delimiter, self.bytes) {
            Ok(symbol) => symbol,
            Err(cause) => return (None, self.bad(cause, Mode::Skipping)),
        };
        self.symbol = None;
        let ends = self.mode == Mode::Packet && (symbol.s1 == 0 || symbol.s1 == 2);
        let packet = ends.then(|| read_packet(&mut self.packet));
        match symbol.s1 {
            0 => {
                self.packet.clear();
                self.mode = Mode::Packet;
            }
            1..=4 => self.mode = Mode::Between,
            _ => {}
        }
        (packet, Some(Event::Symbol(symbol)))
    }
}
