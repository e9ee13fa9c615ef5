//! Registers of a device, and what it does with a maintenance packet.
use crate::wire::{build, Packet};

pub const FREE: u16 = 0xffff;

pub struct Device {
    /// How many ports a switch has, or 0 of an endpoint.
    pub switch: u8,
    pub linked: u16,
    pub id: u8,
    pub large_id: u16,
    pub lock: u16,
    pub tag: u32,
    select: u16,
    pub routes: Vec<u8>,
    pub default_port: u8,
}

/// Where a packet goes.
#[derive(Clone, Copy, PartialEq)]
pub enum Next {
    Nowhere,
    Registers,
    Port(u8),
}

fn is_large(packet: &[u8]) -> bool {
    packet[1] >> 4 & 3 == 1
}

fn ids_end(packet: &[u8]) -> usize {
    if is_large(packet) {
        6
    } else {
        4
    }
}

/// The destination and the source of a packet.
fn ids(packet: &[u8]) -> Option<(u16, u16)> {
    let number = |at: usize| u16::from_be_bytes([packet[at], packet[at + 1]]);
    match packet[1] >> 4 & 3 {
        0 => Some((u16::from(packet[2]), u16::from(packet[3]))),
        1 => Some((number(2), number(4))),
        _ => None,
    }
}

fn is_type_8(packet: &[u8]) -> bool {
    packet[1] & 15 == 8
}

/// The place of the hop count, if it is a maintenance packet.
pub fn hop_place(packet: &[u8]) -> Option<usize> {
    let length = packet.len();
    let fits = match packet[1] >> 4 & 3 {
        0 => length % 8 == 4 && (12..=76).contains(&length),
        1 => length % 8 == 0 && (16..=80).contains(&length) && packet[length - 2..] == [0, 0],
        _ => false,
    };
    (is_type_8(packet) && fits).then_some(ids_end(packet) + 2)
}

/// Whether it is a maintenance request.
pub fn is_request(packet: &[u8]) -> bool {
    hop_place(packet).is_some() && packet[ids_end(packet)] >> 4 < 2
}

fn word(packet: &[u8], at: usize) -> u32 {
    u32::from_be_bytes([packet[at], packet[at + 1], packet[at + 2], packet[at + 3]])
}

/// Four bytes at the place in eight that an offset names.
fn double_word(offset: u32, value: u32) -> [u8; 8] {
    let shift = if offset & 4 == 0 { 32 } else { 0 };
    (u64::from(value) << shift).to_be_bytes()
}

/// A request for four bytes: a write if it has a value.
pub fn request(
    prio: u8,
    large: bool,
    ids: (u16, u16),
    (tid, hop): (u8, u8),
    offset: u32,
    value: Option<u32>,
) -> Packet {
    let [_, x, y, z] = offset.to_be_bytes();
    let mut rest = vec![if value.is_some() { 0x18 } else { 0x08 }, tid, hop, x, y, z];
    rest.extend(
        value
            .map(|value| double_word(offset, value))
            .into_iter()
            .flatten(),
    );
    build(prio, 8, large, ids, &rest)
}

/// The word that a response has for the offset of its request, or 0.
pub fn value_in(response: &[u8], offset: u32) -> u32 {
    let data = ids_end(response) + 6;
    if response.len() < data + 10 {
        return 0;
    }
    word(response, data + if offset & 4 == 0 { 0 } else { 4 })
}

impl Device {
    pub fn new(switch: u8, id: u8) -> Device {
        Device {
            switch,
            linked: 0,
            id,
            large_id: 0xffff,
            lock: FREE,
            tag: 0,
            select: 0,
            routes: vec![255; 1024],
            default_port: 255,
        }
    }

    fn entry(&self, dest: u16) -> u8 {
        self.routes.get(usize::from(dest)).copied().unwrap_or(255)
    }

    pub fn next(&self, packet: &[u8]) -> Next {
        let Some((dest, _)) = ids(packet) else {
            return Next::Nowhere;
        };
        match hop_place(packet) {
            None if is_type_8(packet) => return Next::Nowhere,
            Some(place) if packet[place] == 0 && is_request(packet) => return Next::Registers,
            Some(place) if packet[place] == 0 => return Next::Nowhere,
            _ => {}
        }
        let entry = self.entry(dest);
        let port = if entry == 255 {
            self.default_port
        } else {
            entry
        };
        if port < self.switch {
            Next::Port(port)
        } else {
            Next::Nowhere
        }
    }

    fn ports(&self) -> u8 {
        self.switch.max(1)
    }

    pub fn read(&self, offset: u32, port: u8) -> Option<u32> {
        let is_switch = self.switch != 0;
        Some(match offset {
            0x00 => {
                if is_switch {
                    0x2_ffff
                } else {
                    0x1_ffff
                }
            }
            0x0c => 0x100,
            0x10 => {
                if is_switch {
                    0x1000_0118
                } else {
                    0x18
                }
            }
            0x14 if is_switch => u32::from(self.switch) << 8 | u32::from(port),
            0x34 if is_switch => 0x3ff,
            0x60 if !is_switch => u32::from(self.id) << 16 | u32::from(self.large_id),
            0x68 => u32::from(self.lock),
            0x6c => self.tag,
            0x70 if is_switch => u32::from(self.select),
            0x74 if is_switch => u32::from(self.entry(self.select)),
            0x78 if is_switch => u32::from(self.default_port),
            0x158..
                if offset % 0x20 == 0x18 && (offset - 0x158) / 0x20 < u32::from(self.ports()) =>
            {
                1 + u32::from(self.linked >> ((offset - 0x158) / 0x20) & 1)
            }
            _ => return None,
        })
    }

    /// Writes a register, and says whether it can be written.
    pub fn write(&mut self, offset: u32, value: u32) -> bool {
        let is_switch = self.switch != 0;
        match offset {
            0x60 if !is_switch => self.id = (value >> 16) as u8,
            0x68 => self.lock = locked(self.lock, value as u16),
            0x6c => self.tag = value,
            0x70 if is_switch => self.select = (value & 0x3ff) as u16,
            0x74 if is_switch => self.routes[usize::from(self.select)] = value as u8,
            0x78 if is_switch => self.default_port = value as u8,
            _ => return false,
        }
        true
    }

    /// The response to a request that came on this port.
    pub fn answer(&mut self, packet: &[u8], port: u8) -> Packet {
        let at = ids_end(packet);
        let [is_write, is_good] = [packet[at] >> 4 == 1, packet[at] & 15 == 8];
        let short = if is_large(packet) { 16 } else { 12 };
        let offset = word(packet, at + 2) & 0xff_ffff;
        let mut data = None;
        let done = if is_write {
            let value = at + if offset & 4 == 0 { 6 } else { 10 };
            let fits = is_good && packet.len() == short + 8;
            fits && self.write(offset, word(packet, value))
        } else if is_good && packet.len() == short {
            data = self
                .read(offset, port)
                .map(|value| double_word(offset, value));
            data.is_some()
        } else {
            false
        };
        let front = 0x20 | u8::from(is_write) << 4 | if done { 0 } else { 7 };
        let mut rest = vec![front, packet[at + 1], 255, 0, 0, 0];
        rest.extend(data.into_iter().flatten());
        let (dest, source) = ids(packet).expect("a request has IDs");
        let prio = (packet[1] >> 6).saturating_add(1).min(3);
        build(prio, 8, is_large(packet), (source, dest), &rest)
    }
}

fn locked(lock: u16, id: u16) -> u16 {
    match lock {
        FREE => id,
        _ if lock == id => FREE,
        _ => lock,
    }
}
