//! What `rio enumerate` does with set-up lines that are known to be good and a host that can number
//! their fabric, written plainly and with no proofs, to measure beside it.
//!
//! build: rustc --edition 2021 -C opt-level=3 -C target-cpu=x86-64-v2 -o enumerate enumerate.rs
//! usage: enumerate NODE < SCRIPT
// Each of the two programs leaves some of these modules unused.
#![allow(dead_code)]

mod device;
mod fabric;
mod link;
mod port;
mod script;
mod wire;

use device::{request, value_in};
use fabric::Fabric;
use script::{lines, node, refused, set_up, Names};
use std::io::{self, Read};

const FREE: u32 = 0xffff;

/// A device that was met: its path, and its ID if it is an endpoint, or its ports and the port of
/// entry.
struct Met {
    path: Vec<u8>,
    kind: Kind,
}

#[derive(Clone, Copy)]
enum Kind {
    Endpoint { id: u8 },
    Switch { ports: u8, entry: u8 },
}

/// A walk ended at the lock of another host, and at this path.
struct Locked(Vec<u8>, u32);

struct Walk {
    fabric: Fabric,
    host: usize,
    id: u8,
    next_id: u8,
    tid: u8,
    met: Vec<Met>,
}

impl Walk {
    /// Reads a register of the device on a path, or writes it if there is a value.
    fn access(&mut self, path: &[u8], offset: u32, value: Option<u32>) -> u32 {
        if path.is_empty() {
            let device = &mut self.fabric.nodes[self.host].device;
            if let Some(value) = value {
                device.write(offset, value);
            }
            return device.read(offset, 0).unwrap_or(0);
        }
        let source = self.fabric.nodes[self.host].device.id;
        let way = (self.tid, path.len() as u8 - 1);
        self.tid = self.tid.wrapping_add(1);
        let packet = request(0, false, (255, u16::from(source)), way, offset, value);
        self.fabric.send(self.host, packet);
        while !self.fabric.holds(self.host) {
            if self.fabric.ask_round(self.host).is_err() {
                panic!("no wire is disturbed");
            }
        }
        self.fabric.collect(self.host);
        if self.fabric.flush(1 << 16).is_err() {
            std::process::exit(5);
        }
        value_in(&self.fabric.left.take().expect("an answer came"), offset)
    }

    fn read(&mut self, path: &[u8], offset: u32) -> u32 {
        self.access(path, offset, None)
    }

    fn write(&mut self, path: &[u8], offset: u32, value: u32) {
        self.access(path, offset, Some(value));
    }

    fn set_entry(&mut self, path: &[u8], id: u8, port: u8) {
        self.write(path, 0x70, u32::from(id));
        self.write(path, 0x74, u32::from(port));
    }

    /// Takes the device on a path, and says whether it is new.
    fn take(&mut self, path: &[u8]) -> Result<bool, Locked> {
        let lock = self.read(path, 0x68);
        if lock == FREE {
            self.write(path, 0x68, u32::from(self.id));
            return Ok(true);
        }
        if lock != u32::from(self.id) {
            return Err(Locked(path.to_vec(), lock));
        }
        Ok(self.read(path, 0x6c) == 0)
    }

    /// Meets what is on a path, and what is behind it.
    fn meet(&mut self, path: &[u8]) -> Result<(), Locked> {
        if !self.take(path)? {
            return Ok(());
        }
        self.write(path, 0x6c, self.met.len() as u32 + 1);
        let is_switch = self.read(path, 0x10) >> 28 & 1 == 1;
        let kind = if is_switch {
            self.set_up(path)
        } else {
            self.number(path)
        };
        self.met.push(Met {
            path: path.to_vec(),
            kind,
        });
        match kind {
            Kind::Switch { ports, entry } => self.explore(path, ports, entry),
            Kind::Endpoint { .. } => Ok(()),
        }
    }

    fn number(&mut self, path: &[u8]) -> Kind {
        if path.is_empty() {
            return Kind::Endpoint { id: self.id };
        }
        let id = self.next_id + u8::from(self.next_id == self.id);
        self.next_id = id + 1;
        self.write(path, 0x60, u32::from(id) << 16);
        for at in 1..path.len() {
            self.set_entry(&path[..at], id, path[at]);
        }
        Kind::Endpoint { id }
    }

    fn set_up(&mut self, path: &[u8]) -> Kind {
        let information = self.read(path, 0x14);
        let [.., ports, entry] = information.to_be_bytes();
        self.write(path, 0x78, u32::from(entry));
        for id in (0..63).filter(|id| *id != self.id).collect::<Vec<_>>() {
            self.set_entry(path, id, 255);
        }
        self.set_entry(path, self.id, entry);
        Kind::Switch { ports, entry }
    }

    fn explore(&mut self, path: &[u8], ports: u8, entry: u8) -> Result<(), Locked> {
        for port in (0..ports).filter(|port| *port != entry) {
            if self.read(path, 0x158 + 0x20 * u32::from(port)) != 2 {
                continue;
            }
            self.set_entry(path, 255, port);
            self.meet(&[path, &[port]].concat())?;
        }
        Ok(())
    }

    /// The map: each device, and each entry of each switch.
    fn write_map(&mut self) {
        let mut text = String::new();
        for (at, met) in self.met.iter().enumerate() {
            let (kind, number) = match met.kind {
                Kind::Endpoint { id } => ("endpoint", id),
                Kind::Switch { ports, .. } => ("switch", ports),
            };
            text += &format!(
                "device {} {kind} {number} {}\n",
                at + 1,
                path_text(&met.path)
            );
        }
        for (at, met) in self.met.iter().enumerate() {
            if let Kind::Switch { entry, .. } = met.kind {
                text += &self.entries(at + 1, &met.path, entry);
            }
        }
        self.fabric.out.extend(text.bytes());
    }

    fn entries(&self, tag: usize, path: &[u8], entry: u8) -> String {
        let endpoints = self.met.iter().filter_map(|met| match met.kind {
            Kind::Endpoint { id } => Some((id, &met.path)),
            Kind::Switch { .. } => None,
        });
        let mut given: Vec<_> = endpoints.collect();
        given.sort();
        let port = |to: &[u8]| to.strip_prefix(path).map_or(entry, |rest| rest[0]);
        given
            .iter()
            .map(|(id, to)| format!("entry {tag} {id} {}\n", port(to)))
            .collect()
    }
}

fn path_text(path: &[u8]) -> String {
    if path.is_empty() {
        return "host".to_string();
    }
    path.iter().map(u8::to_string).collect::<Vec<_>>().join(".")
}

fn main() -> io::Result<()> {
    let mut text = String::new();
    io::stdin().read_to_string(&mut text)?;
    let (mut fabric, mut names) = (Fabric::new(), Names::new());
    if !lines(&text).all(|(_, _, words)| set_up(&mut fabric, &mut names, &words)) {
        refused();
    }
    let host = node(&names, &std::env::args().nth(1).unwrap_or_default());
    let id = fabric.nodes[host].device.id;
    let mut walk = Walk {
        fabric,
        host,
        id,
        next_id: 0,
        tid: 0,
        met: Vec::new(),
    };
    let ended = walk.meet(&[]).and_then(|()| walk.meet(&[0]));
    match &ended {
        Ok(()) => {
            walk.write_map();
            walk.fabric.out.extend(b"end\n");
        }
        Err(Locked(path, id)) => {
            let line = format!("locked {} {id}\n", path_text(path));
            walk.fabric.out.extend(line.bytes());
        }
    }
    walk.fabric.flush(0)?;
    std::process::exit(if ended.is_ok() { 0 } else { 9 })
}
