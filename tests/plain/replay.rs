//! What `rio replay` does with a script that is known to be good, written plainly and with no
//! proofs, to measure beside it.
//!
//! build: rustc --edition 2021 -C opt-level=3 -C target-cpu=x86-64-v2 -o replay replay.rs
//! usage: replay < SCRIPT
// Each of the two programs leaves some of these modules unused.
#![allow(dead_code)]

mod device;
mod fabric;
mod link;
mod port;
mod script;
mod wire;

use device::request;
use fabric::{Fabric, Lost};
use script::{lines, node, number, port, refused, set_up, Names};
use std::io::{self, Read};
use wire::{build, write_hex, Char, Event, INVALID};

fn digits(word: &str) -> u32 {
    u32::from_str_radix(word, 16).unwrap_or_else(|_| refused())
}

fn hex(word: &str) -> Vec<u8> {
    if word == "-" {
        return Vec::new();
    }
    (0..word.len() / 2)
        .map(|at| digits(&word[2 * at..2 * at + 2]) as u8)
        .collect()
}

fn character(word: &str) -> Char {
    match word.split_at(1) {
        ("d", byte) => digits(byte) as Char,
        ("k", byte) => 0x100 | digits(byte) as Char,
        _ => INVALID,
    }
}

/// Carries out `send`, `read` or `write`; a word that ends with 16 has large IDs.
fn give(fabric: &mut Fabric, names: &Names, words: &[&str]) -> Option<&'static str> {
    let (word, large) = words[0]
        .strip_suffix("16")
        .map_or((words[0], false), |word| (word, true));
    let at = node(names, words[1]);
    let device = &fabric.nodes[at].device;
    let source = if large {
        device.large_id
    } else {
        u16::from(device.id)
    };
    let prio = number(words[2]);
    let packet = match (word, &words[3..]) {
        ("send", [ftype, dest, data]) => build(
            prio,
            number(ftype),
            large,
            (number(dest), source),
            &hex(data),
        ),
        (_, [dest, hop, tid, offset, value @ ..]) => {
            let value = value.first().map(|value| digits(value));
            let (ids, way) = ((number(dest), source), (number(tid), number(hop)));
            request(prio, large, ids, way, digits(offset), value)
        }
        _ => refused(),
    };
    fabric.send(at, packet)
}

/// Changes a wire; answers `short` if it cannot.
fn edit(fabric: &mut Fabric, at: (usize, usize), words: &[&str]) -> Option<&'static str> {
    let chars = &mut fabric.cables[at.0].wires[at.1].chars;
    let place: usize = number(words[2]);
    let count = if words[0] == "erase" {
        number(words[3])
    } else {
        usize::from(words[0] == "alter")
    };
    if place + count > chars.len() {
        return Some("short\n");
    }
    match words[0] {
        "erase" => drop(chars.drain(place..place + count)),
        "alter" => chars[place] = character(words[3]),
        _ => chars.insert(place, character(words[3])),
    }
    fabric.stir(at.0);
    None
}

/// Carries out an event of a link.
fn act(
    fabric: &mut Fabric,
    (cable, side): (usize, usize),
    words: &[&str],
) -> Result<Option<&'static str>, Lost> {
    match words[0] {
        "pump" => fabric.pump(cable, side, number(words[2])),
        "deliver" => {
            let count = number(words[2]);
            if fabric.cables[cable].wires[side].chars.len() < count {
                return Ok(Some("short\n"));
            }
            fabric.deliver(cable, side, count)?;
        }
        "timeout" if !fabric.time_out(cable, side) => return Ok(Some("early\n")),
        "timeout" => {}
        "settle" => fabric.settle(cable)?,
        _ => return Ok(edit(fabric, (cable, side), words)),
    }
    Ok(None)
}

fn event(fabric: &mut Fabric, names: &Names, words: &[&str]) -> Result<Option<&'static str>, Lost> {
    match words {
        ["send" | "read" | "write" | "send16" | "read16" | "write16", ..] => {
            Ok(give(fabric, names, words))
        }
        ["move", at] => Ok((!fabric.step(node(names, at))).then_some("none\n")),
        ["collect", at] => Ok(fabric.collect(node(names, at))),
        ["run", rounds] => {
            for _ in 0..number(rounds) {
                fabric.round()?;
                if fabric.flush(1 << 16).is_err() {
                    std::process::exit(5);
                }
            }
            Ok(None)
        }
        [_, at, ..] => {
            let at = port(fabric, names, at);
            let cable = fabric.cable_of[at].unwrap_or_else(|| refused());
            act(fabric, cable, words)
        }
        _ => refused(),
    }
}

fn write_lost(fabric: &mut Fabric, line: usize, lost: &Lost) {
    let what = match &lost.event {
        Event::Symbol(s) => format!("symbol {} {} {} {} {}\n", s.s0, s.p0, s.p1, s.s1, s.cmd),
        Event::Packet(ack, _) => format!("packet {ack} "),
        Event::Bad(_) => String::new(),
    };
    let name = fabric.name(lost.port);
    fabric
        .out
        .extend(format!("undetected {line} {name} {what}").bytes());
    if let Event::Packet(_, packet) = &lost.event {
        write_hex(&mut fabric.out, packet);
        fabric.out.push(b'\n');
    }
}

fn main() -> io::Result<()> {
    let mut text = String::new();
    io::stdin().read_to_string(&mut text)?;
    let (mut fabric, mut names) = (Fabric::new(), Names::new());
    let mut sets_up = true;
    for (at, line, words) in lines(&text) {
        sets_up = sets_up && set_up(&mut fabric, &mut names, &words);
        if sets_up {
            continue;
        }
        fabric.out.extend(b"> ");
        fabric.out.extend(line.bytes());
        fabric.out.push(b'\n');
        match event(&mut fabric, &names, &words) {
            Ok(word) => fabric.out.extend(word.unwrap_or("").bytes()),
            Err(lost) => {
                write_lost(&mut fabric, at, &lost);
                fabric.flush(0)?;
                std::process::exit(7);
            }
        }
        fabric.flush(1 << 16)?;
    }
    fabric.out.extend(b"end\n");
    fabric.flush(0)
}
