//! A fabric of endpoints, switches and links, and the lines of what it does.
use crate::device::{hop_place, is_request, Device, Next};
use crate::port::{Note, Port, Wire};
use crate::wire::{lower_hop, prio, write_hex, Char, Event, Packet};
use std::io::{self, Write};

pub struct Node {
    pub name: String,
    pub device: Device,
    /// The place of its first port.
    pub first: usize,
    /// How many packets its ports hold.
    pub held: usize,
}

pub struct Cable {
    pub ends: [usize; 2],
    pub wires: [Wire; 2],
}

/// A port acted on an event that its peer had not sent.
pub struct Lost {
    pub port: usize,
    pub event: Event,
}

pub struct Fabric {
    pub nodes: Vec<Node>,
    pub cables: Vec<Cable>,
    /// Whether each cable may have work.
    pub stirs: Vec<bool>,
    pub ports: Vec<Port>,
    pub names: Vec<String>,
    pub node_of: Vec<usize>,
    /// The cable of each port, and the side of it.
    pub cable_of: Vec<Option<(usize, usize)>>,
    /// What came with a delivery, and what it made a port hold and free.
    pub came: Vec<Char>,
    pub notes: Vec<Note>,
    /// The last packet that left.
    pub left: Option<Packet>,
    pub out: Vec<u8>,
}

impl Fabric {
    pub fn new() -> Fabric {
        Fabric {
            nodes: Vec::new(),
            cables: Vec::new(),
            stirs: Vec::new(),
            ports: Vec::new(),
            names: Vec::new(),
            node_of: Vec::new(),
            cable_of: Vec::new(),
            came: Vec::new(),
            notes: Vec::new(),
            left: None,
            out: Vec::with_capacity(1 << 17),
        }
    }

    pub fn add_node(&mut self, name: &str, device: Device) {
        let first = self.ports.len();
        for port in 0..device.switch.max(1) {
            self.ports.push(Port::new());
            self.names.push(format!("{name}.{port}"));
            self.node_of.push(self.nodes.len());
            self.cable_of.push(None);
        }
        self.nodes.push(Node {
            name: name.to_string(),
            device,
            first,
            held: 0,
        });
    }

    pub fn add_link(&mut self, ends: [usize; 2]) {
        for (side, end) in ends.into_iter().enumerate() {
            self.cable_of[end] = Some((self.cables.len(), side));
            let node = &mut self.nodes[self.node_of[end]];
            node.device.linked |= 1 << (end - node.first);
        }
        self.stirs.push(true);
        self.cables.push(Cable {
            ends,
            wires: Default::default(),
        });
    }

    pub fn name(&self, port: usize) -> &str {
        &self.names[port]
    }

    pub fn stir(&mut self, cable: usize) {
        self.stirs[cable] = true;
    }

    /// Writes the output if it has at least this many bytes.
    pub fn flush(&mut self, at: usize) -> io::Result<()> {
        if self.out.len() >= at {
            io::stdout().lock().write_all(&self.out)?;
            self.out.clear();
        }
        Ok(())
    }

    /// A line of a port, up to what comes after its name.
    pub fn begin(&mut self, word: &str, port: usize) {
        self.out.extend_from_slice(word.as_bytes());
        self.out.extend_from_slice(self.names[port].as_bytes());
    }

    pub fn packet_line(&mut self, word: &str, port: usize, packet: &Packet) {
        self.begin(word, port);
        self.hex_end(packet);
    }

    fn hex_end(&mut self, packet: &Packet) {
        self.out.push(b' ');
        write_hex(&mut self.out, packet);
        self.out.push(b'\n');
    }

    fn node_line(&mut self, word: &str, node: usize, packet: &Packet) {
        self.out.extend_from_slice(word.as_bytes());
        self.out.extend_from_slice(self.nodes[node].name.as_bytes());
        self.hex_end(packet);
    }

    /// Whether a link has nothing to do.
    fn is_still(&mut self, cable: usize) -> bool {
        if !self.stirs[cable] {
            return true;
        }
        let [a, b] = [self.at(cable, 0), self.at(cable, 1)];
        let rests = a.is_quiet(b) && b.is_quiet(a) && a.is_idle() && b.is_idle();
        let is_empty = self.cables[cable]
            .wires
            .iter()
            .all(|wire| wire.chars.is_empty());
        let still = rests && is_empty;
        self.stirs[cable] = !still;
        still
    }

    /// One round of a `run`.
    pub fn round(&mut self) -> Result<(), Lost> {
        for cable in 0..self.cables.len() {
            if !self.is_still(cable) {
                self.settle(cable)?;
            }
        }
        self.serve_all();
        Ok(())
    }

    /// One round of an ask: links take a turn at each end and settle, and all endpoints but the
    /// host collect.
    pub fn ask_round(&mut self, host: usize) -> Result<(), Lost> {
        for cable in 0..self.cables.len() {
            if !self.is_still(cable) {
                self.pump(cable, 0, 1);
                self.pump(cable, 1, 1);
                self.settle(cable)?;
            }
        }
        self.serve_all();
        for node in 0..self.nodes.len() {
            while self.nodes[node].device.switch == 0 && node != host && self.holds(node) {
                if self.collect(node) == Some("full\n") {
                    break;
                }
            }
        }
        Ok(())
    }

    pub fn holds(&self, node: usize) -> bool {
        self.nodes[node].held > 0
    }

    fn serve_all(&mut self) {
        for node in 0..self.nodes.len() {
            if self.nodes[node].device.switch > 0 {
                while self.step(node) {}
            }
        }
    }

    /// Puts a packet to be sent at a port.
    pub fn put(&mut self, port: usize, packet: Packet) {
        self.ports[port].put(packet);
        if let Some((cable, _)) = self.cable_of[port] {
            self.stirs[cable] = true;
        }
    }

    fn first_going(&self, node: &Node) -> Option<(usize, usize, Next)> {
        for prio in (0..4).rev() {
            for port in 0..usize::from(node.device.switch) {
                let Some(packet) = self.ports[node.first + port].held[prio].front() else {
                    continue;
                };
                let next = node.device.next(packet);
                let has_place = match next {
                    Next::Nowhere => true,
                    Next::Registers => self.ports[node.first + port].has_place((prio + 1).min(3)),
                    Next::Port(to) => self.ports[node.first + usize::from(to)].has_place(prio),
                };
                if has_place {
                    return Some((port, prio, next));
                }
            }
        }
        None
    }

    /// One step of a switch, if a packet of it can go.
    pub fn step(&mut self, at: usize) -> bool {
        let node = &mut self.nodes[at];
        if node.held == 0 {
            return false;
        }
        let Some((port, prio, next)) = self.first_going(&self.nodes[at]) else {
            return false;
        };
        let node = &mut self.nodes[at];
        node.held -= 1;
        let (first, from) = (node.first, node.first + port);
        let packet = self.ports[from].held[prio]
            .pop_front()
            .expect("it is first");
        match next {
            Next::Nowhere => self.packet_line("drop ", from, &packet),
            Next::Registers => self.answer(at, from, &packet),
            Next::Port(to) => {
                let to = first + usize::from(to);
                self.begin("move ", from);
                self.packet_line(" ", to, &packet);
                let hop = hop_place(&packet);
                self.put(
                    to,
                    hop.map_or(packet.clone(), |hop| lower_hop(&packet, hop)),
                );
            }
        }
        true
    }

    fn answer(&mut self, node: usize, port: usize, packet: &Packet) {
        let node = &mut self.nodes[node];
        let response = node.device.answer(packet, (port - node.first) as u8);
        self.begin("answer ", port);
        self.out.push(b' ');
        write_hex(&mut self.out, packet);
        self.hex_end(&response);
        self.put(port, response);
    }

    /// An endpoint takes a packet to be sent.
    pub fn send(&mut self, node: usize, packet: Packet) -> Option<&'static str> {
        let port = self.nodes[node].first;
        if !self.ports[port].has_place(prio(&packet)) {
            return Some("full\n");
        }
        self.node_line("take ", node, &packet);
        self.put(port, packet);
        None
    }

    /// An endpoint collects a packet, or says why there is none.
    pub fn collect(&mut self, node: usize) -> Option<&'static str> {
        let port = self.nodes[node].first;
        let Some(prio) = (0..4)
            .rev()
            .find(|prio| !self.ports[port].held[*prio].is_empty())
        else {
            return Some("empty\n");
        };
        let asks = is_request(&self.ports[port].held[prio][0]);
        if asks && !self.ports[port].has_place((prio + 1).min(3)) {
            return Some("full\n");
        }
        self.nodes[node].held -= 1;
        let packet = self.ports[port].held[prio]
            .pop_front()
            .expect("it is first");
        if asks {
            self.answer(node, port, &packet);
        } else {
            self.node_line("leave ", node, &packet);
            self.left = Some(packet);
        }
        None
    }
}
