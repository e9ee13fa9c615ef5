//! What a link does: turns, deliveries, time-outs, and how it settles.
use crate::fabric::{Cable, Fabric, Lost};
use crate::port::{Note, Port};
use crate::wire::{write_chars, Event};

impl Fabric {
    /// The line of what is on a wire from a place on.
    fn sent_line(&mut self, cable: usize, side: usize, from: usize) {
        let cable = &self.cables[cable];
        if cable.wires[side].chars.len() == from {
            return;
        }
        self.out.extend_from_slice(b"sent ");
        self.out
            .extend_from_slice(self.names[cable.ends[side]].as_bytes());
        let (front, back) = cable.wires[side].chars.as_slices();
        write_chars(&mut self.out, &front[from.min(front.len())..]);
        write_chars(&mut self.out, &back[from.saturating_sub(front.len())..]);
        self.out.push(b'\n');
    }

    pub fn pump(&mut self, cable: usize, side: usize, turns: u32) {
        let place = &mut self.cables[cable];
        let (wire, port) = (&mut place.wires[side], &mut self.ports[place.ends[side]]);
        let from = wire.chars.len();
        for _ in 0..turns {
            let before = wire.chars.len();
            port.turn(wire);
            if wire.chars.len() == before {
                break;
            }
        }
        self.stirs[cable] = true;
        self.sent_line(cable, side, from);
    }

    fn tell(&mut self, cable: usize, side: usize) {
        let place = &mut self.cables[cable];
        let from = place.wires[side].chars.len();
        self.ports[place.ends[side]].tell(&mut place.wires[side]);
        self.sent_line(cable, side, from);
    }

    /// Delivers what this side has sent, `count` characters of it.
    pub fn deliver(&mut self, cable: usize, side: usize, count: usize) -> Result<(), Lost> {
        let place = &mut self.cables[cable];
        self.stirs[cable] = true;
        let from = place.wires[1 - side].chars.len();
        let port = place.ends[1 - side];
        place.wires[side].take(count, &mut self.came);
        let (taken, lost) = self.take(cable, side);
        self.begin("got ", port);
        write_chars(&mut self.out, &self.came[..taken]);
        self.out.push(b'\n');
        let mut notes = std::mem::take(&mut self.notes);
        for note in notes.drain(..) {
            self.note(port, note);
        }
        self.notes = notes;
        self.sent_line(cable, 1 - side, from);
        lost.map_or(Ok(()), |event| Err(Lost { port, event }))
    }

    fn note(&mut self, port: usize, note: Note) {
        match note {
            Note::Hold(packet) => {
                self.nodes[self.node_of[port]].held += 1;
                self.packet_line("hold ", port, &packet);
            }
            Note::Free(packet) => self.packet_line("free ", port, &packet),
        }
    }

    /// Has the far port take what came: how many characters it took, and an event that was not
    /// sent.
    fn take(&mut self, cable: usize, side: usize) -> (usize, Option<Event>) {
        let Cable {
            ends,
            wires: [a, b],
            ..
        } = &mut self.cables[cable];
        let (wire, back) = if side == 0 { (a, b) } else { (b, a) };
        let port = &mut self.ports[ends[1 - side]];
        let mut place = 0;
        while place < self.came.len() {
            place += port.reader.take_run(&self.came[place..]);
            let Some(c) = self.came.get(place) else {
                break;
            };
            place += 1;
            let (packet, other) = port.reader.take(*c);
            for mut event in packet.into_iter().chain(other) {
                if port.acts_on(&event) && !wire.meets(&mut event) {
                    return (place, Some(event));
                }
                port.act(event, back, &mut self.notes);
            }
        }
        (place, None)
    }

    /// Whether the time-out of a port fired.
    pub fn time_out(&mut self, cable: usize, side: usize) -> bool {
        let place = &mut self.cables[cable];
        if place.wires.iter().any(|wire| !wire.chars.is_empty()) {
            return false;
        }
        for wire in &mut place.wires {
            wire.kept.clear();
        }
        let port = place.ends[side];
        self.ports[port].time_out();
        self.stirs[cable] = true;
        self.begin("fire ", port);
        self.out.push(b'\n');
        true
    }

    fn drain(&mut self, cable: usize) -> Result<(), Lost> {
        loop {
            let lengths = [0, 1].map(|side| self.cables[cable].wires[side].chars.len());
            if lengths == [0, 0] {
                return Ok(());
            }
            if lengths[0] > 0 {
                self.deliver(cable, 0, lengths[0])?;
            }
            let back = self.cables[cable].wires[1].chars.len();
            if back > 0 {
                self.deliver(cable, 1, back)?;
            }
        }
    }

    fn turn(&mut self, cable: usize, side: usize) -> Result<(), Lost> {
        self.pump(cable, side, 1);
        self.drain(cable)
    }

    pub fn at(&self, cable: usize, side: usize) -> &Port {
        &self.ports[self.cables[cable].ends[side]]
    }

    fn recover(&mut self, cable: usize, side: usize) -> Result<(), Lost> {
        if self.at(cable, side).has_failed() {
            return Ok(());
        }
        if self.at(cable, side).is_retry_stopped() {
            self.turn(cable, side)?;
        }
        if self.at(cable, side).is_quiet(self.at(cable, 1 - side)) {
            return Ok(());
        }
        if self.at(cable, side).fires() {
            self.time_out(cable, side);
        }
        self.turn(cable, side)
    }

    fn send_all(&mut self, cable: usize, side: usize) -> Result<(), Lost> {
        while self.at(cable, side).is_ready() {
            self.turn(cable, side)?;
            if self.at(cable, side).is_retry_stopped() {
                return self.turn(cable, side);
            }
        }
        Ok(())
    }

    pub fn settle(&mut self, cable: usize) -> Result<(), Lost> {
        self.stirs[cable] = true;
        self.drain(cable)?;
        for side in [0, 1] {
            self.recover(cable, side)?;
        }
        for side in [0, 1] {
            if self.at(cable, side).tells {
                self.tell(cable, side);
                self.drain(cable)?;
            }
        }
        self.send_all(cable, 0)?;
        self.send_all(cable, 1)
    }
}
