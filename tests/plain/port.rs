//! One end of a link: numbers, acknowledges and sends again, by the tables of docs/link.md.
use crate::wire::{prio, Char, Event, Packet, Reader, Symbol};
use std::collections::VecDeque;

const WINDOW: usize = 31;
const PLACES: usize = 16;

#[derive(Clone, Copy, PartialEq)]
enum Out {
    Ok,
    RetryStopped,
    ErrorStopped { asked: bool },
    Failed,
}

#[derive(Clone, Copy, PartialEq)]
enum In {
    Ok,
    RetryStopped,
    ErrorStopped,
}

/// One direction of a link: what is on its way, and what was sent and has met no event yet.
#[derive(Default)]
pub struct Wire {
    pub chars: VecDeque<Char>,
    pub kept: VecDeque<Event>,
}

/// What a port held and freed.
pub enum Note {
    Hold(Packet),
    Free(Packet),
}

pub struct Port {
    out: Out,
    oldest: u8,
    outstanding: VecDeque<usize>,
    /// How many of each list are outstanding.
    sent: [usize; 4],
    /// The free buffers that the far port reported, and the ackID that it expected then.
    report: Option<(u8, u8)>,
    queued: [VecDeque<Packet>; 4],
    input: In,
    expected: u8,
    pub held: [VecDeque<Packet>; 4],
    pub buffers: usize,
    pub tells: bool,
    pub reader: Reader,
}

impl Wire {
    fn put_symbol(&mut self, symbol: Symbol) {
        self.chars.extend(symbol.chars());
        self.kept.push_back(Event::Symbol(symbol));
    }

    fn put_packet(&mut self, ack: u8, packet: &Packet) {
        self.chars.push_back(Char::from(ack << 3 | packet[0]));
        self.chars
            .extend(packet[1..].iter().map(|b| Char::from(*b)));
        self.kept.push_back(Event::Packet(ack, packet.clone()));
    }

    /// Moves characters from the front to `came`, in place of what it has.
    pub fn take(&mut self, count: usize, came: &mut Vec<Char>) {
        came.clear();
        if count < self.chars.len() {
            came.extend(self.chars.drain(..count));
            return;
        }
        let (front, back) = self.chars.as_slices();
        came.extend_from_slice(front);
        came.extend_from_slice(back);
        self.chars.clear();
    }

    /// Whether an event was sent; it and all before it are forgotten. The event is then the one
    /// that was sent.
    pub fn meets(&mut self, event: &mut Event) -> bool {
        match self.kept.iter().position(|kept| kept == event) {
            Some(place) => {
                *event = self.kept.drain(..=place).next_back().expect("it is there");
                true
            }
            None => false,
        }
    }
}

impl Port {
    pub fn new() -> Port {
        Port {
            out: Out::Ok,
            oldest: 0,
            outstanding: VecDeque::new(),
            sent: [0; 4],
            report: None,
            queued: Default::default(),
            input: In::Ok,
            expected: 0,
            held: Default::default(),
            buffers: 8,
            tells: false,
            reader: Reader::new(),
        }
    }

    pub fn has_place(&self, prio: usize) -> bool {
        self.queued[prio].len() < PLACES
    }

    pub fn put(&mut self, packet: Packet) {
        self.queued[prio(&packet)].push_back(packet);
    }

    fn free(&self) -> usize {
        self.buffers - self.held.iter().map(VecDeque::len).sum::<usize>()
    }

    fn status(&self) -> u8 {
        if self.tells {
            self.free() as u8
        } else {
            31
        }
    }

    /// A symbol of status with this stype1.
    fn says(&self, s1: u8, cmd: u8) -> Symbol {
        Symbol {
            s0: 4,
            p0: self.expected,
            p1: self.status(),
            s1,
            cmd,
        }
    }

    fn reply(&self, s0: u8, p0: u8, p1: u8) -> Symbol {
        Symbol {
            s0,
            p0,
            p1,
            s1: 7,
            cmd: 0,
        }
    }

    fn first_waiting(&self) -> Option<usize> {
        (0..4)
            .rev()
            .find(|prio| self.queued[*prio].len() > self.sent[*prio])
    }

    fn next(&self) -> u8 {
        (self.oldest + self.outstanding.len() as u8) & 31
    }

    fn has_credit(&self, prio: usize) -> bool {
        self.report.is_none_or(|(free, base)| {
            let used = self.next().wrapping_sub(base) & 31;
            usize::from(free.saturating_sub(used)) > 3 - prio
        })
    }

    /// The list whose packet a turn would start.
    fn ready(&self) -> Option<usize> {
        if self.out != Out::Ok || self.outstanding.len() == WINDOW {
            return None;
        }
        self.first_waiting().filter(|prio| self.has_credit(*prio))
    }

    pub fn is_ready(&self) -> bool {
        self.ready().is_some()
    }

    pub fn turn(&mut self, wire: &mut Wire) {
        match self.out {
            Out::Ok => match self.ready() {
                Some(prio) => self.start(prio, wire),
                None if self.tells => self.tell(wire),
                None => {}
            },
            Out::RetryStopped => {
                wire.put_symbol(self.says(3, 0));
                self.restart(self.oldest);
            }
            Out::ErrorStopped { asked: false } => {
                wire.put_symbol(self.says(4, 4));
                self.out = Out::ErrorStopped { asked: true };
            }
            _ => {}
        }
    }

    pub fn tell(&self, wire: &mut Wire) {
        wire.put_symbol(self.says(7, 0));
    }

    fn start(&mut self, prio: usize, wire: &mut Wire) {
        wire.put_symbol(self.says(0, 0));
        wire.put_packet(self.next(), &self.queued[prio][self.sent[prio]]);
        wire.put_symbol(self.says(2, 0));
        self.outstanding.push_back(prio);
        self.sent[prio] += 1;
    }

    fn restart(&mut self, oldest: u8) {
        self.out = Out::Ok;
        self.oldest = oldest;
        self.outstanding.clear();
        self.sent = [0; 4];
    }

    /// The time-out of the output half.
    pub fn time_out(&mut self) {
        if let Out::Ok | Out::ErrorStopped { .. } = self.out {
            self.out = Out::ErrorStopped { asked: false };
        }
    }

    pub fn has_failed(&self) -> bool {
        self.out == Out::Failed
    }

    pub fn is_retry_stopped(&self) -> bool {
        self.out == Out::RetryStopped
    }

    pub fn fires(&self) -> bool {
        matches!(self.out, Out::Ok | Out::ErrorStopped { asked: true })
    }

    /// Whether nothing of the direction to the other port is in progress.
    pub fn is_quiet(&self, other: &Port) -> bool {
        self.out == Out::Ok
            && self.outstanding.is_empty()
            && other.input == In::Ok
            && other.reader.at_rest()
    }

    pub fn is_idle(&self) -> bool {
        !self.tells && self.first_waiting().is_none()
    }

    /// Whether the port acts on an event.
    pub fn acts_on(&self, event: &Event) -> bool {
        match event {
            Event::Symbol(_) => true,
            Event::Packet(ack, _) => self.input == In::Ok && *ack == self.expected,
            Event::Bad(_) => false,
        }
    }

    pub fn act(&mut self, event: Event, wire: &mut Wire, notes: &mut Vec<Note>) {
        match event {
            Event::Symbol(symbol) => {
                self.hear(symbol, notes);
                self.obey(symbol, wire);
            }
            Event::Packet(ack, packet) => self.receive(ack, packet, wire, notes),
            Event::Bad(cause) if self.input != In::ErrorStopped => self.refuse(cause, wire),
            Event::Bad(_) => {}
        }
    }

    fn refuse(&mut self, cause: u8, wire: &mut Wire) {
        wire.put_symbol(self.reply(2, self.expected, cause));
        self.input = In::ErrorStopped;
    }

    fn receive(&mut self, ack: u8, packet: Packet, wire: &mut Wire, notes: &mut Vec<Note>) {
        if self.input != In::Ok {
            return;
        }
        if ack != self.expected {
            return self.refuse(1, wire);
        }
        let prio = prio(&packet);
        if self.free() <= 3 - prio {
            wire.put_symbol(self.reply(1, ack, self.status()));
            self.input = In::RetryStopped;
            return;
        }
        self.held[prio].push_back(packet.clone());
        notes.push(Note::Hold(packet));
        self.expected = (ack + 1) & 31;
        wire.put_symbol(self.reply(0, ack, self.status()));
    }

    fn hear(&mut self, symbol: Symbol, notes: &mut Vec<Note>) {
        if self.out == Out::Failed {
            return;
        }
        if let 0 | 1 | 4 = symbol.s0 {
            let base = (symbol.p0 + u8::from(symbol.s0 == 0)) & 31;
            self.report = (symbol.p1 < 31).then_some((symbol.p1, base));
        }
        let is_oldest = !self.outstanding.is_empty() && symbol.p0 == self.oldest;
        match (symbol.s0, self.out) {
            (0, Out::Ok) if is_oldest => self.pop(notes),
            (1, Out::Ok) if is_oldest => self.out = Out::RetryStopped,
            (0..=2, Out::Ok | Out::RetryStopped) => self.out = Out::ErrorStopped { asked: false },
            (6, Out::ErrorStopped { asked: true }) => self.hear_response(symbol.p0, notes),
            _ => {}
        }
    }

    fn pop(&mut self, notes: &mut Vec<Note>) {
        let prio = self.outstanding.pop_front().expect("one is outstanding");
        self.sent[prio] -= 1;
        self.oldest = (self.oldest + 1) & 31;
        notes.push(Note::Free(
            self.queued[prio].pop_front().expect("it is in its list"),
        ));
    }

    fn hear_response(&mut self, ack: u8, notes: &mut Vec<Note>) {
        let accepted = usize::from(ack.wrapping_sub(self.oldest) & 31);
        if accepted > self.outstanding.len() {
            self.out = Out::Failed;
            return;
        }
        for _ in 0..accepted {
            self.pop(notes);
        }
        self.restart(ack);
    }

    fn obey(&mut self, symbol: Symbol, wire: &mut Wire) {
        match (symbol.s1, self.input) {
            (3, In::Ok) => self.refuse(31, wire),
            (3, In::RetryStopped) => self.input = In::Ok,
            (4, input) if symbol.cmd == 4 => {
                let status = match input {
                    In::Ok => 16,
                    In::RetryStopped => 4,
                    In::ErrorStopped => 5,
                };
                wire.put_symbol(self.reply(6, self.expected, status));
                self.input = In::Ok;
            }
            _ => {}
        }
    }
}
