//! `pmb show --sample` and `pmb check --sample` in plain Rust, with nothing proved, to compare with
//! (README.md). It is written straight and to be fast: words by a table, packets event by event, no
//! memory taken for a packet. The rules are in docs/text.md, docs/packets.md and docs/numbers.md.

mod sample;
use std::io::{self, Read, Write};
use std::{mem::take, process::ExitCode};
use sample::{DEVICES, STANDARD};
use {Kind::*, Mode::*, Stage::*};

// The profile
/// The form of a command's data: how many bytes, or a block, or `NO` such command.
pub const NO: i16 = -1000;
pub const BLOCK: i16 = 1000;
/// What data mean. The bits of a status register have names, from bit 0 up.
#[derive(Clone, Copy, PartialEq)]
pub enum Kind { Raw, Linear11, Vout, VoutSigned, Direct(i64, i64, i64), Status(Names) }
type Names = &'static [&'static str];
/// Whether packets carry a packet error code.
#[derive(Clone, Copy, PartialEq)]
pub enum Mode { Off, On, Optional }
pub struct Command {
    code: u8, name: &'static str, write: i16, read: i16, call: i16, paged: bool, kind: Kind,
}
/// A device; `own` is what it has besides the standard commands.
pub struct Device { address: u8, mode: Mode, pages: usize, vout_mode: u8, own: &'static [Command] }
/// A device on the bus: its commands by their codes, its PAGE, and VOUT_MODE of each page.
struct Station { mode: Mode, commands: [Option<&'static Command>; 256], page: u8, modes: Vec<u8> }

impl Station {
    /// The VOUT_MODE of the selected page, or the one that all pages share.
    fn vout_mode(&self) -> Option<u8> {
        if self.page != 0xff { return self.modes.get(self.page as usize).copied(); }
        self.modes.iter().all(|mode| *mode == self.modes[0]).then_some(self.modes[0])
    }

    /// Follows PAGE and VOUT_MODE.
    fn observe(&mut self, command: &Command, data: &[u8]) {
        match command.code {
            0x00 => self.page = data[0],
            0x20 if self.page == 0xff || !command.paged => self.modes.fill(data[0]),
            0x20 => self.modes.iter_mut().skip(self.page.into()).take(1).for_each(|m| *m = data[0]),
            _ => {}
        }
    }
}

// Packets, event by event
const START: u8 = 1;
const BYTE: u8 = 2;
const ACK: u8 = 4;
const NACK: u8 = 8;
const STOP: u8 = 16;
const NAMES: [&str; 5] = ["Start", "Byte", "Ack", "Nack", "Stop"];
/// The packet error code of each single byte.
static CODES: [u8; 256] = {
    let (mut codes, mut i) = ([0u8; 256], 1);
    while i < 256 {
        codes[i] = codes[i / 2] << 1 ^ 0x07 * (codes[i / 2] >> 7 ^ i as u8 % 2);
        i += 1;
    }
    codes
};

/// How many bytes a form has at least.
fn least(form: i16) -> i16 { if form == BLOCK { 1 } else { form } }
/// How many bytes are missing after one more. The first byte of a block is its count.
fn after(form: i16, missing: i16, byte: u8, is_first: bool) -> i16 {
    if is_first && form == BLOCK { byte as i16 } else { missing - 1 }
}

/// What the current leg is. `Passing`: events are passed over after a refusal.
#[derive(Clone, Copy, PartialEq)]
enum Stage { Between, Address, Written, Reply, Alert, Passing }
/// A leg: where its bytes begin and its data end, its device and command.
#[derive(Clone, Copy)]
struct Leg { begin: usize, end: usize, station: usize, command: &'static Command, has_code: bool }

/// One run of the program. `expected` are the kinds of events that may come next, `after_ack` those
/// that may come after ACK. `parts` are those of a write before the current leg, `legs` counts all
/// legs. Missing are bytes of what is written or replied, and of what a call sends. `code` is the
/// packet error code so far. `place` and `events` are how many bytes and events came before.
struct Run {
    stations: Vec<Station>, bytes: Vec<u8>, parts: Vec<Leg>, leg: Leg, legs: usize,
    stage: Stage, expected: u8, after_ack: u8, is_nacked: bool, is_part: bool, asks: bool,
    mode: Mode, form: i16, missing: i16, missing_in_call: i16, code: u8,
    output: Vec<u8>, shows: bool, in_comment: bool,
    place: u64, events: u64, packets: u64, refusals: u64,
}

impl Run {
    fn new(shows: bool) -> Run {
        let station = |it: &'static Device| {
            let mut commands = [None; 256];
            for command in STANDARD.iter().chain(it.own) {
                commands[command.code as usize] = Some(command);
            }
            Station { mode: it.mode, commands, page: 0, modes: vec![it.vout_mode; it.pages] }
        };
        Run {
            stations: DEVICES.iter().map(station).collect(),
            bytes: Vec::with_capacity(8192), parts: Vec::with_capacity(16), legs: 0, mode: Off,
            leg: Leg { begin: 0, end: 0, station: 0, command: &STANDARD[0], has_code: false },
            stage: Between, expected: START, after_ack: 0, is_nacked: false, is_part: true,
            asks: false, form: NO, missing: NO, missing_in_call: NO, code: 0, output: Vec::new(),
            shows, in_comment: false, place: 0, events: 0, packets: 0, refusals: 0,
        }
    }

    fn restart(&mut self, stage: Stage) {
        self.bytes.clear();
        self.parts.clear();
        (self.stage, self.expected) = (stage, if stage == Passing { 0 } else { START });
        (self.legs, self.is_nacked, self.is_part, self.asks) = (0, false, true, false);
    }

    /// How many bytes of the leg came after its address.
    fn sent(&self) -> usize { self.bytes.len() - self.leg.begin - 1 }

    /// Takes a byte where one is expected. An error says why no packet has this one.
    fn byte(&mut self, byte: u8) -> Result<(), &'static str> {
        if self.missing > 1 && self.missing_in_call < 0 {
            // Within data nothing is decided.
            self.missing -= 1;
            self.expected = if self.stage == Reply { ACK } else { ACK | NACK };
            self.after_ack = BYTE;
        } else {
            self.deciding_byte(byte)?;
        }
        self.code = CODES[(self.code ^ byte) as usize];
        self.bytes.push(byte);
        Ok(())
    }

    #[inline(never)]
    fn deciding_byte(&mut self, byte: u8) -> Result<(), &'static str> {
        if self.stage == Written {
            self.written(byte);
        } else if self.stage == Address {
            let reason = if self.legs == 1 { "ReadFirst" } else { "BadRestart" };
            self.expected = self.address(byte).ok_or(reason)?;
            self.after_ack = BYTE;
        } else if self.missing == 0 && byte != self.code {
            return Err("BadPec");
        } else {
            self.missing = after(self.form, self.missing, byte, self.sent() == 0);
            self.expected = match (self.missing, self.mode) {
                (1.., _) | (0, On) => ACK, (0, Optional) => ACK | NACK, _ => NACK,
            };
        }
        Ok(())
    }

    /// Begins a leg, if it may begin so, and returns which answers its address may get.
    fn address(&mut self, byte: u8) -> Option<u8> {
        let is_used = self.parts.iter().any(|part| self.bytes[part.begin] == byte);
        if byte & 1 == 0 && self.is_part && !is_used {
            (self.stage, self.code) = (Written, 0);
            let found = DEVICES.iter().position(|device| device.address == byte >> 1);
            let Some(at) = found else { return Some(NACK) };
            (self.leg.station, self.mode) = (at, self.stations[at].mode);
        } else if self.legs == 1 && byte == 0x19 {
            // The Alert Response Address, read.
            (self.stage, self.code) = (Alert, 0);
            (self.mode, self.form, self.missing) = (Optional, 1, 1);
        } else if self.asks && byte == self.bytes[0] | 1 {
            let (is_read, command) = (self.bytes.len() == 2, self.leg.command);
            (self.stage, self.form) = (Reply, if is_read { command.read } else { command.call });
            self.missing = least(self.form);
        } else { return None; }
        Some(ACK | NACK)
    }

    /// A byte of a leg that is written: which answers it may get, and what may come after ACK.
    fn written(&mut self, byte: u8) {
        let (sent, rest) = (self.sent(), self.missing_in_call);
        self.leg.has_code = self.missing == 0 && byte == self.code && self.mode != Off;
        let mut is_taken = self.leg.has_code || self.missing > 0 || rest > 0;
        if sent == 0 {
            self.expected = NACK;
            let found = self.stations[self.leg.station].commands[byte as usize];
            let Some(command) = found else { return };
            (self.leg.command, self.missing) = (command, least(command.write));
            self.missing_in_call = if self.legs == 1 { least(command.call) } else { NO };
            is_taken = self.legs == 1 || command.write != NO;
        } else {
            let Command { write, call, .. } = *self.leg.command;
            self.missing = after(write, self.missing, byte, sent == 1);
            self.missing_in_call = if rest > 0 { after(call, rest, byte, sent == 1) } else { NO };
        }
        let is_whole = self.missing == 0;
        self.is_part = self.leg.has_code || is_whole && self.mode != On;
        self.leg.end = self.bytes.len() + !self.leg.has_code as usize;
        let is_read = sent == 0 && self.legs == 1 && self.leg.command.read != NO;
        self.asks = is_read || self.missing_in_call == 0;
        let has_byte = self.missing > 0 || self.missing_in_call > 0 || is_whole && self.mode != Off;
        let (has_start, has_stop) = (self.asks || self.is_part && self.legs <= 15, self.is_part);
        self.expected = if is_taken { ACK | NACK } else { NACK };
        self.after_ack = has_start as u8 * START | has_byte as u8 * BYTE | has_stop as u8 * STOP;
    }
}

// What is written
macro_rules! put { ($to:expr, $($it:expr),+) => {{ $($to.extend_from_slice($it.as_bytes());)+ }} }

/// Puts a text, and then bytes, each as a space and two digits.
fn put_bytes(output: &mut Vec<u8>, text: &str, bytes: &[u8]) {
    let digit = |half: u8| b"0123456789abcdef"[half as usize];
    put!(output, text);
    output.reserve(3 * bytes.len());
    for byte in bytes {
        output.extend_from_slice(&[b' ', digit(byte >> 4), digit(byte & 15)]);
    }
}

fn put_whole(output: &mut Vec<u8>, mut number: u64) {
    let (mut digits, mut begin) = ([0; 20], 20);
    while number > 0 || begin == 20 {
        begin -= 1;
        digits[begin] = b'0' + (number % 10) as u8;
        number /= 10;
    }
    output.extend_from_slice(&digits[begin..]);
}

/// Puts a number times a power of two, exactly.
fn put_binary(output: &mut Vec<u8>, number: i64, exponent: i8) {
    let (magnitude, places) = (number.unsigned_abs() << exponent.max(0), -exponent.min(0));
    let mut rest = magnitude & ((1 << places) - 1);
    put!(output, if number < 0 { "-" } else { "" });
    put_whole(output, magnitude >> places);
    if rest > 0 { output.push(b'.'); }
    while rest > 0 {
        output.push(b'0' + (rest * 10 >> places) as u8);
        rest = rest * 10 & ((1 << places) - 1);
    }
}

/// Puts a fraction, as a decimal if at most 24 places are enough.
fn put_fraction(output: &mut Vec<u8>, numerator: i64, denominator: i64) {
    let (mut top, mut bottom) = (numerator.unsigned_abs(), denominator.unsigned_abs());
    let (mut common, mut rest) = (top, bottom);
    while rest != 0 { (common, rest) = (rest, common % rest); }
    (top, bottom) = (top / common, bottom / common);
    put!(output, if top != 0 && (numerator < 0) != (denominator < 0) { "-" } else { "" });
    let begin = output.len();
    put_whole(output, top / bottom);
    rest = top % bottom;
    if rest > 0 { output.push(b'.'); }
    let most = output.len() + 24;
    while rest > 0 && output.len() < most {
        output.push(b'0' + (rest * 10 / bottom) as u8);
        rest = rest * 10 % bottom;
    }
    if rest > 0 {
        output.truncate(begin);
        let _ = write!(output, "{top}/{bottom}");
    }
}

/// Puts what data mean: the command's name, and its value or the bits that are set.
fn put_note(output: &mut Vec<u8>, station: &Station, command: &Command, data: &[u8]) {
    put!(output, command.name);
    if command.kind == Raw || data.is_empty() { return; }
    let word = data.iter().rev().fold(0u16, |word, byte| word << 8 | *byte as u16);
    let signed = word as i16 as i64;
    put!(output, if matches!(command.kind, Status(_)) && word > 0 { "" } else { " " });
    match (command.kind, station.vout_mode()) {
        (Linear11, _) => put_binary(output, (signed << 53) >> 53, (signed >> 11) as i8),
        (Vout, Some(mode @ 0..=0x1f)) => put_binary(output, word as i64, (mode << 3) as i8 >> 3),
        (VoutSigned, Some(mode @ 0..=0x1f)) => put_binary(output, signed, (mode << 3) as i8 >> 3),
        (Direct(m, b, r), _) => {
            let (up, down) = (10i64.pow((-r).max(0) as u32), 10i64.pow(r.max(0) as u32));
            put_fraction(output, signed * up - b * down, m * down);
        }
        (Status(_), _) if word == 0 => put!(output, "none"),
        (Status(names), _) => {
            let bits = (0..names.len()).rev().filter(|bit| word >> bit & 1 == 1);
            bits.for_each(|bit| put!(output, " ", names[bit]));
        }
        _ => put!(output, "raw"),
    }
}

impl Run {
    /// Puts the line of the packet that has just ended.
    fn show(&mut self) {
        let output = &mut take(&mut self.output);
        match (self.stage, self.sent()) {
            (Alert, 0) => put!(output, "alert none # no device"),
            (Alert, sent) => {
                put_bytes(output, "alert", &self.bytes[1..2]);
                put_bytes(output, [" # device", " pec # device"][sent - 1], &[self.bytes[1] >> 1]);
            }
            (Reply, 0) => {
                put_bytes(output, "refused", &[self.bytes[0] >> 1]);
                put_bytes(output, "", &self.bytes[1..self.leg.begin]);
                put!(output, " read # read address refused");
            }
            (Reply, _) => self.show_reply(output),
            _ => self.show_parts(output),
        }
        put!(output, "\n");
        self.output = take(output);
    }

    /// A read or a call.
    fn show_reply(&mut self, output: &mut Vec<u8>) {
        let (bytes, begin, command) = (&self.bytes, self.leg.begin, self.leg.command);
        let (is_read, has_code, counts) = (begin == 2, self.missing < 0, self.form == BLOCK);
        let reply = &bytes[begin + 1 + counts as usize..bytes.len() - has_code as usize];
        put_bytes(output, if is_read { "read" } else { "call" }, &[bytes[0] >> 1, bytes[1]]);
        put_bytes(output, "", if is_read { &[] } else { &bytes[2 + counts as usize..begin] });
        put_bytes(output, " :", reply);
        put!(output, if has_code { " pec # " } else { " # " });
        if !is_read { return put!(output, command.name); }
        let station = &mut self.stations[self.leg.station];
        put_note(output, station, command, reply);
        station.observe(command, reply);
    }

    /// A write, a group, or a packet in which a byte was refused.
    fn show_parts(&mut self, output: &mut Vec<u8>) {
        if !self.is_nacked { self.parts.push(self.leg); }
        let (bytes, leg) = (&self.bytes[..], &self.bytes[self.leg.begin..]);
        let data = |it: &Leg| &bytes[it.begin + 2 + (it.command.write == BLOCK) as usize..it.end];
        let mut joint = if self.is_nacked { "refused" } else { "write" };
        for part in &self.parts {
            put_bytes(output, joint, &[bytes[part.begin] >> 1, bytes[part.begin + 1]]);
            put_bytes(output, "", data(part));
            joint = if part.has_code { " pec +" } else { " +" };
        }
        if self.is_nacked {
            put_bytes(output, joint, &[leg[0] >> 1]);
            put_bytes(output, "", &leg[1..]);
        } else {
            put!(output, joint[..joint.len() - 2]);
        }
        joint = " # ";
        for part in &self.parts {
            put!(output, joint);
            let station = &mut self.stations[part.station];
            put_note(output, station, part.command, data(part));
            station.observe(part.command, data(part));
            joint = " + ";
        }
        if self.is_nacked {
            put!(output, joint, ["address", "code", "byte"][leg.len().min(3) - 1], " refused");
        }
    }
}

// Words
/// What a byte is in a word: a digit's value, what ends a word, or something else.
const BLANK: u8 = 16;
const HASH: u8 = 17;
static CLASSES: [u8; 256] = {
    let (mut classes, mut i) = ([HASH + 1; 256], 0);
    while i < 16 {
        classes[b"0123456789abcdef"[i] as usize] = i as u8;
        classes[b"0123456789ABCDEF"[i] as usize] = i as u8;
        classes[b" \t\r\n"[i % 4] as usize] = BLANK;
        i += 1;
    }
    classes[b'#' as usize] = HASH;
    classes
};
fn ends_word(class: u8) -> bool { class == BLANK || class == HASH }

impl Run {
    /// Reads the words of a piece, behind which two bytes of 0 stand. Returns how many bytes were
    /// not used, as a word may go on in the next piece; nothing, if there was a bad word.
    fn feed(&mut self, piece: &[u8]) -> Option<usize> {
        let mut rest = self.after_comment(piece);
        while let Some(&[first, second, third]) = rest.first_chunk() {
            let [high, low, end] = [first, second, third].map(|byte| CLASSES[byte as usize]);
            if [first, second] == *b"A " {
                self.event(ACK, 0);
                rest = &rest[2..];
            } else if high | low < BLANK && ends_word(end) {
                self.event(BYTE, high << 4 | low);
                rest = if end == BLANK { &rest[3..] } else { &rest[2..] };
            } else if ends_word(high) {
                self.in_comment = high == HASH;
                rest = self.after_comment(&rest[1..]);
            } else if ends_word(low) && b"SAPN".contains(&first) {
                let kind = match first { b'S' => START, b'A' => ACK, b'N' => NACK, _ => STOP };
                self.event(kind, 0);
                rest = &rest[1..];
            } else if rest.len() < 5 {
                break;
            } else {
                let at = self.place + (piece.len() - rest.len()) as u64;
                put!(self.output, format!("# bad token at byte {at}\n"));
                self.refusals += 1;
                return None;
            }
        }
        Some(rest.len() - 2)
    }

    /// What follows the comment, if we are in one.
    fn after_comment<'a>(&mut self, rest: &'a [u8]) -> &'a [u8] {
        if !self.in_comment { return rest; }
        let length = rest.iter().position(|byte| *byte == b'\n');
        self.in_comment = length.is_none();
        &rest[length.unwrap_or(rest.len() - 2)..]
    }

    #[inline(always)]
    fn event(&mut self, kind: u8, byte: u8) {
        match kind {
            _ if self.expected & kind == 0 => self.unexpected(kind),
            ACK => self.expected = self.after_ack,
            NACK => (self.is_nacked, self.expected) = (true, STOP),
            START => {
                if self.legs > 0 && self.is_part { self.parts.push(self.leg); }
                (self.legs, self.leg.begin) = (self.legs + 1, self.bytes.len());
                (self.stage, self.expected) = (Address, BYTE);
                (self.missing, self.missing_in_call) = (NO, NO);
            }
            BYTE => self.byte(byte).unwrap_or_else(|reason| self.refuse(reason, Passing)),
            _ => {
                self.packets += 1;
                if self.shows { self.show(); }
                self.restart(Between);
            }
        }
        self.events += 1;
    }

    /// An event whose kind is not expected, or that is passed over.
    #[cold]
    fn unexpected(&mut self, kind: u8) {
        let stage = if kind == STOP { Between } else { Passing };
        let reason = match (kind, self.expected) {
            (STOP, 0) => return self.restart(stage),
            (_, 0) => return,
            (ACK, NACK) if self.stage != Written => "TooLong",
            (ACK, NACK) => ["UnknownDevice", "UnknownCommand", "BadPec"][self.sent().min(2)],
            (NACK, ACK) => "TooShort",
            _ => "WrongEvent",
        };
        self.refuse(reason, stage);
    }

    #[cold]
    fn refuse(&mut self, reason: &str, stage: Stage) {
        self.refusals += 1;
        put!(self.output, "# refusal at ");
        put_whole(&mut self.output, self.events);
        put!(self.output, ": ", reason, ", expected ");
        let mut joint = "";
        for i in (0..5).filter(|i| self.expected >> i & 1 == 1) {
            put!(self.output, joint, NAMES[i]);
            joint = " or ";
        }
        put!(self.output, "\n");
        self.restart(stage);
    }

    /// Reads all of the input. What is known is written before more is read.
    fn run(&mut self) -> Result<(), &'static str> {
        let (mut stdin, mut stdout) = (io::stdin().lock(), io::stdout().lock());
        let (mut buffer, mut kept) = ([0; 65536], 0);
        loop {
            let read = stdin.read(&mut buffer[kept..65500]).map_err(|_| "read failed")?;
            // The end of the input ends a word too.
            let (is_end, length) = (read == 0, kept + if read == 0 { 3 } else { read });
            if is_end { buffer[kept..length].fill(b'\n'); }
            buffer[length..length + 2].fill(0);
            let left = self.feed(&buffer[..length + 2]);
            if is_end && left.is_some() && !matches!(self.stage, Between | Passing) {
                self.refuse("Truncated", Between);
            }
            let goes_on = left.filter(|_| !is_end);
            if goes_on.is_none() && !self.shows {
                put!(self.output, format!("packets {} refusals {}\n", self.packets, self.refusals));
            }
            let written = stdout.write_all(&self.output).and_then(|()| stdout.flush());
            written.map_err(|_| "write failed")?;
            self.output.clear();
            let Some(left) = goes_on else { return Ok(()) };
            buffer.copy_within(length - left..length, 0);
            (self.place, kept) = (self.place + (length - left) as u64, left);
        }
    }
}

fn main() -> ExitCode {
    let words: Vec<String> = std::env::args().skip(1).collect();
    let shows = words == ["show", "--sample"];
    if !shows && words != ["check", "--sample"] {
        eprintln!("usage: plain show --sample | plain check --sample");
        return ExitCode::from(2);
    }
    let mut run = Run::new(shows);
    let done = run.run().map_err(|fault| eprintln!("pmb: {fault}"));
    ExitCode::from(if done.is_err() { 3 } else { (run.refusals > 0) as u8 })
}
