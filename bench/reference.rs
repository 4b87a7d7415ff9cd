//! A plain interpreter of the machine, its images and the text of its programs, written from docs/ alone, so that it shares
//! no mistake with the engine that bench/compare holds against it.
//!
//! Usage: reference run | list | trace [STEPS] [on|off] [STEP:LEVEL ..] | speed [RUNS] | batch FOLDER
#![forbid(unsafe_code)]

use std::collections::BTreeMap;
use std::fmt;
use std::io::{self, Read, Write};
use std::path::Path;

// ---------------------------------------------------------------------------------------------------------------------
// Words, registers and indicators
// ---------------------------------------------------------------------------------------------------------------------

const Z: usize = 0;
const P: usize = 1;
const X1: usize = 4;
const X2: usize = 5;
const E: usize = 6;
const A: usize = 7;

const REGISTER_NAMES: [&str; 8] = ["Z", "P", "L", "T", "X1", "X2", "E", "A"];

/// The words of a page.
const PAGE: u16 = 256;

/// Level k finds the address of its entry at this address plus k.
const ENTRY_CELLS: u16 = 0x0100;

/// A bit of a word, counted from the left.
fn bit(word: u16, index: usize) -> bool {
    word & (0x8000 >> index) != 0
}

/// Some bits of a word as a number; both ends count.
fn bits(word: u16, first: usize, last: usize) -> usize {
    usize::from(word << first >> first >> (15 - last))
}

fn is_negative(word: u16) -> bool {
    bit(word, 0)
}

#[derive(Clone, Copy, Default)]
struct Indicators {
    protect: bool,
    inhibit_internal: bool,
    inhibit_external: bool,
    overflow: bool,
    carry: bool,
}

impl Indicators {
    /// The first status word.
    fn status_word(self) -> u16 {
        u16::from(self.protect) << 4
            | u16::from(self.inhibit_internal) << 3
            | u16::from(self.inhibit_external) << 2
            | u16::from(self.overflow) << 1
            | u16::from(self.carry)
    }

    fn from_status_word(word: u16) -> Indicators {
        Indicators {
            protect: bit(word, 11),
            inhibit_internal: bit(word, 12),
            inhibit_external: bit(word, 13),
            overflow: bit(word, 14),
            carry: bit(word, 15),
        }
    }

    fn inhibits(self, level: usize) -> bool {
        match level {
            0 | 1 => false,
            2..=7 => self.inhibit_internal,
            _ => self.inhibit_external,
        }
    }
}

/// A result with the carry and overflow that it sets.
struct Sum {
    word: u16,
    carry: bool,
    overflow: bool,
}

fn lies_outside_a_word(signed: i32) -> bool {
    signed < i32::from(i16::MIN) || signed > i32::from(i16::MAX)
}

fn add(left: u16, right: u16, one_more: bool) -> Sum {
    let unsigned = u32::from(left) + u32::from(right) + u32::from(one_more);
    let signed = i32::from(left as i16) + i32::from(right as i16) + i32::from(one_more);
    Sum { word: unsigned as u16, carry: unsigned >= 65_536, overflow: lies_outside_a_word(signed) }
}

/// Here the carry is a borrow.
fn subtract(left: u16, right: u16) -> Sum {
    let signed = i32::from(left as i16) - i32::from(right as i16);
    Sum { word: left.wrapping_sub(right), carry: left < right, overflow: lies_outside_a_word(signed) }
}

// ---------------------------------------------------------------------------------------------------------------------
// Levels
// ---------------------------------------------------------------------------------------------------------------------

#[derive(Clone, Copy, PartialEq, Eq)]
enum LevelState {
    Disarmed,
    Armed,
    Waiting,
    Active,
}

#[derive(Clone, Copy)]
enum LevelEvent {
    Disarm,
    Arm,
    Trigger,
    Entry,
    Exit,
    Violation,
}

#[derive(Clone, Copy)]
struct Level {
    state: LevelState,
    enabled: bool,
}

impl Level {
    fn happen(&mut self, event: LevelEvent) {
        use LevelState::{Active, Armed, Disarmed, Waiting};
        self.state = match (event, self.state) {
            (LevelEvent::Disarm, Armed | Waiting) => Disarmed,
            (LevelEvent::Arm, Disarmed) => Armed,
            (LevelEvent::Trigger, Armed) => Waiting,
            (LevelEvent::Entry, Waiting) => Active,
            (LevelEvent::Exit, Active) => Armed,
            (LevelEvent::Violation, Disarmed | Armed | Waiting) => Waiting,
            (_, state) => state,
        };
    }
}

// ---------------------------------------------------------------------------------------------------------------------
// Instructions
// ---------------------------------------------------------------------------------------------------------------------

#[derive(Clone, Copy, PartialEq, Eq, Debug)]
enum Operation {
    WriteDirect,
    ReadDirect,
    Jump,
    Branch,
    Copy,
    Load,
    And,
    Add,
    Subtract,
    LoadIndex,
    Store,
    Increment,
    NotCarried,
}

/// An instruction word and where it stands.
#[derive(Clone, Copy)]
struct Instruction {
    address: u16,
    word: u16,
}

impl Instruction {
    fn operation(self) -> Operation {
        match bits(self.word, 0, 3) {
            0 => Operation::WriteDirect,
            1 => Operation::ReadDirect,
            4 => Operation::Jump,
            6 => Operation::Branch,
            7 => Operation::Copy,
            8 => Operation::Load,
            9 => Operation::And,
            10 => Operation::Add,
            11 => Operation::Subtract,
            12 => Operation::LoadIndex,
            14 => Operation::Store,
            15 => Operation::Increment,
            _ => Operation::NotCarried,
        }
    }

    fn is_relative(self) -> bool {
        bit(self.word, 4)
    }

    fn is_indirect(self) -> bool {
        bit(self.word, 5)
    }

    fn is_indexed(self) -> bool {
        bit(self.word, 6)
    }

    /// S: the second base where the address is not relative, and else the sign of the displacement.
    fn has_s(self) -> bool {
        bit(self.word, 7)
    }

    fn displacement(self) -> u16 {
        self.word & 0x00ff
    }

    fn relative_target(self) -> u16 {
        let forward = self.address.wrapping_add(self.displacement());
        if self.has_s() { forward.wrapping_sub(256) } else { forward }
    }

    fn next_address(self) -> u16 {
        self.address.wrapping_add(1)
    }
}

/// What a direct function is about; whether it is listed also depends on reading or writing.
#[derive(Clone, Copy)]
enum Function {
    Register(usize),
    Protection(usize),
    Status,
    WaitMark,
    ExitMark,
    Levels(u16),
    Unlisted,
}

impl Function {
    fn at(address: u16) -> Function {
        match (address >> 12, address & 0x0fff) {
            (0, number @ 0x000..=0x007) => Function::Register(usize::from(number)),
            (0, number @ 0x010..=0x01f) => Function::Protection(usize::from(number - 0x010)),
            (0, 0x020) => Function::Status,
            (0, 0x030) => Function::WaitMark,
            (0, 0x031) => Function::ExitMark,
            (1, function @ 0..=4) => Function::Levels(function),
            _ => Function::Unlisted,
        }
    }

    fn is_privileged(self) -> bool {
        !matches!(self, Function::Register(_))
    }
}

// ---------------------------------------------------------------------------------------------------------------------
// The machine
// ---------------------------------------------------------------------------------------------------------------------

#[derive(Clone, Copy, PartialEq, Eq)]
enum Mark {
    None,
    Wait,
    Exit,
}

#[derive(Clone, Copy)]
enum ViolationKind {
    Entry,
    Operation,
    Store,
}

#[derive(Clone, Copy)]
struct Violation {
    kind: ViolationKind,
    place: u16,
    aim: u16,
}

#[derive(Clone, Copy)]
enum Outcome {
    Done,
    NotCarried,
    Violation(Violation),
    Stall(Violation),
    Entry(usize),
    Idle,
}

#[derive(Clone, Copy)]
enum SignalAnswer {
    Waiting,
    Dropped,
    Refused(u32),
}

struct Machine {
    registers: [u16; 8],
    indicators: Indicators,
    protection: [u16; 16],
    levels: [Level; 16],
    mark: Mark,
    last_address: u16,
    latest_violation: Option<Violation>,
    protect_switch: bool,
    memory: Vec<u16>,
}

impl Machine {
    fn new(size: usize) -> Machine {
        let mut levels = [Level { state: LevelState::Disarmed, enabled: false }; 16];
        levels[0] = Level { state: LevelState::Armed, enabled: true };
        Machine {
            registers: [0; 8],
            indicators: Indicators::default(),
            protection: [0; 16],
            levels,
            mark: Mark::None,
            last_address: 0,
            latest_violation: None,
            protect_switch: false,
            memory: vec![0; size],
        }
    }

    fn go(&mut self, protect_switch: bool) {
        self.protect_switch = protect_switch;
        self.indicators.protect = true;
        self.last_address = 0;
    }

    /// The word at an address; an absent one reads as 0.
    fn word(&self, address: u16) -> u16 {
        self.memory.get(usize::from(address)).copied().unwrap_or(0)
    }

    /// Stores a word; a store to an absent one is lost.
    fn store(&mut self, address: u16, word: u16) {
        if let Some(cell) = self.memory.get_mut(usize::from(address)) {
            *cell = word;
        }
    }

    fn set_register(&mut self, number: usize, word: u16) {
        if number != Z {
            self.registers[number] = word;
        }
    }

    fn is_protected(&self, address: u16) -> bool {
        let page = usize::from(address / PAGE);
        bit(self.protection[page / 16], page % 16)
    }

    fn signal(&mut self, level: u64) -> SignalAnswer {
        match level {
            0 => SignalAnswer::Refused(7),
            1..=15 => {
                let level = &mut self.levels[level as usize];
                let was_armed = level.state == LevelState::Armed;
                level.happen(LevelEvent::Trigger);
                if was_armed { SignalAnswer::Waiting } else { SignalAnswer::Dropped }
            }
            _ => SignalAnswer::Refused(6),
        }
    }

    fn step(&mut self) -> Outcome {
        // The exit mark holds entries back, so that the LDX which it is for comes right after.
        if self.mark != Mark::Exit {
            if let Some(level) = self.level_that_may_enter() {
                self.enter(level);
                return Outcome::Entry(level);
            }
        }
        if self.mark == Mark::Wait {
            return Outcome::Idle;
        }
        match self.perform() {
            Ok(outcome) => outcome,
            Err(violation) => self.violate(violation),
        }
    }

    /// The lowest level that may enter: an active level above it blocks, but for one that is inhibited.
    fn level_that_may_enter(&self) -> Option<usize> {
        for (number, level) in self.levels.iter().enumerate() {
            match level.state {
                LevelState::Disarmed | LevelState::Armed => {}
                _ if self.indicators.inhibits(number) => {}
                LevelState::Active => return None,
                LevelState::Waiting if level.enabled => return Some(number),
                LevelState::Waiting => {}
            }
        }
        None
    }

    fn enter(&mut self, level: usize) {
        let frame = self.word(ENTRY_CELLS + level as u16);
        self.store(frame, self.indicators.status_word());
        self.store(frame.wrapping_add(1), self.registers[P]);
        self.registers[P] = frame.wrapping_add(2);
        self.indicators.protect = true;
        self.mark = Mark::None;
        self.levels[level].happen(LevelEvent::Entry);
    }

    fn violate(&mut self, violation: Violation) -> Outcome {
        self.latest_violation = Some(violation);
        if self.levels[0].state == LevelState::Active {
            // Level 0 cannot enter anew, so the processor waits.
            self.mark = Mark::Wait;
            return Outcome::Stall(violation);
        }
        self.levels[0].happen(LevelEvent::Violation);
        Outcome::Violation(violation)
    }

    /// Fetches, judges and does the next instruction.
    fn perform(&mut self) -> Result<Outcome, Violation> {
        let is_after_exit_mark = self.mark == Mark::Exit;
        let instruction = self.fetch()?;
        match instruction.operation() {
            Operation::NotCarried => {
                self.pass(instruction);
                return Ok(Outcome::NotCarried);
            }
            Operation::Branch => {
                self.pass(instruction);
                self.branch(instruction);
            }
            Operation::Copy => {
                self.pass(instruction);
                self.copy(instruction.word);
            }
            operation => {
                let address = self.effective_address(instruction);
                self.judge(instruction.address, operation, address)?;
                self.pass(instruction);
                if operation == Operation::LoadIndex && is_after_exit_mark && self.indicators.protect {
                    self.exit(address);
                } else {
                    self.refer(operation, address);
                }
            }
        }
        Ok(Outcome::Done)
    }

    fn fetch(&mut self) -> Result<Instruction, Violation> {
        let address = self.registers[P];
        if self.mark == Mark::Exit {
            self.mark = Mark::None;
        }
        if self.protect_switch {
            let is_protected = self.is_protected(address);
            if self.indicators.protect {
                // The foreground goes into any page, and becomes background in an unprotected one.
                self.indicators.protect = is_protected;
            } else if is_protected {
                return Err(Violation { kind: ViolationKind::Entry, place: self.last_address, aim: address });
            }
        }
        Ok(Instruction { address, word: self.word(address) })
    }

    /// Goes on behind an instruction that was not a violation.
    fn pass(&mut self, instruction: Instruction) {
        self.registers[P] = instruction.next_address();
        self.last_address = instruction.address;
    }

    fn effective_address(&self, instruction: Instruction) -> u16 {
        let mut address = if instruction.is_relative() {
            instruction.relative_target()
        } else if instruction.has_s() {
            instruction.displacement().wrapping_add(self.registers[X2])
        } else {
            instruction.displacement()
        };
        if instruction.is_indirect() {
            address = self.word(address);
        }
        if instruction.is_indexed() {
            address = address.wrapping_add(self.registers[X1]);
        }
        address
    }

    /// Whether the instruction just fetched may do what it is about to.
    fn judge(&self, place: u16, operation: Operation, address: u16) -> Result<(), Violation> {
        if !self.protect_switch || self.is_protected(place) {
            return Ok(());
        }
        let is_privileged = Function::at(address).is_privileged();
        let kind = match operation {
            Operation::ReadDirect | Operation::WriteDirect if is_privileged => ViolationKind::Operation,
            Operation::Store | Operation::Increment if self.is_protected(address) => ViolationKind::Store,
            _ => return Ok(()),
        };
        Err(Violation { kind, place, aim: address })
    }

    /// Does an instruction that has an effective address.
    fn refer(&mut self, operation: Operation, address: u16) {
        match operation {
            Operation::Load => self.registers[A] = self.word(address),
            Operation::And => self.registers[A] &= self.word(address),
            Operation::Add => self.registers[A] = self.flagged(add(self.registers[A], self.word(address), false)),
            Operation::Subtract => self.registers[A] = self.flagged(subtract(self.registers[A], self.word(address))),
            Operation::LoadIndex => self.registers[X1] = self.word(address),
            Operation::Store => self.store(address, self.registers[A]),
            Operation::Increment => {
                let sum = self.flagged(add(self.word(address), 1, false));
                self.store(address, sum);
            }
            Operation::Jump => self.registers[P] = address,
            Operation::ReadDirect => self.read_direct(Function::at(address)),
            Operation::WriteDirect => self.write_direct(Function::at(address)),
            Operation::Branch | Operation::Copy | Operation::NotCarried => {}
        }
    }

    /// Sets C and O from a sum, and gives its word.
    fn flagged(&mut self, sum: Sum) -> u16 {
        self.indicators.carry = sum.carry;
        self.indicators.overflow = sum.overflow;
        sum.word
    }

    /// Loads the two status words in place of X1, and ends a level by the inhibits as they were before that.
    fn exit(&mut self, address: u16) {
        let exiting = self.level_that_exits(self.indicators);
        let loaded = Indicators::from_status_word(self.word(address));
        self.registers[P] = self.word(address.wrapping_add(1));
        self.indicators = Indicators { protect: loaded.protect || !self.protect_switch, ..loaded };
        if let Some(level) = exiting {
            self.levels[level].happen(LevelEvent::Exit);
        }
    }

    /// The lowest-numbered active level that is not inhibited; where all active ones are, the lowest-numbered of them.
    fn level_that_exits(&self, indicators: Indicators) -> Option<usize> {
        let mut active = (0..16).filter(|number| self.levels[*number].state == LevelState::Active);
        let lowest = active.clone().next();
        active.find(|number| !indicators.inhibits(*number)).or(lowest)
    }

    fn branch(&mut self, instruction: Instruction) {
        let branches = match bits(instruction.word, 4, 6) {
            0 => !self.indicators.overflow,
            1 => !self.indicators.carry,
            2 => self.registers[A] == 0,
            3 => self.count_index(),
            4 => !self.indicators.overflow && self.count_index(),
            5 => !self.indicators.carry && self.count_index(),
            6 => is_negative(self.registers[E]),
            _ => is_negative(self.registers[A]),
        };
        if branches {
            self.registers[P] = instruction.relative_target();
        }
    }

    /// Adds 1 to X1, and says whether it is then not 0.
    fn count_index(&mut self) -> bool {
        self.registers[X1] = self.registers[X1].wrapping_add(1);
        self.registers[X1] != 0
    }

    fn copy(&mut self, word: u16) {
        let adds_carry = bit(word, 6);
        let adds_one = bit(word, 7);
        let clears_destination = bit(word, 8);
        let inverts_source = bit(word, 12);
        let target = bits(word, 9, 11);
        let read = self.registers[bits(word, 13, 15)];
        let source = if inverts_source { !read } else { read };
        let destination = if clears_destination { 0 } else { self.registers[target] };
        let one_more = adds_one || adds_carry && self.indicators.carry;
        let result = match bits(word, 4, 5) {
            0 => (destination & source).wrapping_add(u16::from(one_more)),
            1 => (destination | source).wrapping_add(u16::from(one_more)),
            2 => (destination ^ source).wrapping_add(u16::from(one_more)),
            _ => self.flagged(add(destination, source, one_more)),
        };
        self.set_register(target, result);
    }

    fn read_direct(&mut self, function: Function) {
        let word = match function {
            Function::Register(number) => self.registers[number],
            Function::Protection(number) => self.protection[number],
            Function::Status => self.indicators.status_word(),
            Function::Levels(0) => self.level_bits(|level| level.enabled),
            Function::Levels(1) => self.level_bits(|level| level.state == LevelState::Waiting),
            Function::Levels(2) => self.level_bits(|level| level.state == LevelState::Active),
            Function::WaitMark | Function::ExitMark | Function::Levels(_) | Function::Unlisted => {
                return self.note_unlisted();
            }
        };
        self.registers[A] = word;
    }

    /// A word whose bit k says whether something holds of level k.
    fn level_bits(&self, holds: impl Fn(&Level) -> bool) -> u16 {
        self.levels.iter().fold(0, |word, level| word << 1 | u16::from(holds(level)))
    }

    fn write_direct(&mut self, function: Function) {
        let word = self.registers[A];
        match function {
            Function::Register(number) => self.set_register(number, word),
            Function::Protection(number) => self.protection[number] = word,
            Function::Status => {
                self.indicators.inhibit_internal = bit(word, 12);
                self.indicators.inhibit_external = bit(word, 13);
            }
            Function::WaitMark => self.mark = Mark::Wait,
            Function::ExitMark => self.mark = Mark::Exit,
            Function::Levels(function) => self.control_levels(function, word),
            Function::Unlisted => self.note_unlisted(),
        }
    }

    /// Acts on the levels 1 to 15 whose bits are set.
    fn control_levels(&mut self, function: u16, selection: u16) {
        for number in (1..16).filter(|number| bit(selection, *number)) {
            let level = &mut self.levels[number];
            match function {
                0 => level.happen(LevelEvent::Disarm),
                1 => level.happen(LevelEvent::Arm),
                2 => level.enabled = false,
                3 => level.enabled = true,
                _ => level.happen(LevelEvent::Trigger),
            }
        }
    }

    fn note_unlisted(&mut self) {
        self.indicators.overflow = true;
        self.indicators.carry = true;
    }
}

// ---------------------------------------------------------------------------------------------------------------------
// Counts
// ---------------------------------------------------------------------------------------------------------------------

#[derive(Default)]
struct Counts {
    done: u64,
    not_carried: u64,
    violations: u64,
    stalls: u64,
    entries: u64,
    idles: u64,
}

impl Counts {
    fn count(&mut self, outcome: Outcome) {
        let count = match outcome {
            Outcome::Done => &mut self.done,
            Outcome::NotCarried => &mut self.not_carried,
            Outcome::Violation(_) => &mut self.violations,
            Outcome::Stall(_) => &mut self.stalls,
            Outcome::Entry(_) => &mut self.entries,
            Outcome::Idle => &mut self.idles,
        };
        *count += 1;
    }
}

impl fmt::Display for Counts {
    fn fmt(&self, f: &mut fmt::Formatter<'_>) -> fmt::Result {
        let Counts { done, not_carried, violations, stalls, entries, idles } = self;
        write!(f, "{done} {not_carried} {violations} {stalls} {entries} {idles}")
    }
}

impl fmt::Display for Violation {
    fn fmt(&self, f: &mut fmt::Formatter<'_>) -> fmt::Result {
        let kind = match self.kind {
            ViolationKind::Entry => "entry",
            ViolationKind::Operation => "operation",
            ViolationKind::Store => "store",
        };
        write!(f, "{kind} {:04x} {:04x}", self.place, self.aim)
    }
}

impl fmt::Display for Outcome {
    fn fmt(&self, f: &mut fmt::Formatter<'_>) -> fmt::Result {
        match self {
            Outcome::Done => write!(f, "done"),
            Outcome::NotCarried => write!(f, "not-carried"),
            Outcome::Violation(violation) => write!(f, "violation {violation}"),
            Outcome::Stall(violation) => write!(f, "stall {violation}"),
            Outcome::Entry(level) => write!(f, "entry {level}"),
            Outcome::Idle => write!(f, "idle"),
        }
    }
}

impl fmt::Display for SignalAnswer {
    fn fmt(&self, f: &mut fmt::Formatter<'_>) -> fmt::Result {
        match self {
            SignalAnswer::Waiting => write!(f, "waiting"),
            SignalAnswer::Dropped => write!(f, "dropped"),
            SignalAnswer::Refused(number) => write!(f, "refused {number}"),
        }
    }
}

// ---------------------------------------------------------------------------------------------------------------------
// Images
// ---------------------------------------------------------------------------------------------------------------------

#[derive(Clone, Copy)]
enum InitialLevel {
    Disarmed,
    Armed,
    Enabled,
}

#[derive(Clone, Copy)]
enum Record {
    Word { address: u16, word: u16 },
    Protection { number: u8, value: u16 },
    Register { number: u8, value: u16 },
    Level { number: u8, state: InitialLevel },
}

#[derive(Clone, Copy)]
enum Cause {
    Register,
    Address,
    LevelAbove15,
    LevelZero,
    UnknownKind,
    CutShort,
    BytesBehindEnd,
    LevelState,
}

impl Cause {
    fn number(self) -> u32 {
        match self {
            Cause::Register => 4,
            Cause::Address => 5,
            Cause::LevelAbove15 => 6,
            Cause::LevelZero => 7,
            Cause::UnknownKind => 9,
            Cause::CutShort => 10,
            Cause::BytesBehindEnd => 11,
            Cause::LevelState => 12,
        }
    }

    fn layer(self) -> &'static str {
        match self {
            Cause::UnknownKind | Cause::CutShort | Cause::BytesBehindEnd => "reading",
            Cause::Register | Cause::Address | Cause::LevelAbove15 | Cause::LevelZero | Cause::LevelState => "storing",
        }
    }
}

/// Why an image is refused, and at which byte.
#[derive(Clone, Copy)]
struct Fault {
    cause: Cause,
    place: usize,
}

impl fmt::Display for Fault {
    fn fmt(&self, f: &mut fmt::Formatter<'_>) -> fmt::Result {
        write!(f, "refused {} {} at {}", self.cause.number(), self.cause.layer(), self.place)
    }
}

/// The records of an image for a memory of some size, or its first fault. An image of no bytes has no records.
fn read_image(image: &[u8], size: usize) -> Result<Vec<Record>, Fault> {
    let mut records = Vec::new();
    if image.is_empty() {
        return Ok(records);
    }
    let mut place = 0;
    loop {
        let fault = |cause| Fault { cause, place };
        let length = match image.get(place) {
            None => return Err(fault(Cause::CutShort)),
            Some(255) => break,
            Some(1) => 5,
            Some(2 | 3) => 4,
            Some(4) => 3,
            Some(_) => return Err(fault(Cause::UnknownKind)),
        };
        let bytes = image.get(place..place + length).ok_or(fault(Cause::CutShort))?;
        records.push(read_record(bytes, size).map_err(fault)?);
        place += length;
    }
    if place + 1 < image.len() {
        return Err(Fault { cause: Cause::BytesBehindEnd, place: place + 1 });
    }
    Ok(records)
}

/// Reads a whole record of a known kind, field by field from the left.
fn read_record(bytes: &[u8], size: usize) -> Result<Record, Cause> {
    let number = bytes[1];
    let last_word = u16::from_be_bytes([bytes[bytes.len() - 2], bytes[bytes.len() - 1]]);
    match bytes[0] {
        1 => {
            let address = u16::from_be_bytes([bytes[1], bytes[2]]);
            if usize::from(address) >= size {
                return Err(Cause::Address);
            }
            Ok(Record::Word { address, word: last_word })
        }
        2 if number > 15 => Err(Cause::Register),
        2 => Ok(Record::Protection { number, value: last_word }),
        3 if number == 0 || number > 7 => Err(Cause::Register),
        3 => Ok(Record::Register { number, value: last_word }),
        _ => read_level(number, bytes[2]),
    }
}

fn read_level(number: u8, state: u8) -> Result<Record, Cause> {
    match number {
        0 => return Err(Cause::LevelZero),
        1..=15 => {}
        _ => return Err(Cause::LevelAbove15),
    }
    let state = match state {
        0 => InitialLevel::Disarmed,
        1 => InitialLevel::Armed,
        2 => InitialLevel::Enabled,
        _ => return Err(Cause::LevelState),
    };
    Ok(Record::Level { number, state })
}

impl Machine {
    fn load(&mut self, records: &[Record]) {
        for record in records {
            match *record {
                Record::Word { address, word } => self.store(address, word),
                Record::Protection { number, value } => self.protection[usize::from(number)] = value,
                Record::Register { number, value } => self.set_register(usize::from(number), value),
                Record::Level { number, state } => {
                    self.levels[usize::from(number)] = match state {
                        InitialLevel::Disarmed => Level { state: LevelState::Disarmed, enabled: false },
                        InitialLevel::Armed => Level { state: LevelState::Armed, enabled: false },
                        InitialLevel::Enabled => Level { state: LevelState::Armed, enabled: true },
                    };
                }
            }
        }
    }
}

impl fmt::Display for Record {
    fn fmt(&self, f: &mut fmt::Formatter<'_>) -> fmt::Result {
        match *self {
            Record::Word { address, word } => write!(f, "word {address:04x} {word:04x}"),
            Record::Protection { number, value } => write!(f, "protection {number} {value:04x}"),
            Record::Register { number, value } => write!(f, "register {number} {value:04x}"),
            Record::Level { number, state: InitialLevel::Disarmed } => write!(f, "level {number} disarmed"),
            Record::Level { number, state: InitialLevel::Armed } => write!(f, "level {number} armed"),
            Record::Level { number, state: InitialLevel::Enabled } => write!(f, "level {number} enabled"),
        }
    }
}

// ---------------------------------------------------------------------------------------------------------------------
// The programs
// ---------------------------------------------------------------------------------------------------------------------

/// The words of memory that the programs on images have.
const SIZE: usize = 8_192;

/// The bytes of standard input that count.
const IMAGE_BYTES: usize = 65_536;

const STEPS_OF_A_RUN: u64 = 100;

const MOST_STEPS: u64 = 1_000_000;
/// A number of steps, or of a step, is below this, or the argument fits nothing.
const STEP_NUMBERS: u64 = 1 << 32;
/// A level's number is below this, or the argument fits nothing.
const LEVEL_NUMBERS: u64 = 1 << 8;

const USAGE_OF_TRACE: &str = "usage: s3trace [STEPS] [on|off] [STEP:LEVEL ..]\n";

/// A new processor with an image loaded, and the image's records.
fn prepare(image: &[u8]) -> Result<(Machine, Vec<Record>), Fault> {
    let image = &image[..image.len().min(IMAGE_BYTES)];
    let records = read_image(image, SIZE)?;
    let mut machine = Machine::new(SIZE);
    machine.load(&records);
    Ok((machine, records))
}

fn run_text(image: &[u8]) -> String {
    let mut machine = match prepare(image) {
        Ok((machine, _)) => machine,
        Err(fault) => return format!("{}\n", fault.cause.number()),
    };
    machine.go(true);
    let mut counts = Counts::default();
    for _ in 0..STEPS_OF_A_RUN {
        counts.count(machine.step());
    }
    format!("{counts}\n")
}

fn list_text(image: &[u8]) -> String {
    let (machine, records) = match prepare(image) {
        Ok(prepared) => prepared,
        Err(fault) => return format!("{fault}\n"),
    };
    let mut text: String = records.iter().map(|record| format!("{record}\n")).collect();
    text += &format!("loaded {} records\nmap", records.len());
    for value in machine.protection {
        text += &format!(" {value:04x}");
    }
    text + "\n"
}

struct Signal {
    step: u64,
    level: u64,
}

struct TraceArguments {
    steps: u64,
    protect_switch: bool,
    signals: Vec<Signal>,
}

/// A decimal number below a limit; a plus sign may stand before it.
fn read_number(text: &str, limit: u64) -> Option<u64> {
    let digits = text.strip_prefix('+').unwrap_or(text);
    if !digits.bytes().all(|byte| byte.is_ascii_digit()) {
        return None;
    }
    digits.parse().ok().filter(|number| *number < limit)
}

impl TraceArguments {
    fn read(arguments: &[String]) -> Option<TraceArguments> {
        let mut rest = arguments.iter().map(String::as_str).peekable();
        let steps = rest.peek().and_then(|text| read_number(text, STEP_NUMBERS));
        if steps.is_some() {
            rest.next();
        }
        let protect_switch = match rest.peek() {
            Some(&"on") => Some(true),
            Some(&"off") => Some(false),
            _ => None,
        };
        if protect_switch.is_some() {
            rest.next();
        }
        let signals = rest.map(Signal::read).collect::<Option<Vec<Signal>>>()?;
        Some(TraceArguments {
            steps: steps.unwrap_or(STEPS_OF_A_RUN),
            protect_switch: protect_switch.unwrap_or(true),
            signals,
        })
    }
}

impl Signal {
    fn read(text: &str) -> Option<Signal> {
        let (step, level) = text.split_once(':')?;
        Some(Signal { step: read_number(step, STEP_NUMBERS)?, level: read_number(level, LEVEL_NUMBERS)? })
    }
}

fn trace_text(image: &[u8], arguments: &[String], coverage: &mut Coverage) -> String {
    let Some(arguments) = TraceArguments::read(arguments) else {
        coverage.meet("arguments: usage".to_string());
        return USAGE_OF_TRACE.to_string();
    };
    let mut machine = match prepare(image) {
        Ok((machine, _)) => machine,
        Err(fault) => {
            coverage.meet(format!("images: refused {}", fault.cause.number()));
            return format!("{fault}\n");
        }
    };
    if arguments.steps > MOST_STEPS {
        coverage.meet("arguments: refused 8".to_string());
        return "refused 8\n".to_string();
    }
    coverage.meet("images: accepted".to_string());
    if image.is_empty() {
        coverage.meet("images: accepted with no bytes".to_string());
    }
    machine.go(arguments.protect_switch);
    trace_steps(&mut machine, &arguments, coverage)
}

fn trace_steps(machine: &mut Machine, arguments: &TraceArguments, coverage: &mut Coverage) -> String {
    let mut text = String::new();
    let mut counts = Counts::default();
    for step in 0..arguments.steps {
        for signal in arguments.signals.iter().filter(|signal| signal.step == step) {
            let answer = machine.signal(signal.level);
            coverage.meet(format!("signals: {answer}"));
            text += &format!("signal {} {answer}\n", signal.level);
        }
        let before = machine.registers;
        let view = View::of(machine);
        let outcome = machine.step();
        coverage.meet_step(&view, outcome, machine);
        counts.count(outcome);
        text += &format!("{step} {:04x} {outcome}", before[P]);
        for number in 2..8 {
            if machine.registers[number] != before[number] {
                text += &format!(" {}={:04x}", REGISTER_NAMES[number], machine.registers[number]);
            }
        }
        text += "\n";
    }
    match machine.latest_violation {
        Some(violation) => text + &format!("{counts}\nviolation {violation}\n"),
        None => text + &format!("{counts}\nviolation none\n"),
    }
}

// ---------------------------------------------------------------------------------------------------------------------
// Coverage: how often each rule was met, which a reader of a comparison wants to see
// ---------------------------------------------------------------------------------------------------------------------

/// What is about to happen, as far as the machine after a step no longer shows it.
struct View {
    instruction: Instruction,
    address: u16,
    mark: Mark,
    level_waits: bool,
    active: Vec<usize>,
    inhibited: Vec<usize>,
    indicators: Indicators,
    /// The level that an exit ends.
    exiting: Option<usize>,
    /// The indicators that an exit loads, and the level that it would end by those.
    loaded: Indicators,
    exiting_by_loaded: Option<usize>,
}

impl View {
    fn of(machine: &Machine) -> View {
        let place = machine.registers[P];
        let instruction = Instruction { address: place, word: machine.word(place) };
        let address = machine.effective_address(instruction);
        let loaded = Indicators::from_status_word(machine.word(address));
        let is_active = |number: &usize| machine.levels[*number].state == LevelState::Active;
        View {
            instruction,
            address,
            mark: machine.mark,
            level_waits: machine.level_that_may_enter().is_some(),
            active: (0..16).filter(is_active).collect(),
            inhibited: (0..16).filter(is_active).filter(|number| machine.indicators.inhibits(*number)).collect(),
            indicators: machine.indicators,
            exiting: machine.level_that_exits(machine.indicators),
            loaded,
            exiting_by_loaded: machine.level_that_exits(loaded),
        }
    }
}

#[derive(Default)]
struct Coverage {
    met: BTreeMap<String, u64>,
}

impl Coverage {
    /// All that can be met, so that what never was shows as 0.
    fn new() -> Coverage {
        let mut coverage = Coverage::default();
        let mut expect = |group: &str, names: &[String]| {
            for name in names {
                coverage.met.insert(format!("{group}: {name}"), 0);
            }
        };
        let own = |names: &[&str]| names.iter().map(|name| name.to_string()).collect::<Vec<String>>();
        expect("arguments", &own(&["usage", "refused 8"]));
        expect("images", &own(&["accepted", "accepted with no bytes"]));
        expect("images", &[4, 5, 6, 7, 9, 10, 11, 12].map(|number| format!("refused {number}")));
        expect("signals", &own(&["waiting", "dropped", "refused 6", "refused 7"]));
        expect("steps", &own(&["done", "not carried", "idle"]));
        for kind in ["entry", "operation", "store"] {
            expect("steps", &[format!("violation {kind}"), format!("stall {kind}")]);
        }
        expect("steps", &(0..16).map(|level| format!("entry of level {level:02}")).collect::<Vec<String>>());
        expect("codes", &(0..16).map(|code| format!("{code:02} {}", code_name(code))).collect::<Vec<String>>());
        for group in ["addresses", "store violations"] {
            expect(group, &(0..16).map(form_name).collect::<Vec<String>>());
        }
        for name in BRANCH_NAMES {
            expect("branches", &[format!("{name} taken"), format!("{name} not taken")]);
        }
        expect("copies", &(0..64).map(copy_name).collect::<Vec<String>>());
        for name in REGISTER_NAMES {
            expect("copies", &[format!("from {name}"), format!("to {name}")]);
        }
        for way in ["RD", "WD"] {
            for function in FUNCTION_EXAMPLES {
                let name = function_name(function);
                expect("direct", &[format!("{way} {name} done"), format!("{way} {name} violates")]);
            }
        }
        // These two cannot happen, since the registers are not privileged.
        coverage.met.retain(|name, _| !(name.contains(" register ") && name.ends_with("violates")));
        coverage.expect_rules();
        coverage
    }

    fn expect_rules(&mut self) {
        for rule in RULES {
            self.met.insert(format!("rules: {rule}"), 0);
        }
    }

    fn meet(&mut self, name: String) {
        *self.met.entry(name).or_insert(0) += 1;
    }

    fn meet_rule(&mut self, holds: bool, rule: &str) {
        if holds {
            self.meet(format!("rules: {rule}"));
        }
    }

    fn meet_step(&mut self, view: &View, outcome: Outcome, after: &Machine) {
        match outcome {
            Outcome::Done => {
                self.meet("steps: done".to_string());
                self.meet_done(view, after);
            }
            Outcome::NotCarried => {
                self.meet("steps: not carried".to_string());
                self.meet_code(view);
            }
            Outcome::Idle => self.meet("steps: idle".to_string()),
            Outcome::Entry(level) => self.meet_entry(view, level, after),
            Outcome::Violation(violation) => self.meet_violation("violation", view, violation),
            Outcome::Stall(violation) => self.meet_violation("stall", view, violation),
        }
    }

    fn meet_code(&mut self, view: &View) {
        let code = bits(view.instruction.word, 0, 3);
        self.meet(format!("codes: {code:02} {}", code_name(code)));
        self.meet_rule(usize::from(view.instruction.address) >= SIZE, "an absent word is fetched");
    }

    fn meet_done(&mut self, view: &View, after: &Machine) {
        self.meet_code(view);
        let word = view.instruction.word;
        match view.instruction.operation() {
            Operation::Branch => {
                let taken = if after.registers[P] == view.instruction.next_address() { "not taken" } else { "taken" };
                self.meet(format!("branches: {} {taken}", BRANCH_NAMES[bits(word, 4, 6)]));
                return;
            }
            Operation::Copy => {
                self.meet(format!("copies: {}", copy_name(copy_index(word))));
                self.meet(format!("copies: from {}", REGISTER_NAMES[bits(word, 13, 15)]));
                self.meet(format!("copies: to {}", REGISTER_NAMES[bits(word, 9, 11)]));
                return;
            }
            Operation::ReadDirect | Operation::WriteDirect => self.meet_direct(view, "done"),
            Operation::Store | Operation::Increment => {
                self.meet_rule(usize::from(view.address) >= SIZE, "a store to an absent word is lost");
            }
            Operation::LoadIndex if view.mark == Mark::Exit => self.meet_exit(view, after),
            _ => {}
        }
        self.meet(format!("addresses: {}", form_name(bits(word, 4, 7))));
        self.meet_rule(view.mark == Mark::Exit && view.level_waits, "the exit mark holds an entry back");
        self.meet_rule(
            view.mark == Mark::Exit && view.instruction.operation() != Operation::LoadIndex,
            "the exit mark is cleared by another instruction",
        );
    }

    fn meet_exit(&mut self, view: &View, after: &Machine) {
        // The page of the LDX tells an exit from a plain LDX, since PP after an exit is one that was loaded.
        let is_exit = !after.protect_switch || after.is_protected(view.instruction.address);
        self.meet_rule(!is_exit, "LDX after the exit mark in the background is plain");
        if is_exit {
            self.meet_rule(!after.protect_switch, "an exit with the switch off");
            self.meet_rule(view.active.is_empty(), "an exit without an active level");
            self.meet_rule(view.active.len() == 1, "an exit from the only active level");
            self.meet_exiting_level(view);
        }
    }

    /// Which level an exit ends, by the inhibits before it and by those that it loads.
    fn meet_exiting_level(&mut self, view: &View) {
        let is_inhibited = |level: &usize| view.inhibited.contains(level);
        let is_first_inhibited = view.active.first().is_some_and(is_inhibited);
        let are_all_inhibited = !view.active.is_empty() && view.active.iter().all(is_inhibited);
        let are_several = view.active.len() > 1;
        self.meet_rule(is_first_inhibited && !are_all_inhibited, "an exit past an inhibited active level");
        self.meet_rule(!is_first_inhibited && !view.inhibited.is_empty(), "an exit below an inhibited active level");
        self.meet_rule(are_all_inhibited, "an exit where every active level is inhibited");
        self.meet_rule(are_all_inhibited && are_several, "an exit from the lowest of several, all inhibited");
        self.meet_rule(view.inhibited.is_empty() && are_several, "an exit from the lowest of several, none inhibited");
        let (old, new) = (view.indicators, view.loaded);
        let sets = new.inhibit_internal && !old.inhibit_internal || new.inhibit_external && !old.inhibit_external;
        let clears = old.inhibit_internal && !new.inhibit_internal || old.inhibit_external && !new.inhibit_external;
        let is_another = view.exiting != view.exiting_by_loaded;
        self.meet_rule(is_another && sets && !clears, "an exit that sets an inhibit by which another level would exit");
        self.meet_rule(is_another && clears && !sets, "an exit that clears an inhibit without which another level would exit");
    }

    fn meet_direct(&mut self, view: &View, what: &str) {
        let way = if view.instruction.operation() == Operation::ReadDirect { "RD" } else { "WD" };
        self.meet(format!("direct: {way} {} {what}", function_name(view.address)));
    }

    fn meet_entry(&mut self, view: &View, level: usize, after: &Machine) {
        self.meet(format!("steps: entry of level {level:02}"));
        let frame = usize::from(after.registers[P].wrapping_sub(2));
        self.meet_rule(view.mark == Mark::Wait, "an entry clears the wait mark");
        self.meet_rule(view.inhibited.iter().any(|active| *active < level), "an entry past an inhibited active level");
        self.meet_rule(view.active.iter().any(|active| *active > level), "an entry above an active level");
        self.meet_rule(frame + 1 >= SIZE, "an entry whose frame is absent");
    }

    fn meet_violation(&mut self, what: &str, view: &View, violation: Violation) {
        let kind = match violation.kind {
            ViolationKind::Entry => "entry",
            ViolationKind::Operation => "operation",
            ViolationKind::Store => "store",
        };
        self.meet(format!("steps: {what} {kind}"));
        match violation.kind {
            ViolationKind::Entry => {}
            ViolationKind::Operation => self.meet_direct(view, "violates"),
            ViolationKind::Store => {
                let form = form_name(bits(view.instruction.word, 4, 7));
                self.meet(format!("store violations: {form}"));
                self.meet_rule(usize::from(violation.aim) >= SIZE, "a store violation at an absent word");
            }
        }
    }
}

const RULES: [&str; 20] = [
    "LDX after the exit mark in the background is plain",
    "a store to an absent word is lost",
    "a store violation at an absent word",
    "an absent word is fetched",
    "an entry above an active level",
    "an entry clears the wait mark",
    "an entry past an inhibited active level",
    "an entry whose frame is absent",
    "an exit below an inhibited active level",
    "an exit from the lowest of several, all inhibited",
    "an exit from the lowest of several, none inhibited",
    "an exit from the only active level",
    "an exit past an inhibited active level",
    "an exit that clears an inhibit without which another level would exit",
    "an exit that sets an inhibit by which another level would exit",
    "an exit where every active level is inhibited",
    "an exit with the switch off",
    "an exit without an active level",
    "the exit mark holds an entry back",
    "the exit mark is cleared by another instruction",
];

const BRANCH_NAMES: [&str; 8] = ["BNO", "BNC", "BAZ", "BIX", "BXNO", "BXNC", "BEN", "BAN"];

/// One address of each kind of direct function.
const FUNCTION_EXAMPLES: [u16; 14] = [
    0x0000, 0x0001, 0x0002, 0x0010, 0x0020, 0x0030, 0x0031, 0x0fff, 0x1000, 0x1001, 0x1002, 0x1003, 0x1004, 0x1fff,
];

fn code_name(code: usize) -> &'static str {
    const NAMES: [&str; 16] = [
        "WD", "RD", "not carried", "not carried", "B", "not carried", "branch", "copy", "LDA", "AND", "ADD", "SUB", "LDX",
        "not carried", "STA", "IM",
    ];
    NAMES[code]
}

/// The four address bits R, I, X and S in words.
fn form_name(form: usize) -> String {
    let base = match (form & 8 != 0, form & 1 != 0) {
        (false, false) => "direct",
        (false, true) => "base X2",
        (true, false) => "relative forward",
        (true, true) => "relative backward",
    };
    let indirect = if form & 4 != 0 { ", indirect" } else { "" };
    let indexed = if form & 2 != 0 { ", plus X1" } else { "" };
    format!("{base}{indirect}{indexed}")
}

/// The join, K, J, N and V of a copy as one number.
fn copy_index(word: u16) -> usize {
    bits(word, 4, 8) << 1 | bits(word, 12, 12)
}

fn copy_name(index: usize) -> String {
    let join = ["and", "or", "xor", "add"][index >> 4];
    let letters = [(8, 'K'), (4, 'J'), (2, 'N'), (1, 'V')];
    let set: String = letters.iter().filter(|(mask, _)| index & mask != 0).map(|(_, letter)| *letter).collect();
    format!("{join} {}", if set.is_empty() { "-" } else { set.as_str() })
}

fn function_name(address: u16) -> String {
    match Function::at(address) {
        Function::Register(number @ (Z | P)) => format!("register {}", REGISTER_NAMES[number]),
        Function::Register(_) => "register L to A".to_string(),
        Function::Protection(_) => "protection".to_string(),
        Function::Status => "status".to_string(),
        Function::WaitMark => "wait mark".to_string(),
        Function::ExitMark => "exit mark".to_string(),
        Function::Levels(number) => format!("levels {number}"),
        Function::Unlisted => match address >> 12 {
            0 => "unlisted in mode 0".to_string(),
            1 => "unlisted in mode 1".to_string(),
            _ => "modes 2 to 15".to_string(),
        },
    }
}

// ---------------------------------------------------------------------------------------------------------------------
// The speed of a loop
// ---------------------------------------------------------------------------------------------------------------------

/// The loop and its data, as in the program `speed`.
const LOOP: [(u16, u16); 17] = [
    (0x0200, 0xc810), // LDX 0x0210: X1 is where the table starts, counted from its end
    (0x0201, 0x8e10), // LDA by 0x0211, plus X1: a word of the table
    (0x0202, 0xa810), // ADD 0x0212
    (0x0203, 0xee0e), // STA by 0x0211, plus X1: the same word of the table
    (0x0204, 0xf80f), // IM 0x0213: the passes
    (0x0205, 0x9040), // AND 0x0040
    (0x0206, 0xb150), // SUB 0x0050 plus X2, so 0x0350
    (0x0207, 0x7c37), // a copy: T and A are added into T
    (0x0208, 0x6602), // BIX 0x020a: the next word of the table
    (0x0209, 0xc807), // LDX 0x0210: the table is at its end, and starts again
    (0x020a, 0x49f7), // B 0x0201
    (0x0210, 0xf000), // 4,096 words before the end
    (0x0211, 0x8000), // the end of the table
    (0x0212, 0x1235), // what is added
    (0x0213, 0x0000), // the passes
    (0x0040, 0x7fff), // what is kept
    (0x0350, 0x0101), // what is taken away
];

fn mix(check: u64, words: &[u16]) -> u64 {
    words.iter().fold(check, |check, word| check.wrapping_mul(31).wrapping_add(u64::from(*word)))
}

fn speed_text(runs: u32) -> String {
    const STEPS: u32 = 1_000_000;
    let mut machine = Machine::new(65_536);
    for (address, word) in LOOP {
        machine.store(address, word);
    }
    machine.registers[P] = 0x0200;
    machine.registers[X2] = 0x0300;
    machine.go(true);
    let mut counts = Counts::default();
    let mut check = 0;
    for _ in 0..runs {
        for _ in 0..STEPS {
            counts.count(machine.step());
        }
        check = mix(check, &machine.registers);
    }
    check = mix(check, &machine.memory);
    let Counts { done, violations, .. } = counts;
    let others = counts.not_carried + counts.stalls + counts.entries + counts.idles;
    let registers: String = machine.registers.iter().map(|word| format!(" {word:04x}")).collect();
    format!(
        "{runs} runs of {STEPS} steps\n\
         done {done}, violations {violations}, others {others}, checksum {check:016x}\n\
         registers{registers}\n"
    )
}

// ---------------------------------------------------------------------------------------------------------------------
// The command
// ---------------------------------------------------------------------------------------------------------------------

fn read_standard_input() -> io::Result<Vec<u8>> {
    let mut image = Vec::new();
    io::stdin().lock().take(IMAGE_BYTES as u64).read_to_end(&mut image)?;
    Ok(image)
}

/// Prints what the three programs print for each image of a folder, each text after a line with its name and length, and
/// the coverage of the traces into the folder. The file `list` of the folder has a line for each image: its name and its
/// arguments for the trace.
fn batch(folder: &Path) -> io::Result<()> {
    let mut coverage = Coverage::new();
    let mut out = io::BufWriter::new(io::stdout().lock());
    for line in std::fs::read_to_string(folder.join("list"))?.lines() {
        let mut parts = line.split(' ').map(str::to_string);
        let name = parts.next().unwrap_or_default();
        let arguments: Vec<String> = parts.collect();
        let image = std::fs::read(folder.join(format!("{name}.image")))?;
        let trace = trace_text(&image, &arguments, &mut coverage);
        for (program, text) in [("run", run_text(&image)), ("trace", trace), ("list", list_text(&image))] {
            write!(out, "{name} {program} {}\n{text}", text.len())?;
        }
    }
    out.flush()?;
    let lines: String = coverage.met.iter().map(|(name, count)| format!("{count} {name}\n")).collect();
    std::fs::write(folder.join("coverage"), lines)
}

fn main() -> io::Result<()> {
    let arguments: Vec<String> = std::env::args().skip(1).collect();
    let rest = arguments.get(1..).unwrap_or(&[]);
    match arguments.first().map(String::as_str) {
        Some("run") => print!("{}", run_text(&read_standard_input()?)),
        Some("list") => print!("{}", list_text(&read_standard_input()?)),
        Some("trace") => print!("{}", trace_text(&read_standard_input()?, rest, &mut Coverage::new())),
        Some("speed") => {
            let runs = rest.first().and_then(|text| text.parse().ok()).unwrap_or(20);
            print!("{}", speed_text(runs));
        }
        Some("batch") if rest.len() == 1 => batch(Path::new(&rest[0]))?,
        _ => eprintln!("usage: reference run | list | trace [STEPS] [on|off] [STEP:LEVEL ..] | speed [RUNS] | batch FOLDER"),
    }
    Ok(())
}
