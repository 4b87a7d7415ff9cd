//! Makes the images that bench/compare runs: families of programs, the same at each run, and trace arguments for each.
//!
//! Usage: images FOLDER. The folder gets NAME.image for each image, and the file `list` with a line for each: its name and
//! its arguments for the trace.
#![forbid(unsafe_code)]

use std::io;
use std::path::Path;

// ---------------------------------------------------------------------------------------------------------------------
// Pseudo-random numbers
// ---------------------------------------------------------------------------------------------------------------------

/// A splitmix generator: the same seed gives the same numbers anywhere.
struct Random {
    state: u64,
}

impl Random {
    fn next(&mut self) -> u64 {
        self.state = self.state.wrapping_add(0x9e37_79b9_7f4a_7c15);
        let mut mixed = self.state;
        mixed = (mixed ^ (mixed >> 30)).wrapping_mul(0xbf58_476d_1ce4_e5b9);
        mixed = (mixed ^ (mixed >> 27)).wrapping_mul(0x94d0_49bb_1331_11eb);
        mixed ^ (mixed >> 31)
    }

    fn below(&mut self, limit: u64) -> u64 {
        self.next() % limit
    }

    /// A number from `first` to `last`.
    fn within(&mut self, first: u16, last: u16) -> u16 {
        first + self.below(u64::from(last - first) + 1) as u16
    }

    fn chance(&mut self, percent: u64) -> bool {
        self.below(100) < percent
    }

    fn pick<T: Copy>(&mut self, choices: &[T]) -> T {
        choices[self.below(choices.len() as u64) as usize]
    }

    fn word(&mut self) -> u16 {
        self.next() as u16
    }

    /// A word at which arithmetic changes its ways, or any word.
    fn edge_word(&mut self) -> u16 {
        const EDGES: [u16; 10] = [0, 1, 2, 0x7ffe, 0x7fff, 0x8000, 0x8001, 0xfffe, 0xffff, 0x5555];
        if self.chance(75) { self.pick(&EDGES) } else { self.word() }
    }

    /// An address on one of the two sides of a page's two edges.
    fn page_edge(&mut self) -> u16 {
        let page = match self.below(10) {
            0..=5 => self.within(0, 31),
            6 | 7 => self.within(31, 33),
            8 => self.pick(&[0, 255]),
            _ => self.within(0, 255),
        };
        let edge = self.pick(&[0xffff, 0, 255, 256]);
        (page * 256).wrapping_add(edge)
    }

    /// An address of an absent word, or of the last ones present.
    fn absent_address(&mut self) -> u16 {
        match self.below(4) {
            0 => self.within(SIZE - 2, SIZE + 2),
            1 => self.within(0xfffc, 0xffff),
            2 => SIZE + self.below(57_344) as u16,
            _ => self.within(32, 255) * 256 + self.pick(&[0, 255]),
        }
    }
}

// ---------------------------------------------------------------------------------------------------------------------
// Instruction words
// ---------------------------------------------------------------------------------------------------------------------

/// The words of memory that the programs on images have.
const SIZE: u16 = 8_192;

const WD: u16 = 0;
const RD: u16 = 1;
const B: u16 = 4;
const BRANCH: u16 = 6;
const COPY: u16 = 7;
const LDA: u16 = 8;
const ADD: u16 = 10;
const SUB: u16 = 11;
const LDX: u16 = 12;
const STA: u16 = 14;
const IM: u16 = 15;

/// The codes that refer to a word.
const REFERRING: [u16; 7] = [8, 9, 10, 11, 12, 14, 15];

/// The address bits of an instruction.
const RELATIVE: u16 = 8;
const INDIRECT: u16 = 4;
const INDEXED: u16 = 2;
const SIGN: u16 = 1;
const BASED: u16 = 1;

const WAIT: u16 = 0x0030;
const EXIT: u16 = 0x0031;
const STATUS: u16 = 0x0020;
const ACTIVE: u16 = 0x1002;
const TRIGGER: u16 = 0x1004;

fn instruction(code: u16, form: u16, displacement: u16) -> u16 {
    code << 12 | form << 8 | displacement & 0xff
}

/// An instruction whose reference is relative; `to` must lie from 256 before to 255 behind `from`.
fn relative(code: u16, form: u16, from: u16, to: u16) -> u16 {
    let distance = to.wrapping_sub(from);
    let sign = if distance > 0x7fff { SIGN } else { 0 };
    instruction(code, RELATIVE | form | sign, distance)
}

fn is_near(from: u16, to: u16) -> bool {
    let distance = to.wrapping_sub(from) as i16;
    (-256..256).contains(&distance)
}

/// A branch that goes some words forward.
fn branch(kind: u16, forward: u16) -> u16 {
    BRANCH << 12 | kind << 9 | forward
}

/// The address of a direct function, listed or not, in any mode.
fn any_function(random: &mut Random) -> u16 {
    match random.below(20) {
        0..=4 => random.within(0, 7),
        5..=7 => random.within(0x10, 0x1f),
        8..=10 => STATUS,
        11 => WAIT,
        12 => EXIT,
        13..=16 => 0x1000 + random.within(0, 4),
        17 => random.pick(&[0x0008, 0x000f, 0x0021, 0x0022, 0x002f, 0x0032, 0x0040, 0x00ff, 0x0100, 0x0800, 0x0fff]),
        18 => random.pick(&[0x1005, 0x1006, 0x1010, 0x1100, 0x1800, 0x1fff]),
        _ => random.pick(&[2, 3, 7, 8, 15]) << 12 | random.pick(&[0, 1, 2, 3, 4, 0x20, 0x30, 0x31, 0xfff]),
    }
}

// ---------------------------------------------------------------------------------------------------------------------
// Images in the making
// ---------------------------------------------------------------------------------------------------------------------

#[derive(Default)]
struct Image {
    bytes: Vec<u8>,
}

impl Image {
    fn word(&mut self, address: u16, word: u16) {
        self.bytes.push(1);
        self.bytes.extend(address.to_be_bytes());
        self.bytes.extend(word.to_be_bytes());
    }

    fn protection(&mut self, number: u8, value: u16) {
        self.bytes.extend([2, number]);
        self.bytes.extend(value.to_be_bytes());
    }

    fn register(&mut self, number: u8, value: u16) {
        self.bytes.extend([3, number]);
        self.bytes.extend(value.to_be_bytes());
    }

    fn level(&mut self, number: u8, state: u8) {
        self.bytes.extend([4, number, state]);
    }

    fn end(mut self) -> Vec<u8> {
        self.bytes.push(255);
        self.bytes
    }
}

/// Where the constants of a program stand, so that displacements reach them.
const POOL: u16 = 0x0040;
const POOL_END: u16 = 0x0100;

/// The cells with the addresses of the levels' frames.
const CELLS: u16 = 0x0100;

/// A program in the making: code at growing addresses, and constants.
struct Program {
    image: Image,
    at: u16,
    pool: Vec<u16>,
}

impl Program {
    fn new(start: u16) -> Program {
        let mut image = Image::default();
        image.register(1, start);
        Program { image, at: start, pool: Vec::new() }
    }

    fn emit(&mut self, word: u16) {
        if self.at < SIZE {
            self.image.word(self.at, word);
        }
        self.at = self.at.wrapping_add(1);
    }

    /// The address of a constant; a full pool gives some other constant instead.
    fn constant(&mut self, value: u16) -> u16 {
        let room = usize::from(POOL_END - POOL);
        let index = match self.pool.iter().position(|held| *held == value) {
            Some(index) => index,
            None if self.pool.len() < room => {
                self.image.word(POOL + self.pool.len() as u16, value);
                self.pool.push(value);
                self.pool.len() - 1
            }
            None => usize::from(value) % room,
        };
        POOL + index as u16
    }

    /// An instruction that refers to a constant.
    fn refer(&mut self, code: u16, value: u16) {
        let place = self.constant(value);
        self.emit(instruction(code, 0, place));
    }

    /// An instruction whose effective address is some address, by way of a constant.
    fn reach(&mut self, code: u16, address: u16) {
        let place = self.constant(address);
        self.emit(instruction(code, INDIRECT, place));
    }

    fn set_register(&mut self, number: u16, value: u16) {
        self.refer(LDA, value);
        self.emit(instruction(WD, 0, number));
    }

    /// A direct function, by a displacement, by a constant or by X1.
    fn direct(&mut self, random: &mut Random, code: u16, function: u16) {
        if function < 0x100 && random.chance(70) {
            self.emit(instruction(code, 0, function));
        } else if random.chance(75) {
            self.reach(code, function);
        } else {
            let displacement = random.within(0, 255);
            self.refer(LDX, function.wrapping_sub(displacement));
            self.emit(instruction(code, INDEXED, displacement));
        }
    }

    /// Sets the exit mark and exits by the frame at some address.
    fn exit(&mut self, frame: u16) {
        self.emit(instruction(WD, 0, EXIT));
        self.reach(LDX, frame);
    }

    /// Makes the frame of a level and goes to its code, which is then emitted.
    fn begin_handler(&mut self, level: u16, frame: u16) {
        self.image.word(CELLS + level, frame);
        self.at = frame.wrapping_add(2);
    }

    /// A handler of violations that passes over the instruction at fault.
    fn skipping_handler(&mut self, frame: u16) {
        self.begin_handler(0, frame);
        self.reach(IM, frame.wrapping_add(1));
        self.exit(frame);
    }

    fn end(self) -> Vec<u8> {
        self.image.end()
    }
}

// ---------------------------------------------------------------------------------------------------------------------
// The family of random words
// ---------------------------------------------------------------------------------------------------------------------

/// A copy; few of them go to P, which would leave the program.
fn any_copy(random: &mut Random) -> u16 {
    let word = COPY << 12 | random.word() & 0x0fff;
    let goes_to_p = word >> 4 & 7 == 1;
    if goes_to_p && random.chance(80) { word ^ 0x0060 } else { word }
}

/// A word that is likely an instruction whose program goes on.
fn likely_word(random: &mut Random) -> u16 {
    match random.below(100) {
        0..=9 => random.word(),
        10..=24 => any_copy(random),
        25..=39 => branch(random.within(0, 7), random.within(1, 9)),
        40..=44 => branch(random.within(0, 7), 0x100 | random.within(0xe0, 0xff)),
        45..=56 => instruction(random.pick(&[WD, RD]), 0, any_function(random)),
        57..=62 => instruction(random.pick(&[WD, RD]), INDIRECT, random.within(POOL, POOL + 31)),
        63..=65 => instruction(random.pick(&[2, 3, 5, 13]), random.within(0, 15), random.word()),
        66 | 67 => instruction(B, random.within(0, 15), random.word()),
        _ => instruction(random.pick(&REFERRING), random.within(0, 15), random.word()),
    }
}

fn random_records(random: &mut Random, image: &mut Image) {
    for number in 2..8 {
        if random.chance(70) {
            let value = if random.chance(50) { random.within(0, SIZE) } else { random.edge_word() };
            image.register(number, value);
        }
    }
    for number in 0..16 {
        if random.chance(40) {
            let value = random.word();
            image.protection(number, value & random.word());
        }
    }
    for number in 1..16 {
        if random.chance(60) {
            image.level(number, random.pick(&[0, 1, 2, 2, 2]));
        }
    }
}

fn words_family(random: &mut Random) -> Vec<u8> {
    let start = random.within(4, 28) * 256 + random.within(0, 255);
    let mut program = Program::new(start);
    random_records(random, &mut program.image);
    let goes_on = random.chance(70);
    for _ in 0..32 {
        let value = if random.chance(60) { any_function(random) } else { random.within(0, SIZE) };
        program.constant(value);
    }
    for level in 0..16 {
        let frame = if random.chance(85) { start + random.within(0, 120) } else { random.word() };
        program.image.word(CELLS + level, frame);
    }
    if goes_on {
        program.skipping_handler(0x0300);
        program.image.protection(0, 0x1000 | random.word() & random.word());
        program.at = start;
    }
    for _ in 0..random.within(100, 220) {
        program.emit(likely_word(random));
    }
    program.reach(B, start);
    program.end()
}

// ---------------------------------------------------------------------------------------------------------------------
// The family of levels: foreground programs that work their levels
// ---------------------------------------------------------------------------------------------------------------------

/// Level k's frame in the programs that have one for each level.
fn frame_of(level: u16) -> u16 {
    0x0400 + level * 0x20
}

fn any_selection(random: &mut Random) -> u16 {
    match random.below(3) {
        0 => 0x8000 >> random.within(0, 15),
        1 => random.word(),
        _ => 0xffff,
    }
}

/// One thing that a foreground program does.
fn foreground_action(random: &mut Random, program: &mut Program) {
    match random.below(16) {
        0..=2 => {
            program.refer(LDA, any_selection(random));
            program.direct(random, WD, TRIGGER);
        }
        3..=5 => {
            program.refer(LDA, any_selection(random));
            let function = random.pick(&[0x1000, 0x1001, 0x1001, 0x1002, 0x1003, 0x1003]);
            program.direct(random, WD, function);
        }
        6 => {
            let function = 0x1000 + random.within(0, 4);
            program.direct(random, RD, function);
        }
        7 | 8 => inhibit_and_trigger(random, program),
        9 => program.direct(random, RD, STATUS),
        10 => {
            let (code, function) = (random.pick(&[WD, RD]), any_function(random));
            program.direct(random, code, function);
        }
        11 => stray_exit(random, program),
        12 => protection_action(random, program),
        13 if random.chance(20) => program.direct(random, WD, WAIT),
        _ => program.emit(any_copy(random)),
    }
}

/// Sets the inhibits, and mostly also makes levels wait: those that are not inhibited enter past those that are.
fn inhibit_and_trigger(random: &mut Random, program: &mut Program) {
    program.refer(LDA, random.within(0, 15));
    program.direct(random, WD, STATUS);
    if random.chance(60) {
        program.refer(LDA, any_selection(random));
        program.reach(WD, 0x1003);
        program.reach(WD, 0x1001);
        program.reach(WD, TRIGGER);
    }
}

/// An exit mark before an LDX by some status words, or before another instruction that clears it.
fn stray_exit(random: &mut Random, program: &mut Program) {
    if random.chance(50) {
        program.refer(LDA, any_selection(random));
        program.direct(random, WD, TRIGGER);
    }
    program.emit(instruction(WD, 0, EXIT));
    if random.chance(40) {
        program.emit(any_copy(random));
        return;
    }
    // The two status words: the exit goes on right behind itself.
    let status = random.word();
    let resume = program.at.wrapping_add(4);
    program.emit(relative(LDX, 0, program.at, program.at.wrapping_add(2)));
    program.emit(relative(B, 0, program.at, program.at.wrapping_add(3)));
    program.emit(status | random.pick(&[0, 0x0010, 0x0010, 0x0010]));
    program.emit(resume);
    if random.chance(60) {
        program.emit(instruction(RD, 0, STATUS));
    }
}

/// Reads or writes a protection register; what is written mostly keeps the low pages as they are.
fn protection_action(random: &mut Random, program: &mut Program) {
    let number = random.within(0, 15);
    if random.chance(50) {
        program.direct(random, RD, 0x10 + number);
        return;
    }
    let value = if number == 0 && random.chance(80) { 0xff00 } else { random.word() };
    program.refer(LDA, value);
    program.direct(random, WD, 0x10 + number);
}

fn level_handler(random: &mut Random, program: &mut Program, level: u16, background: u16) {
    let frame = match random.below(40) {
        0 => random.word(),
        1 => random.absent_address(),
        2 => background + random.within(0, 100),
        _ => frame_of(level),
    };
    program.begin_handler(level, frame);
    if level == 0 && random.chance(80) {
        program.reach(IM, frame.wrapping_add(1));
    }
    for _ in 0..random.below(3) {
        foreground_action(random, program);
    }
    // A level that ends without an exit stays active, and then level 0 would block all others.
    match random.below(if level == 0 { 60 } else { 20 }) {
        0 => program.reach(B, background),
        1 => program.reach(B, FRONTIER),
        2 => program.direct(random, WD, WAIT),
        _ => program.exit(frame),
    }
}

/// The last words of the protected pages, from which the foreground runs into the background.
const FRONTIER: u16 = 0x07fe;

/// Sets the exit mark as the last thing in the foreground, so that the LDX after it is one of the background.
fn frontier(random: &mut Random, program: &mut Program) {
    program.at = FRONTIER;
    program.emit(any_copy(random));
    program.emit(instruction(WD, 0, EXIT));
    program.reach(LDX, 0x0f00);
    program.image.word(0x0f00, random.word());
    program.image.word(0x0f01, random.within(0x0200, 0x0fff));
}

fn levels_family(random: &mut Random) -> Vec<u8> {
    let background = random.pick(&[8, 8, 10, 15]) * 256;
    let mut program = Program::new(0x0200);
    program.image.protection(0, 0xff00);
    for level in 0..16 {
        level_handler(random, &mut program, level, background);
    }
    for level in 1..16 {
        if random.chance(80) {
            program.image.level(level, random.pick(&[0, 1, 2, 2, 2, 2]));
        }
    }
    program.at = 0x0200;
    for _ in 0..random.within(4, 24) {
        foreground_action(random, &mut program);
    }
    program.reach(B, random.pick(&[background, background, FRONTIER, 0x0200]));
    frontier(random, &mut program);
    if background != program.at & 0xff00 {
        program.reach(B, background);
        program.at = background;
    }
    for _ in 0..random.within(10, 40) {
        background_action(random, &mut program, 0x0200);
    }
    program.reach(B, background);
    program.end()
}

// ---------------------------------------------------------------------------------------------------------------------
// The family of exits: levels that enter over one another while some are inhibited
// ---------------------------------------------------------------------------------------------------------------------

/// Shows in A which levels are active.
fn show_active(program: &mut Program) {
    program.reach(RD, ACTIVE);
}

/// Sets II and EI, mostly one of them alone.
fn set_inhibits(random: &mut Random, program: &mut Program) {
    program.refer(LDA, random.pick(&[0x0008, 0x0008, 0x0008, 0x0004, 0x000c, 0x0000]));
    program.reach(WD, STATUS);
}

/// Makes one level wait, or a few.
fn trigger_some(random: &mut Random, program: &mut Program) {
    let selection = match random.below(3) {
        0 => 0x8000 >> random.within(2, 7),
        1 => 0x8000 >> random.within(8, 15),
        _ => random.word() & random.word(),
    };
    program.refer(LDA, selection);
    program.reach(WD, TRIGGER);
}

/// A level that inhibits levels and makes others wait while it is active, and whose exit may load other inhibits.
fn exits_handler(random: &mut Random, program: &mut Program, level: u16) {
    let frame = frame_of(level);
    program.begin_handler(level, frame);
    if level == 0 {
        program.reach(IM, frame.wrapping_add(1));
    }
    if random.chance(60) {
        set_inhibits(random, program);
    }
    if random.chance(60) {
        trigger_some(random, program);
    }
    if random.chance(30) {
        let loaded = random.pick(&[0x0010, 0x0014, 0x0018, 0x001c]);
        program.refer(LDA, loaded);
        program.reach(STA, frame);
    }
    if random.chance(50) {
        show_active(program);
    }
    program.exit(frame);
}

fn exits_family(random: &mut Random) -> Vec<u8> {
    let mut program = Program::new(0x0200);
    program.image.protection(0, 0xff00);
    for level in 0..16 {
        exits_handler(random, &mut program, level);
    }
    for level in 1..16 {
        program.image.level(level, 2);
    }
    program.at = 0x0200;
    for _ in 0..random.within(4, 10) {
        if random.chance(50) {
            set_inhibits(random, &mut program);
        }
        trigger_some(random, &mut program);
        show_active(&mut program);
        if random.chance(20) {
            stray_exit(random, &mut program);
        }
    }
    program.reach(B, 0x0200);
    program.end()
}

// ---------------------------------------------------------------------------------------------------------------------
// The family of backgrounds: programs that violate
// ---------------------------------------------------------------------------------------------------------------------

/// Where the background says where it goes on after a violation.
const RESUME: u16 = 0x0ff0;

/// One thing that a background program does; the last argument is in a protected page.
fn background_action(random: &mut Random, program: &mut Program, protected: u16) {
    match random.below(20) {
        0 | 1 => {
            let (code, function) = (random.pick(&[WD, RD]), any_function(random));
            program.direct(random, code, function);
        }
        2 | 3 => program.reach(random.pick(&[STA, IM]), protected + random.within(0, 255)),
        4 => program.reach(B, protected + random.within(0, 255)),
        5 => {
            program.refer(LDX, random.edge_word());
            program.emit(instruction(random.pick(&[STA, IM]), random.within(0, 15), random.word()));
        }
        6..=8 => program.emit(any_copy(random)),
        9..=11 => program.emit(branch(random.within(0, 7), random.within(1, 3))),
        12 => program.emit(instruction(random.pick(&[2, 3, 5, 13]), random.within(0, 15), random.word())),
        13 => program.set_register(random.within(2, 6), random.edge_word()),
        14 => program.emit(instruction(RD, 0, random.within(0, 7))),
        _ => {
            program.refer(LDA, random.edge_word());
            program.refer(random.pick(&[9, ADD, SUB]), random.edge_word());
        }
    }
}

/// A handler of violations that goes on where the background said.
fn resuming_handler(program: &mut Program, frame: u16) {
    program.begin_handler(0, frame);
    program.reach(LDA, RESUME);
    program.reach(STA, frame.wrapping_add(1));
    program.exit(frame);
}

fn background_family(random: &mut Random) -> Vec<u8> {
    let start = random.within(8, 14) * 256 + random.within(0, 255);
    let mut program = Program::new(start);
    let frame = 0x0400 + random.within(0, 64);
    let keeps_resume = random.chance(70);
    match random.below(10) {
        0 => {
            // The handler goes to the background without an exit, so the next violation stalls.
            program.begin_handler(0, frame);
            program.reach(B, start);
        }
        1 => program.image.word(CELLS, random.word()),
        _ if keeps_resume => resuming_handler(&mut program, frame),
        _ => program.skipping_handler(frame),
    }
    program.image.protection(0, 0xff00);
    for number in 1..16 {
        if random.chance(50) {
            program.image.protection(number, random.word());
        }
    }
    program.image.level(random.within(1, 15) as u8, 2);
    program.at = start;
    while program.at < start + 180 {
        if keeps_resume {
            let resume = program.at + 9;
            program.refer(LDA, resume);
            program.reach(STA, RESUME);
            background_action(random, &mut program, 0x0200);
            program.emit(relative(B, 0, program.at, resume));
            program.at = resume;
        } else {
            background_action(random, &mut program, 0x0200);
        }
    }
    program.reach(B, start);
    program.end()
}

// ---------------------------------------------------------------------------------------------------------------------
// The families of page edges and of absent words
// ---------------------------------------------------------------------------------------------------------------------

/// Emits an instruction with an effective address by a form of its own, and what the form needs before it.
fn emit_at(random: &mut Random, program: &mut Program, code: u16, form: u16, target: u16) {
    let index = if form & INDEXED != 0 { random.edge_word() } else { 0 };
    let pointer = target.wrapping_sub(index);
    if form & INDEXED != 0 && (form & INDIRECT != 0 || form & RELATIVE == 0) {
        program.refer(LDX, index);
    }
    match (form & RELATIVE != 0, form & INDIRECT != 0) {
        (false, _) => emit_based(random, program, code, form, pointer),
        (true, true) => emit_by_near_pointer(program, code, form, pointer),
        (true, false) => emit_relative(random, program, code, form, target),
    }
}

/// By a displacement alone or with X2, and by a constant where it is indirect.
fn emit_based(random: &mut Random, program: &mut Program, code: u16, form: u16, pointer: u16) {
    let reference = if form & INDIRECT != 0 { program.constant(pointer) } else { pointer };
    if form & BASED != 0 {
        let displacement = random.pick(&[0, 1, 0x7f, 0x80, 0xff]);
        program.set_register(5, reference.wrapping_sub(displacement));
        program.refer(LDA, random.word());
        program.emit(instruction(code, form, displacement));
    } else if reference < 256 {
        program.emit(instruction(code, form, reference));
    } else {
        // A displacement alone does not reach so far, so X1 brings the rest, or the low byte is taken for the target.
        let displacement = reference & 0xff;
        if form & INDEXED != 0 {
            let index_so_far = random.pick(&[0, 0xff00, 0x0100]);
            program.refer(LDX, reference.wrapping_sub(displacement).wrapping_add(index_so_far));
        }
        program.emit(instruction(code, form, displacement));
    }
}

/// By a pointer that stands two words before or behind, in the stream of the code.
fn emit_by_near_pointer(program: &mut Program, code: u16, form: u16, pointer: u16) {
    let plain = form & !SIGN;
    if form & SIGN != 0 {
        program.emit(relative(B, 0, program.at, program.at.wrapping_add(2)));
        program.emit(pointer);
        program.emit(relative(code, plain, program.at, program.at.wrapping_sub(1)));
    } else {
        program.emit(relative(code, plain, program.at, program.at.wrapping_add(2)));
        program.emit(relative(B, 0, program.at, program.at.wrapping_add(2)));
        program.emit(pointer);
    }
}

/// Relative, to the target where that is near, with X1 where it is not, and else to a near page edge.
fn emit_relative(random: &mut Random, program: &mut Program, code: u16, form: u16, target: u16) {
    if form & INDEXED != 0 {
        let displacement = random.word() & 0xff;
        let base = program.at.wrapping_add(1).wrapping_add(displacement);
        let reference = if form & SIGN != 0 { base.wrapping_sub(256) } else { base };
        program.refer(LDX, target.wrapping_sub(reference));
        program.emit(instruction(code, form, displacement));
        return;
    }
    let page = program.at & 0xff00;
    let near = if form & SIGN != 0 {
        random.pick(&[page.wrapping_sub(1), page])
    } else {
        random.pick(&[page.wrapping_add(255), page.wrapping_add(256)])
    };
    let aim = if is_near(program.at, target) { target } else { near };
    if is_near(program.at, aim) {
        program.emit(relative(code, form & !(SIGN | RELATIVE), program.at, aim));
    }
}

/// A background program that stores at chosen addresses by every form, and a handler that passes over violations.
fn storing_program(random: &mut Random, choose: fn(&mut Random) -> u16, codes: &[u16]) -> Vec<u8> {
    let page = random.within(4, 30);
    let start = page * 256 + random.pick(&[0, 1, 80, 160, 200, 250]);
    let mut program = Program::new(start);
    program.skipping_handler(0x0300 + random.within(0, 200));
    let page_bit = 0x8000_u16 >> (page % 16);
    for number in 0..16 {
        let mut value = random.word();
        if number == 0 {
            value |= 0x1000;
        }
        if number == page / 16 && random.chance(90) {
            value &= !page_bit;
        }
        program.image.protection(number as u8, value);
    }
    program.image.register(7, random.word());
    program.at = start;
    for _ in 0..random.within(12, 40) {
        let target = choose(random);
        let code = random.pick(codes);
        let form = random.within(0, 15);
        emit_at(random, &mut program, code, form, target);
        if code == STA || code == IM {
            program.reach(LDA, target);
        }
    }
    program.reach(B, start);
    program.end()
}

fn edges_family(random: &mut Random) -> Vec<u8> {
    storing_program(random, Random::page_edge, &[STA, STA, STA, IM])
}

fn absent_family(random: &mut Random) -> Vec<u8> {
    if random.chance(60) {
        return storing_program(random, Random::absent_address, &[STA, IM, LDA, 9, ADD, SUB, LDX]);
    }
    // Code that runs off the memory's end or around 65,536, and frames that are absent.
    let start = random.pick(&[SIZE - 20, SIZE - 3, SIZE - 1, SIZE, 0xfff0, 0xffff, 0x0200]);
    let mut program = Program::new(start);
    random_records(random, &mut program.image);
    for level in 0..16 {
        let frame = if random.chance(60) { random.absent_address() } else { frame_of(level) };
        program.begin_handler(level, frame);
        for _ in 0..random.below(4) {
            foreground_action(random, &mut program);
        }
        if random.chance(50) { program.exit(frame) } else { program.reach(B, random.pick(&[0x0200, SIZE - 6, 0xfffa])) }
    }
    for address in [0x0000, 0x0200, SIZE - 20] {
        program.at = address;
        for _ in 0..20 {
            program.emit(likely_word(random));
        }
    }
    program.end()
}

// ---------------------------------------------------------------------------------------------------------------------
// The families of arithmetic, copies and branches
// ---------------------------------------------------------------------------------------------------------------------

/// Each level's handler goes back to the start, so that signals bring back a program that lost its way.
fn returning_handlers(program: &mut Program, start: u16) {
    for level in 0..16 {
        program.begin_handler(level, 0x0e00 + level * 8);
        program.reach(B, start);
    }
    for level in 1..16 {
        program.image.level(level, 2);
    }
    program.at = start;
}

/// Shows C and O: by the status word, which only the foreground may read, or by branches over a copy.
fn show_flags(random: &mut Random, program: &mut Program, is_foreground: bool) {
    if is_foreground && random.chance(80) {
        program.emit(instruction(RD, 0, STATUS));
    } else {
        program.emit(branch(0, 2));
        program.emit(0x7d22); // a copy: L and L and 1 are added into L
        program.emit(branch(1, 2));
        program.emit(0x7d33); // a copy: T and T and 1 are added into T
    }
}

fn arithmetic_family(random: &mut Random) -> Vec<u8> {
    let is_foreground = random.chance(60);
    let start = 0x0200;
    let mut program = Program::new(start);
    returning_handlers(&mut program, start);
    program.image.protection(0, if is_foreground { 0xffff } else { 0x0003 });
    for _ in 0..random.within(15, 30) {
        let (left, right) = (random.edge_word(), random.edge_word());
        match random.below(4) {
            0 => {
                program.refer(LDA, left);
                program.refer(ADD, right);
            }
            1 => {
                program.refer(LDA, left);
                program.refer(SUB, right);
            }
            2 => {
                program.refer(LDA, left);
                program.reach(STA, 0x0900);
                program.reach(IM, 0x0900);
                program.reach(LDA, 0x0900);
            }
            _ => program.refer(random.pick(&[9, ADD, SUB, IM]), right),
        }
        show_flags(random, &mut program, is_foreground);
    }
    program.reach(B, start);
    program.end()
}

fn copies_family(random: &mut Random) -> Vec<u8> {
    let is_foreground = random.chance(60);
    let start = 0x0200;
    let mut program = Program::new(start);
    returning_handlers(&mut program, start);
    program.image.protection(0, if is_foreground { 0xffff } else { 0x0003 });
    for number in 2..8 {
        program.image.register(number, random.edge_word());
    }
    for _ in 0..random.within(20, 50) {
        if random.chance(30) {
            program.set_register(random.within(2, 6), random.edge_word());
        }
        program.emit(any_copy(random));
        if random.chance(5) {
            // To P: a copy of a constant address, exact or by a sum with what P reads as.
            program.set_register(2, program.at + 4);
            program.emit(random.pick(&[0x7092, 0x7c90, 0x7c92, 0x7d10, 0x7410]));
        }
        if random.chance(40) {
            show_flags(random, &mut program, is_foreground);
        }
    }
    program.reach(B, start);
    program.end()
}

fn branches_family(random: &mut Random) -> Vec<u8> {
    let is_foreground = random.chance(50);
    let start = random.pick(&[0x0200, 0x02e0, 0x0380]);
    let mut program = Program::new(start);
    returning_handlers(&mut program, start);
    program.image.protection(0, if is_foreground { 0xffff } else { 0x0003 });
    for _ in 0..random.within(10, 24) {
        let (left, right) = (random.edge_word(), random.edge_word());
        program.set_register(6, random.edge_word());
        program.refer(LDX, random.pick(&[0xffff, 0xfffe, 0, 1, 0x7fff]));
        program.refer(LDA, left);
        program.refer(random.pick(&[ADD, SUB]), right);
        if random.chance(30) {
            program.refer(LDA, random.pick(&[0, 1, 0x8000]));
        }
        let kind = random.within(0, 7);
        if random.chance(20) {
            // A loop of two words: X1 counts up to 0.
            program.refer(LDX, 0xfffb);
            program.emit(0x7d22);
            program.emit(BRANCH << 12 | random.within(3, 5) << 9 | 0x1ff);
        } else {
            program.emit(branch(kind, random.within(2, 3)));
            program.emit(0x7d22);
            program.emit(0x7d33);
        }
    }
    program.reach(B, start);
    program.end()
}

// ---------------------------------------------------------------------------------------------------------------------
// The families of damaged and of large images
// ---------------------------------------------------------------------------------------------------------------------

/// A whole record that can be stored.
fn good_record(random: &mut Random, image: &mut Image) {
    match random.below(6) {
        0..=2 => image.word(random.within(0, SIZE - 1), random.word()),
        3 => image.protection(random.within(0, 15) as u8, random.word()),
        4 => image.register(random.within(1, 7) as u8, random.word()),
        _ => image.level(random.within(1, 15) as u8, random.within(0, 2) as u8),
    }
}

/// A record that is at fault in one of its fields, or in two.
fn bad_record(random: &mut Random, image: &mut Image) {
    match random.below(10) {
        0 => image.register(0, random.word()),
        1 => image.register(random.pick(&[8, 9, 15, 16, 128, 255]), random.word()),
        2 => image.protection(random.pick(&[16, 17, 31, 128, 255]), random.word()),
        3 | 4 => image.word(random.pick(&[SIZE, SIZE + 1, 0x8000, 0xffff]), random.word()),
        5 => image.level(0, random.within(0, 4) as u8),
        6 => image.level(random.pick(&[16, 17, 128, 255]), random.within(0, 4) as u8),
        7 => image.level(random.within(1, 15) as u8, random.pick(&[3, 4, 128, 255])),
        8 => image.bytes.push(random.pick(&[0, 5, 6, 16, 128, 254])),
        _ => image.bytes.push(random.within(5, 254) as u8),
    }
}

fn damaged_family(random: &mut Random) -> Vec<u8> {
    let mut image = Image::default();
    if random.chance(2) {
        return image.bytes;
    }
    let way = random.below(8);
    for _ in 0..random.below(30) {
        good_record(random, &mut image);
    }
    let faults = if way < 4 { 1 + random.below(3) } else { 0 };
    for _ in 0..faults {
        bad_record(random, &mut image);
        for _ in 0..random.below(5) {
            good_record(random, &mut image);
        }
    }
    let mut bytes = if way == 4 || way < 4 && random.chance(20) { image.bytes } else { image.end() };
    if way == 5 || way < 4 && random.chance(20) {
        for _ in 0..1 + random.below(6) {
            bytes.push(random.pick(&[0, 1, 255, 3]));
        }
    }
    if way == 6 || way < 4 && random.chance(20) {
        bytes.truncate(random.below(bytes.len() as u64 + 1) as usize);
    }
    if way == 7 {
        let place = random.below(bytes.len() as u64) as usize;
        bytes[place] = random.word() as u8;
    }
    bytes
}

/// An image whose end stands about the last byte that counts.
fn large_family(random: &mut Random) -> Vec<u8> {
    const COUNTED: usize = 65_536;
    let mut image = Image::default();
    let wanted = COUNTED - 8 + random.below(16) as usize;
    while image.bytes.len() + 6 < wanted {
        good_record(random, &mut image);
    }
    while image.bytes.len() < wanted {
        image.level(random.within(1, 15) as u8, random.within(0, 2) as u8);
    }
    if random.chance(20) {
        bad_record(random, &mut image);
    }
    let mut bytes = if random.chance(90) { image.end() } else { image.bytes };
    if random.chance(40) {
        for _ in 0..random.pick(&[1, 2, 10, 5_000]) {
            bytes.push(random.word() as u8);
        }
    }
    bytes
}

// ---------------------------------------------------------------------------------------------------------------------
// The families together, and their trace arguments
// ---------------------------------------------------------------------------------------------------------------------

struct Family {
    name: &'static str,
    images: u32,
    most_signals: u64,
    make: fn(&mut Random) -> Vec<u8>,
}

const FAMILIES: [Family; 11] = [
    Family { name: "words", images: 1_500, most_signals: 20, make: words_family },
    Family { name: "levels", images: 1_500, most_signals: 60, make: levels_family },
    Family { name: "background", images: 1_000, most_signals: 12, make: background_family },
    Family { name: "edges", images: 1_000, most_signals: 6, make: edges_family },
    Family { name: "absent", images: 600, most_signals: 20, make: absent_family },
    Family { name: "arithmetic", images: 500, most_signals: 6, make: arithmetic_family },
    Family { name: "copies", images: 800, most_signals: 20, make: copies_family },
    Family { name: "branches", images: 500, most_signals: 6, make: branches_family },
    Family { name: "damaged", images: 1_000, most_signals: 6, make: damaged_family },
    Family { name: "large", images: 100, most_signals: 6, make: large_family },
    Family { name: "exits", images: 300, most_signals: 30, make: exits_family },
];

fn signal_argument(random: &mut Random, steps: u64) -> String {
    let level = if random.chance(92) { random.within(1, 15) } else { random.pick(&[0, 16, 17]) };
    format!("{}:{level}", random.below(steps + 5))
}

/// Signals at the edge of what an argument may be, and words that fit nothing.
const ODD_SIGNALS: [&str; 15] = [
    "on", "x", "3:", ":3", "3", "on:3", "3:4:5", "3:+4", "+3:04", "3:255", "3:256", "4294967295:3", "4294967296:3", "3:-1", "++3:4",
];

fn trace_arguments(random: &mut Random, most_signals: u64) -> Vec<String> {
    let steps = match random.below(100) {
        0..=2 => random.below(5),
        3 => random.pick(&[1_000_001, 1_000_005, 4_294_967_295, 4_294_967_296, 18_446_744_073_709_551_615]),
        _ => 60 + random.below(341),
    };
    let mut arguments = Vec::new();
    if random.chance(95) {
        arguments.push(steps.to_string());
    }
    match random.below(100) {
        0..=64 => arguments.push("on".to_string()),
        65..=79 => arguments.push("off".to_string()),
        _ => {}
    }
    for _ in 0..random.below(most_signals + 1) {
        arguments.push(signal_argument(random, steps.min(400)));
    }
    if random.chance(2) {
        arguments.push(random.pick(&ODD_SIGNALS).to_string());
    }
    arguments
}

fn main() -> io::Result<()> {
    let Some(folder) = std::env::args().nth(1) else {
        eprintln!("usage: images FOLDER");
        std::process::exit(2);
    };
    let folder = Path::new(&folder);
    let mut list = String::new();
    for (family_number, family) in FAMILIES.iter().enumerate() {
        for number in 0..family.images {
            let mut random = Random { state: (family_number as u64) << 32 | u64::from(number) };
            let name = format!("{}-{number:04}", family.name);
            std::fs::write(folder.join(format!("{name}.image")), (family.make)(&mut random))?;
            let mut line = vec![name];
            line.extend(trace_arguments(&mut random, family.most_signals));
            list += &(line.join(" ") + "\n");
        }
    }
    std::fs::write(folder.join("list"), list)
}
