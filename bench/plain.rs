// A plain interpreter of the same configurations, unverified, to compare the speed of cycles with.
//
//     plain PARCEL COUNT
//
// reads the parcel into a new controller, recalls once, runs COUNT cycles on generated inputs, and prints a checksum of
// the outputs of every cycle and of what all lines hold at the end.
use std::env;
use std::fs;
use std::process::ExitCode;

const UNIT: i32 = 16000;
const LIMIT: i32 = 31984;
const BITS: usize = 64;
const READINGS: usize = 192;

const FACTORS: [i16; 10] = [2, 3, 4, 5, 8, 10, 20, 40, 50, 100];
const PARTS: [i16; 6] = [10, 8, 5, 4, 3, 2];
const RATES: [i32; 12] = [2, 4, 8, 16, 50, 100, 200, 400, 1000, 2000, 4000, 8000];
const DIVISORS: [i16; 8] = [10, 40, 100, 250, 1200, 4800, 12000, 30000];

// The allowance of each rate at each phase.
const ALLOWANCES: [[i32; 5]; 12] = {
    let mut all = [[0; 5]; 12];
    let mut rate = 0;
    while rate < 12 {
        let mut phase = 0;
        while phase < 5 {
            let f = phase as i32;
            all[rate][phase] = (f + 1) * 1600 / RATES[rate] - f * 1600 / RATES[rate];
            phase += 1;
        }
        rate += 1;
    }
    all
};

// A line by its address, an input by its place from 0, a switch bit by its number, or a number that stays.
#[derive(Clone, Copy)]
enum Source {
    Fixed(i16),
    Line(u8),
    Input(u8),
    Switch(u8),
}

const UNUSED: Source = Source::Fixed(0);

#[derive(Clone, Copy)]
enum Analog {
    Nop,
    Fix,
    Flx,
    Sol,
    Sih,
    Sil,
    Szl,
    Szh,
    Abs,
    Inv,
    Dir,
    Max,
    Min,
    Add,
    Sub,
    Mul,
    Div,
    Rez,
    Qua,
    Rad,
    Ta0,
    Part(i16),
    Times(i16),
    LimitRate(u8),
    Integrate(i16),
    Delay(i16),
}

#[derive(Clone, Copy)]
enum Binary {
    Nop,
    Btn,
    Bti,
    Ann,
    Ani,
    Ain,
    Aii,
    Onn,
    Oni,
    Oin,
    Oii,
    Xnn,
    Xni,
    Frs,
    Cgt,
    Cgh,
}

// FIX and FLX have their constant as the source a.
#[derive(Clone, Copy)]
struct AnalogWork {
    command: Analog,
    a: Source,
    b: Source,
}

#[derive(Clone, Copy)]
struct BinaryWork {
    command: Binary,
    a: Source,
    b: Source,
}

struct Program {
    analog: [AnalogWork; READINGS],
    binary: [BinaryWork; BITS],
    table: [i16; 17],
}

struct Frame {
    inputs: [i16; 8],
    switches: u16,
}

struct Controller {
    readings: [i16; READINGS],
    bits: [bool; BITS],
    remainders: [i16; READINGS],
    phase: u8,
}

// Load's number, and the line where it names one.
struct Refusal(u8, Option<u8>);

fn pick(bit: i32, one: i32, zero: i32) -> i32 {
    if bit != 0 {
        one
    } else {
        zero
    }
}

fn limited(n: i32) -> i32 {
    n.clamp(-LIMIT, LIMIT)
}

fn divided(a: i32, b: i32) -> i32 {
    if b == 0 {
        a.signum() * LIMIT
    } else {
        limited(a * UNIT / b)
    }
}

fn multiplied(a: i32, b: i32) -> i32 {
    limited(a * b / UNIT)
}

fn root(a: i32) -> i32 {
    a.signum() * (a.abs() * UNIT).isqrt()
}

fn interpolated(table: &[i16; 17], a: i32) -> i32 {
    let x = a.clamp(0, 16384);
    let p = (x / 1024).min(15);
    let r = x - p * 1024;
    let y = i32::from(table[p as usize]);
    let next = i32::from(table[p as usize + 1]);
    y + (next - y) * r / 1024
}

fn word(low: u8, high: u8) -> i16 {
    let n = u16::from_le_bytes([low, high]);
    let magnitude = (n & 0x7FFF) as i16;
    if n & 0x8000 != 0 {
        magnitude
    } else {
        -magnitude
    }
}

// Bits 0 and 1 of a constant's word count as 0.
fn constant(sr1: u8, sr2: u8) -> i16 {
    word(sr1 & 0xFC, sr2)
}

impl Source {
    fn reading(address: u8) -> Source {
        match address {
            0x40..=0xFF => Source::Line(address),
            0x38..=0x3F => Source::Input(0x3F - address),
            0x20 => Source::Fixed(16000),
            _ => Source::Fixed(0),
        }
    }

    fn bit(address: u8) -> Source {
        match address {
            0x00..=0x3F => Source::Line(address),
            0xA0 => Source::Switch(0),
            0xF8..=0xFF => Source::Switch(address - 0xF7),
            0xBD => Source::Fixed(1),
            _ => Source::Fixed(0),
        }
    }
}

impl Analog {
    fn decode(code: u8) -> Option<Analog> {
        Some(match code {
            0x00 => Analog::Nop,
            0x11 => Analog::Sol,
            0x13 => Analog::Sih,
            0x14 => Analog::Sil,
            0x15 => Analog::Szl,
            0x16 => Analog::Szh,
            0x3B => Analog::Abs,
            0x3C => Analog::Inv,
            0x3D..=0x41 => Analog::Dir,
            0x46 => Analog::Max,
            0x47 => Analog::Min,
            0x48 => Analog::Add,
            0x49 => Analog::Sub,
            0x4A => Analog::Mul,
            0x4B => Analog::Div,
            0x4C => Analog::Rez,
            0x4D => Analog::Qua,
            0x4E => Analog::Rad,
            0x50 => Analog::Ta0,
            0x58..=0x5D => Analog::Part(PARTS[usize::from(code - 0x58)]),
            0x5E..=0x67 => Analog::Times(FACTORS[usize::from(code - 0x5E)]),
            0x68..=0x73 => Analog::LimitRate(code - 0x68),
            0x74..=0x7B => Analog::Integrate(DIVISORS[usize::from(code - 0x74)]),
            0xA4 => Analog::Fix,
            0xA5 => Analog::Flx,
            0xA7..=0xAE => Analog::Delay(DIVISORS[usize::from(code - 0xA7)]),
            _ => return None,
        })
    }

    fn sources(self, sr1: u8, sr2: u8) -> (Source, Source) {
        match self {
            Analog::Nop => (UNUSED, UNUSED),
            Analog::Fix | Analog::Flx => (Source::Fixed(constant(sr1, sr2)), UNUSED),
            Analog::Sol | Analog::Sih | Analog::Sil | Analog::Szl | Analog::Szh => {
                (Source::reading(sr1), Source::bit(sr2))
            }
            Analog::Abs
            | Analog::Inv
            | Analog::Dir
            | Analog::Rez
            | Analog::Qua
            | Analog::Rad
            | Analog::Ta0
            | Analog::Part(_)
            | Analog::Times(_) => (Source::reading(sr1), UNUSED),
            Analog::Max
            | Analog::Min
            | Analog::Add
            | Analog::Sub
            | Analog::Mul
            | Analog::Div
            | Analog::LimitRate(_)
            | Analog::Integrate(_)
            | Analog::Delay(_) => (Source::reading(sr1), Source::reading(sr2)),
        }
    }

    fn is_timed(self) -> bool {
        matches!(
            self,
            Analog::LimitRate(_) | Analog::Integrate(_) | Analog::Delay(_)
        )
    }
}

impl Binary {
    fn decode(code: u8) -> Option<Binary> {
        Some(match code {
            0x00 => Binary::Nop,
            0x01 => Binary::Btn,
            0x02 => Binary::Bti,
            0x03 => Binary::Ann,
            0x04 => Binary::Ani,
            0x05 => Binary::Ain,
            0x06 => Binary::Aii,
            0x07 => Binary::Onn,
            0x08 => Binary::Oni,
            0x09 => Binary::Oin,
            0x0A => Binary::Oii,
            0x0B => Binary::Xnn,
            0x0C => Binary::Xni,
            0x0D => Binary::Frs,
            0xC0 => Binary::Cgt,
            0xC1 => Binary::Cgh,
            _ => return None,
        })
    }

    fn sources(self, sr1: u8, sr2: u8) -> (Source, Source) {
        match self {
            Binary::Nop => (UNUSED, UNUSED),
            Binary::Btn | Binary::Bti => (Source::bit(sr1), UNUSED),
            Binary::Cgt | Binary::Cgh => (Source::reading(sr1), Source::reading(sr2)),
            _ => (Source::bit(sr1), Source::bit(sr2)),
        }
    }
}

fn ask(answer: bool, number: u8, line: Option<u8>) -> Result<(), Refusal> {
    if answer {
        Ok(())
    } else {
        Err(Refusal(number, line))
    }
}

impl Program {
    fn read(parcel: &[u8]) -> Result<Program, Refusal> {
        let count = usize::from(*parcel.first().unwrap_or(&0));
        ask(count == 3 || count == 4, 11, None)?;
        let list = parcel.get(1..1 + 3 * count).ok_or(Refusal(12, None))?;
        let listed = || {
            list.chunks_exact(3)
                .map(|e| (e[0], usize::from(e[1]) + 256 * usize::from(e[2])))
        };
        let mut kinds: Vec<u8> = listed().map(|(kind, _)| kind).collect();
        kinds.sort_unstable();
        ask(kinds.iter().copied().eq(1..=count as u8), 13, None)?;
        ask(
            listed().all(|(kind, length)| length == if kind == 4 { 34 } else { 256 }),
            14,
            None,
        )?;
        let mut bodies: [&[u8]; 5] = [&[]; 5];
        let mut at = 1 + 3 * count;
        for (kind, length) in listed() {
            bodies[usize::from(kind)] = parcel.get(at..at + length).ok_or(Refusal(15, None))?;
            at += length;
        }
        ask(at == parcel.len(), 15, None)?;
        let [_, codes, firsts, seconds, points] = bodies;

        let mut program = Program {
            analog: [AnalogWork {
                command: Analog::Nop,
                a: UNUSED,
                b: UNUSED,
            }; READINGS],
            binary: [BinaryWork {
                command: Binary::Nop,
                a: UNUSED,
                b: UNUSED,
            }; BITS],
            table: [0; 17],
        };
        for (y, bytes) in program.table.iter_mut().zip(points.chunks_exact(2)) {
            *y = word(bytes[0], bytes[1]);
        }
        for line in 0..=0xFF_u8 {
            let address = usize::from(line);
            let (code, sr1, sr2) = (codes[address], firsts[address], seconds[address]);
            let unknown = Refusal(21, Some(line));
            if address < BITS {
                let command = Binary::decode(code).ok_or(unknown)?;
                let (a, b) = command.sources(sr1, sr2);
                program.binary[address] = BinaryWork { command, a, b };
            } else {
                let command = Analog::decode(code).ok_or(unknown)?;
                ask(!command.is_timed() || address >= 0x80, 22, Some(line))?;
                ask(
                    !matches!(command, Analog::Ta0) || !points.is_empty(),
                    23,
                    Some(line),
                )?;
                if let Analog::Fix | Analog::Flx = command {
                    ask(i32::from(constant(sr1, sr2)).abs() <= LIMIT, 24, Some(line))?;
                }
                let (a, b) = command.sources(sr1, sr2);
                program.analog[address - BITS] = AnalogWork { command, a, b };
            }
        }
        Ok(program)
    }
}

impl Controller {
    fn new() -> Controller {
        Controller {
            readings: [0; READINGS],
            bits: [false; BITS],
            remainders: [0; READINGS],
            phase: 0,
        }
    }

    fn recall(&mut self, program: &Program) {
        for (reading, work) in self.readings.iter_mut().zip(&program.analog) {
            if let AnalogWork {
                command: Analog::Flx,
                a: Source::Fixed(default),
                ..
            } = *work
            {
                *reading = default;
            }
        }
    }

    // What stands at a source now, a bit as 0 or 1.
    fn fetch(&self, source: Source, frame: &Frame) -> i32 {
        match source {
            Source::Fixed(n) => i32::from(n),
            Source::Line(n) => {
                let address = usize::from(n);
                if address < BITS {
                    i32::from(self.bits[address])
                } else {
                    i32::from(self.readings[address - BITS])
                }
            }
            Source::Input(n) => i32::from(frame.inputs[usize::from(n)]),
            Source::Switch(n) => i32::from(frame.switches >> n & 1),
        }
    }

    fn work_analog(&mut self, program: &Program, frame: &Frame, place: usize) {
        let AnalogWork { command, a, b } = program.analog[place];
        let a = self.fetch(a, frame);
        let b = self.fetch(b, frame);
        let own = i32::from(self.readings[place]);
        let result = match command {
            Analog::Nop | Analog::Flx => own,
            Analog::Fix | Analog::Dir => a,
            Analog::Sol => pick(b, a, own),
            Analog::Sih => pick(b, -a, a),
            Analog::Sil => pick(b, a, -a),
            Analog::Szl => pick(b, a, 0),
            Analog::Szh => pick(b, 0, a),
            Analog::Abs => a.abs(),
            Analog::Inv => -a,
            Analog::Max => a.max(b),
            Analog::Min => a.min(b),
            Analog::Add => limited(a + b),
            Analog::Sub => limited(a - b),
            Analog::Mul => multiplied(a, b),
            Analog::Div => divided(a, b),
            Analog::Rez => divided(UNIT, a),
            Analog::Qua => multiplied(a, a),
            Analog::Rad => root(a),
            Analog::Ta0 => interpolated(&program.table, a),
            Analog::Part(d) => a / i32::from(d),
            Analog::Times(n) => limited(a * i32::from(n)),
            Analog::LimitRate(rate) => {
                let allowance = ALLOWANCES[usize::from(rate)][usize::from(self.phase)];
                b + (a - b).clamp(-allowance, allowance)
            }
            Analog::Integrate(d) => {
                let d = i32::from(d);
                let s = a + i32::from(self.remainders[place]);
                let q = s / d;
                let result = limited(b + q);
                self.remainders[place] = if result == b + q {
                    (s - q * d) as i16
                } else {
                    0
                };
                result
            }
            Analog::Delay(d) => {
                let d = i32::from(d);
                let s = a - b + i32::from(self.remainders[place]);
                let q = s / d;
                self.remainders[place] = (s - q * d) as i16;
                b + q
            }
        };
        self.readings[place] = result as i16;
    }

    fn work_binary(&self, program: &Program, frame: &Frame, place: usize) -> bool {
        let BinaryWork { command, a, b } = program.binary[place];
        let a = self.fetch(a, frame);
        let b = self.fetch(b, frame);
        let own = self.bits[place];
        let (is_a, is_b) = (a != 0, b != 0);
        match command {
            Binary::Nop => own,
            Binary::Btn => is_a,
            Binary::Bti => !is_a,
            Binary::Ann => is_a & is_b,
            Binary::Ani => !(is_a & is_b),
            Binary::Ain => !is_a & is_b,
            Binary::Aii => !(!is_a & is_b),
            Binary::Onn => is_a | is_b,
            Binary::Oni => !(is_a | is_b),
            Binary::Oin => !is_a | is_b,
            Binary::Oii => !(!is_a | is_b),
            Binary::Xnn => is_a ^ is_b,
            Binary::Xni => !(is_a ^ is_b),
            Binary::Frs => !is_b & (is_a | own),
            Binary::Cgt => a > b,
            Binary::Cgh => a > b || own && a >= b - 80,
        }
    }

    fn cycle(&mut self, program: &Program, frame: &Frame) {
        for place in (0..READINGS).rev() {
            self.work_analog(program, frame, place);
        }
        let mut bits = [false; BITS];
        for (place, bit) in bits.iter_mut().enumerate() {
            *bit = self.work_binary(program, frame, place);
        }
        self.bits = bits;
        self.phase = if self.phase == 4 { 0 } else { self.phase + 1 };
    }

    // A1, A2, and Q00 to Q12 as a number with Q00 lowest.
    fn outputs(&self) -> (i16, i16, u16) {
        let bits = &self.bits;
        let places = bits[0x17..0x18]
            .iter()
            .chain(&bits[0x24..0x28])
            .chain(&bits[0x18..0x20]);
        let number = places
            .enumerate()
            .map(|(n, &bit)| u16::from(bit) << n)
            .sum();
        (self.readings[0], self.readings[1], number)
    }
}

struct Generator(u32);

impl Generator {
    fn draw(&mut self) -> u32 {
        self.0 = self.0.wrapping_mul(1664525).wrapping_add(1013904223);
        self.0 >> 16
    }

    fn frame(&mut self) -> Frame {
        let mut inputs = [0; 8];
        for input in &mut inputs {
            *input = (self.draw() as i32 % 32001 - 16000) as i16;
        }
        Frame {
            inputs,
            switches: (self.draw() % 512) as u16,
        }
    }
}

struct Sum(u64);

impl Sum {
    fn fold(&mut self, number: u64) {
        self.0 = self.0.wrapping_mul(31).wrapping_add(number);
    }

    fn fold_reading(&mut self, reading: i16) {
        self.fold((i32::from(reading) + 32768) as u64);
    }
}

fn run(program: &Program, count: u64) -> u64 {
    let mut controller = Controller::new();
    controller.recall(program);
    let mut generator = Generator(0);
    let mut sum = Sum(0);
    for _ in 0..count {
        controller.cycle(program, &generator.frame());
        let (a1, a2, bits) = controller.outputs();
        sum.fold_reading(a1);
        sum.fold_reading(a2);
        sum.fold(u64::from(bits));
    }
    for bit in controller.bits {
        sum.fold(u64::from(bit));
    }
    for reading in controller.readings {
        sum.fold_reading(reading);
    }
    sum.0
}

fn answer() -> Result<String, String> {
    let arguments: Vec<String> = env::args().skip(1).collect();
    let [path, count] = &arguments[..] else {
        return Err("usage: plain PARCEL COUNT".to_string());
    };
    let count: u64 = count.parse().map_err(|_| format!("no count: {count}"))?;
    let parcel = fs::read(path).map_err(|error| format!("{path}: {error}"))?;
    let program = Program::read(&parcel).map_err(|Refusal(number, line)| match line {
        Some(line) => format!("refused: {number} at {line:02X}H"),
        None => format!("refused: {number}"),
    })?;
    Ok(format!("{count} cycles, sum {}", run(&program, count)))
}

fn main() -> ExitCode {
    match answer() {
        Ok(line) => {
            println!("{line}");
            ExitCode::SUCCESS
        }
        Err(message) => {
            eprintln!("{message}");
            ExitCode::FAILURE
        }
    }
}
