// The chip model written plainly in Rust, with the refusals and the answers of the crate `chip`, and the program of crates/fullest over
// it: what the proved chip's instructions are compared with. bench/planned.rs has it as a module.

#[path = "image.rs"]
mod image;

#[derive(Clone, Copy)]
pub enum Seen {
    Silence,
    Zero,
    One,
}

#[derive(Clone, Copy)]
#[allow(dead_code)]
pub enum Fault {
    None,
    Accepts(u32),
    Reads(u8, usize),
}

#[derive(Clone, Copy)]
pub enum Acknowledgement {
    Stored,
    Programmed,
    Verified,
    Failed,
}

#[derive(Clone, Copy)]
pub enum Reply {
    Connection(u32),
    Acknowledging(Acknowledgement),
}

#[derive(Clone, Copy)]
pub enum Ending {
    Launched,
    Booted,
    Shut,
    Off,
}

#[derive(Clone, Copy)]
pub enum Phase {
    First,
    Second(u32),
    Handshake(u32),
    Answer(Reply),
    Rest(Reply),
    Command(u8, u32),
    Size(u8, u32),
    Long(u8, u32, u32),
    Align(Acknowledgement),
    Ended(Ending),
}

#[derive(Clone, Copy)]
pub struct Chip {
    fault: Fault,
    threshold: u32,
    command: u32,
    size: u32,
    pub phase: Phase,
    left: u32,
    one: Option<i64>,
    zero: Option<i64>,
}

pub const MEMORY: usize = 32_768;
const PAGE: usize = 64;
const PAGES: u32 = 512;
const FIRST_BUDGET: u32 = 375_000;
const BUDGET: u32 = 250_000;
const FLAGS: u32 = 0xFFF9_FFFF;
const FLAGS_SUM: u8 = 246;

const STATES: [u8; 255] = states();

const fn states() -> [u8; 255] {
    let mut table = [0; 255];
    let mut state = 0x50u8;
    let mut i = 0;
    while i < 255 {
        table[i] = state;
        state = state << 1 | (state >> 7 ^ state >> 5 ^ state >> 4 ^ state >> 1) & 1;
        i += 1;
    }
    table
}

fn draw(k: u32) -> bool {
    STATES[((k + 254) % 255) as usize] & 1 == 1
}

fn word(bytes: &[u8], at: usize) -> u16 {
    u16::from_le_bytes([bytes[at], bytes[at + 1]])
}

fn sum(bytes: &[u8]) -> u8 {
    bytes.iter().fold(0, |sum: u8, byte| sum.wrapping_add(*byte))
}

fn store(ram: &mut [u8], at: usize, value: u32) {
    ram[at..at + 4].copy_from_slice(&value.to_le_bytes());
}

// A value with one bit more, shifted in from the top.
fn grown(value: u32, bit: bool) -> u32 {
    value >> 1 | (bit as u32) << 31
}

fn launches(ram: &[u8]) -> bool {
    word(ram, 6) == 16
}

impl Fault {
    fn outside(self) -> bool {
        match self {
            Fault::None => false,
            Fault::Accepts(pages) => pages > PAGES,
            Fault::Reads(_, at) => at >= MEMORY,
        }
    }

    fn acknowledges(self) -> bool {
        !matches!(self, Fault::Accepts(0))
    }
}

impl Acknowledgement {
    // The least command that comes to it.
    fn least_command(self) -> u32 {
        match self {
            Acknowledgement::Stored | Acknowledgement::Failed => 1,
            Acknowledgement::Programmed | Acknowledgement::Verified => 2,
        }
    }
}

impl Reply {
    fn outside(self, command: u32) -> bool {
        match self {
            Reply::Connection(k) => k > 257,
            Reply::Acknowledging(acknowledgement) => command < acknowledgement.least_command(),
        }
    }

    fn seen(self) -> Seen {
        let bit = match self {
            Reply::Connection(k) if k < 250 => draw(251 + k),
            Reply::Connection(k) => k == 250,
            Reply::Acknowledging(acknowledgement) => matches!(acknowledgement, Acknowledgement::Failed),
        };
        if bit { Seen::One } else { Seen::Zero }
    }
}

impl Chip {
    pub fn start(ram: &[u8], eeprom: &[u8], fault: Fault) -> Result<Chip, u8> {
        if ram.len() != MEMORY {
            return Err(10);
        }
        if eeprom.len() != MEMORY {
            return Err(11);
        }
        if fault.outside() {
            return Err(12);
        }
        Ok(Chip { fault, threshold: 0, command: 0, size: 0, phase: Phase::First, left: FIRST_BUDGET, one: None, zero: None })
    }

    // A phase at whose start the countdown is set again.
    fn begin(&mut self, phase: Phase) {
        self.phase = phase;
        self.left = BUDGET;
    }

    fn most_left(&self) -> u32 {
        match self.phase {
            Phase::First | Phase::Handshake(_) | Phase::Ended(_) => FIRST_BUDGET,
            Phase::Second(first) => FIRST_BUDGET.saturating_sub(first),
            _ => BUDGET,
        }
    }

    fn outside(&self) -> bool {
        self.fault.outside()
            || self.left == 0
            || self.left > self.most_left()
            || self.threshold > 187_499
            || self.command > 3
            || self.size > 8_192
            || match self.phase {
                Phase::First => false,
                Phase::Second(first) => first >= FIRST_BUDGET,
                Phase::Handshake(k) => k == 0 || k > 250,
                Phase::Answer(reply) | Phase::Rest(reply) => reply.outside(self.command),
                Phase::Command(bits, _) => bits > 31,
                Phase::Size(bits, _) => self.command < 1 || bits > 31,
                Phase::Long(bits, k, _) => k >= self.size || self.command < 1 || bits > 31,
                Phase::Align(acknowledgement) => self.command < acknowledgement.least_command(),
                Phase::Ended(Ending::Launched | Ending::Off) => self.command < 1,
                Phase::Ended(Ending::Booted | Ending::Shut) => false,
            }
            || self.one.is_some_and(|near| near >= 0)
            || self.zero.is_some_and(|near| near < 0)
    }

    // The bit of a low, and the nearer distance kept on its side.
    fn read(&mut self, low: u32) -> bool {
        let distance = i64::from(low) - i64::from(self.threshold);
        let bit = distance < 0;
        if bit {
            if self.one.is_none_or(|near| near < distance) {
                self.one = Some(distance);
            }
        } else if self.zero.is_none_or(|near| distance < near) {
            self.zero = Some(distance);
        }
        bit
    }

    pub fn step(mut self, ram: &mut [u8], eeprom: &mut [u8], wait: u32, low: u32) -> Result<(Chip, Seen), u8> {
        if ram.len() != MEMORY {
            return Err(10);
        }
        if eeprom.len() != MEMORY {
            return Err(11);
        }
        if self.outside() {
            return Err(13);
        }
        if let Phase::Ended(_) = self.phase {
            return Err(14);
        }
        if self.left <= wait || self.left - wait <= low {
            self.time_out(ram, eeprom);
            return Ok((self, Seen::Silence));
        }
        self.left -= wait + low;
        let seen = self.hear(ram, eeprom, low);
        Ok((self, seen))
    }

    fn time_out(&mut self, ram: &mut [u8], eeprom: &[u8]) {
        match self.phase {
            Phase::Answer(reply) | Phase::Rest(reply) => {
                match reply {
                    Reply::Acknowledging(Acknowledgement::Programmed | Acknowledgement::Verified) => self.begin(Phase::Align(Acknowledgement::Failed)),
                    _ => self.phase = Phase::Ended(Ending::Shut),
                }
            }
            _ => self.boot(ram, eeprom),
        }
    }

    fn hear(&mut self, ram: &mut [u8], eeprom: &mut [u8], low: u32) -> Seen {
        match self.phase {
            Phase::First => self.phase = Phase::Second(low),
            Phase::Second(first) => {
                self.threshold = (first + low) / 2;
                self.phase = Phase::Handshake(1);
            }
            Phase::Handshake(k) => {
                if self.read(low) != draw(k) {
                    self.boot(ram, eeprom);
                } else if k < 250 {
                    self.phase = Phase::Handshake(k + 1);
                } else {
                    self.begin(Phase::Answer(Reply::Connection(0)));
                }
            }
            Phase::Answer(reply) => {
                self.phase = Phase::Rest(reply);
                return reply.seen();
            }
            Phase::Rest(Reply::Connection(k)) if k < 257 => self.begin(Phase::Answer(Reply::Connection(k + 1))),
            Phase::Rest(Reply::Connection(_)) => self.begin(Phase::Command(0, 0)),
            Phase::Rest(Reply::Acknowledging(acknowledgement)) => self.acknowledged(acknowledgement, ram, eeprom),
            Phase::Command(bits, so_far) => {
                let value = grown(so_far, self.read(low));
                if bits < 31 {
                    self.phase = Phase::Command(bits + 1, value);
                } else {
                    self.received_command(value);
                }
            }
            Phase::Size(bits, so_far) => {
                let value = grown(so_far, self.read(low));
                if bits < 31 {
                    self.phase = Phase::Size(bits + 1, value);
                } else {
                    self.received_size(value);
                }
            }
            Phase::Long(bits, k, so_far) => {
                let value = grown(so_far, self.read(low));
                if bits < 31 {
                    self.phase = Phase::Long(bits + 1, k, value);
                } else {
                    self.received_long(k, value, ram);
                }
            }
            Phase::Align(acknowledgement) => {
                if !self.read(low) {
                    self.begin(Phase::Answer(Reply::Acknowledging(acknowledgement)));
                }
            }
            Phase::Ended(_) => {}
        }
        Seen::Silence
    }

    fn received_command(&mut self, command: u32) {
        if command == 0 || command > 3 {
            self.phase = Phase::Ended(Ending::Shut);
        } else {
            self.command = command;
            self.begin(Phase::Size(0, 0));
        }
    }

    fn received_size(&mut self, size: u32) {
        if size == 0 || size > 8_192 {
            self.phase = Phase::Ended(Ending::Off);
        } else {
            self.size = size;
            self.begin(Phase::Long(0, 0, 0));
        }
    }

    fn received_long(&mut self, k: u32, long: u32, ram: &mut [u8]) {
        let at = k as usize * 4;
        store(ram, at, long);
        self.begin(if k + 1 < self.size {
            Phase::Long(0, k + 1, 0)
        } else if finish(ram, at + 4) {
            Phase::Align(Acknowledgement::Stored)
        } else {
            Phase::Align(Acknowledgement::Failed)
        });
    }

    fn acknowledged(&mut self, acknowledgement: Acknowledgement, ram: &mut [u8], eeprom: &mut [u8]) {
        match acknowledgement {
            Acknowledgement::Stored if self.command == 1 => self.phase = launch(ram, Ending::Launched),
            Acknowledgement::Stored if self.program(ram, eeprom) => self.begin(Phase::Align(Acknowledgement::Programmed)),
            Acknowledgement::Programmed if self.verify(ram, eeprom) => self.begin(Phase::Align(Acknowledgement::Verified)),
            Acknowledgement::Stored | Acknowledgement::Programmed => self.begin(Phase::Align(Acknowledgement::Failed)),
            Acknowledgement::Verified if self.command == 3 => self.phase = launch(ram, Ending::Launched),
            Acknowledgement::Verified | Acknowledgement::Failed => self.phase = Phase::Ended(Ending::Shut),
        }
    }

    fn program(&mut self, ram: &[u8], eeprom: &mut [u8]) -> bool {
        let pages = match self.fault {
            Fault::Accepts(pages) => {
                self.fault = Fault::Accepts(0);
                pages
            }
            _ => PAGES,
        };
        let bytes = pages as usize * PAGE;
        eeprom[..bytes].copy_from_slice(&ram[..bytes]);
        pages == PAGES
    }

    fn verify(&self, ram: &[u8], eeprom: &[u8]) -> bool {
        match self.fault {
            Fault::Reads(value, at) => ram[at] == value && ram[..at] == eeprom[..at] && ram[at + 1..] == eeprom[at + 1..],
            _ => self.fault.acknowledges() && ram == eeprom,
        }
    }

    fn boot(&mut self, ram: &mut [u8], eeprom: &[u8]) {
        if !self.fault.acknowledges() {
            self.phase = Phase::Ended(Ending::Shut);
            return;
        }
        ram.copy_from_slice(eeprom);
        if let Fault::Reads(value, at) = self.fault {
            ram[at] = value;
        }
        self.phase = launch(ram, Ending::Booted);
    }
}

fn launch(ram: &[u8], ending: Ending) -> Phase {
    Phase::Ended(if launches(ram) { ending } else { Ending::Shut })
}

// Zeroes the rest, stores the flag longs, and says whether the checksum is good, without reading the zeros.
fn finish(ram: &mut [u8], end: usize) -> bool {
    let mut all = sum(&ram[..end]);
    ram[end..].fill(0);
    let d = word(ram, 10);
    for below in [4, 8] {
        let at = (d.wrapping_sub(below) & !3) as usize;
        if at < MEMORY {
            all = all.wrapping_sub(sum(&ram[at..at + 4])).wrapping_add(FLAGS_SUM);
            store(ram, at, FLAGS);
        }
    }
    all == 0
}

const PULSES: u32 = 262_924;
const COMMAND: u32 = 3;
const SIZE: u32 = 8_190;

// The bit of pulse n, numbered from 0.
fn bit(image: &[u8; 32_760], n: u32) -> bool {
    if n < 832 {
        return early_bit(n);
    }
    let at = n - 832;
    if at < 262_080 {
        return image[at as usize / 8] >> (at % 8) & 1 == 1;
    }
    n % 2 == 0
}

// Calibration, handshake, the pairs for replies, command and size.
fn early_bit(n: u32) -> bool {
    match n {
        0..=1 => n % 2 == 0,
        2..=251 => draw(n - 1),
        252..=767 => n % 2 == 0,
        768..=799 => COMMAND >> (n - 768) & 1 == 1,
        _ => SIZE >> (n - 800) & 1 == 1,
    }
}

fn main() {
    let image = image::longest();
    let mut ram = [0u8; MEMORY];
    let mut eeprom = [0u8; MEMORY];
    let mut chip = match Chip::start(&ram, &eeprom, Fault::None) {
        Ok(chip) => chip,
        Err(n) => {
            println!("refused {n}");
            return;
        }
    };
    let (mut pulses, mut zeros, mut ones, mut refused) = (0u32, 0u32, 0u32, 0);
    for n in 0..PULSES {
        let low = if bit(&image, n) { 8 } else { 17 };
        match chip.step(&mut ram, &mut eeprom, 8, low) {
            Ok((next, reply)) => {
                chip = next;
                pulses += 1;
                match reply {
                    Seen::Silence => {}
                    Seen::Zero => zeros += 1,
                    Seen::One => ones += 1,
                }
            }
            Err(n) => refused = n,
        }
    }
    if refused != 0 {
        println!("refused {refused}");
    }
    println!("pulses {pulses}");
    println!("zeros {zeros}");
    println!("ones {ones}");
    let ending = match chip.phase {
        Phase::Ended(Ending::Launched) => "launched",
        Phase::Ended(Ending::Booted) => "booted",
        Phase::Ended(Ending::Shut) => "shut",
        Phase::Ended(Ending::Off) => "off",
        _ => "listening",
    };
    println!("chip {ending}");
    for (name, near) in [("one", chip.one), ("zero", chip.zero)] {
        match near {
            None => println!("nothing read"),
            Some(distance) => println!("nearest {name} {}", distance.unsigned_abs()),
        }
    }
    println!("ram {}", sum(&ram[1..]));
    println!("eeprom {}", sum(&eeprom[1..]));
}
