// The host planner written plainly in Rust, with the refusals and the answers of the crate `host`, and the program of crates/longest
// over it: what the proved planner's instructions are compared with. bench/planned.rs has it as a module.

#[path = "image.rs"]
mod image;

#[derive(Clone, Copy)]
pub enum Seen {
    Silence,
    Zero,
    One,
}

#[derive(Clone, Copy)]
pub enum Acknowledgement {
    Ram,
    Programming,
    Verification,
}

#[derive(Clone, Copy)]
pub enum Ending {
    Done,
    Lost,
    WrongVersion,
    BadRam,
    BadProgramming,
    BadVerification,
}

#[derive(Clone, Copy)]
pub enum Phase {
    Calibration,
    Handshake,
    Connection,
    Version(u8),
    Command,
    Zeros,
    Size,
    Image,
    Wait(Acknowledgement),
    Ended(Ending),
}

// What is loaded: a command with its image's length.
#[derive(Clone, Copy)]
pub struct Load {
    pub command: u32,
    length: usize,
}

// Where a session stands.
#[derive(Clone, Copy)]
pub struct Place {
    pub phase: Phase,
    pub index: u32,
}

// The ticks of each phase so far, in the order in which they come.
#[derive(Clone, Copy, Default)]
pub struct PhaseTicks {
    calibration: u64,
    handshake: u64,
    connection: u64,
    version: u64,
    command: u64,
    size: u64,
    image: u64,
    ram: u64,
    programming: u64,
    verification: u64,
}

#[derive(Clone, Copy)]
pub struct Host {
    t: u32,
    h: u32,
    p: u32,
    load: Load,
    pub place: Place,
    time: u64,
    phases: PhaseTicks,
    pub pulses: u32,
    pub ones: u32,
    pub zeros: u32,
}

pub struct Sent {
    pub host: Host,
    pub fall: u64,
    pub rise: u64,
}

const LONGEST_LEG: u64 = 90_052_000_000;

pub fn states() -> [u8; 255] {
    let mut table = [0; 255];
    let mut state = 0x50u8;
    for entry in table.iter_mut() {
        *entry = state;
        state = state << 1 | (state >> 7 ^ state >> 5 ^ state >> 4 ^ state >> 1) & 1;
    }
    table
}

pub struct Planner {
    pub states: [u8; 255],
}

impl Planner {
    pub fn draw(&self, k: u32) -> bool {
        self.states[((k + 254) % 255) as usize] & 1 == 1
    }
}

fn word(image: &[u8], at: usize) -> usize {
    image[at] as usize | (image[at + 1] as usize) << 8
}

fn sum(image: &[u8]) -> u8 {
    image.iter().fold(0, |sum: u8, byte| sum.wrapping_add(*byte))
}

// Calibration and handshake can outlast a chip's first countdown.
fn slow(t: u32, h: u32, p: u32) -> bool {
    252 * (2 * t as u64 + h as u64) * 1_000 + 504 * (400_000 + p as u64) > 150_000_000_000
}

fn bad_length(length: usize) -> bool {
    length < 16 || length > 32_760 || length % 4 != 0
}

impl Load {
    pub fn new(command: u32, image: &[u8]) -> Result<Load, u8> {
        if command > 3 {
            return Err(4);
        }
        let mut length = 0;
        if command != 0 {
            length = image.len();
            if bad_length(length) {
                return Err(5);
            }
            if word(image, 8) != length {
                return Err(6);
            }
            if word(image, 6) != 16 {
                return Err(7);
            }
            let d = word(image, 10);
            if d % 4 != 0 || d < length + 8 || d > 32_768 {
                return Err(8);
            }
            if sum(image) != 20 {
                return Err(9);
            }
        }
        Ok(Load { command, length })
    }

    pub fn outside(&self) -> bool {
        self.command > 3 || if self.command == 0 { self.length != 0 } else { bad_length(self.length) }
    }

    pub fn other_image(&self, image: &[u8]) -> bool {
        self.command != 0 && image.len() != self.length
    }
}

impl Place {
    pub const START: Place = Place { phase: Phase::Calibration, index: 0 };

    // The pulses of a phase, those that can come before it, and the least command that has it.
    fn table(&self, load: &Load) -> (u32, u32, u32) {
        let image = load.length as u32 * 8;
        match self.phase {
            Phase::Calibration => (2, 0, 0),
            Phase::Handshake => (250, 2, 0),
            Phase::Connection => (500, 252, 0),
            Phase::Version(_) => (16, 752, 0),
            Phase::Command | Phase::Zeros => (32, 768, 0),
            Phase::Size => (32, 800, 1),
            Phase::Image => (image, 832, 1),
            Phase::Wait(Acknowledgement::Ram) => (50, 832 + image, 1),
            Phase::Wait(Acknowledgement::Programming) => (1000, 882 + image, 2),
            Phase::Wait(Acknowledgement::Verification) => (400, 1882 + image, 2),
            Phase::Ended(Ending::BadRam) => (1, 2282 + image, 1),
            Phase::Ended(Ending::BadProgramming | Ending::BadVerification) => (1, 2282 + image, 2),
            Phase::Ended(_) => (1, 2282 + image, 0),
        }
    }

    pub fn outside(&self, load: &Load) -> bool {
        let (places, _, least) = self.table(load);
        load.command < least || self.index >= places
    }

    pub fn bit(&self, planner: &Planner, load: &Load, image: &[u8]) -> bool {
        let index = self.index;
        match self.phase {
            Phase::Calibration | Phase::Connection | Phase::Version(_) | Phase::Wait(_) => index % 2 == 0,
            Phase::Handshake => planner.draw(index + 1),
            Phase::Command => load.command >> index & 1 == 1,
            Phase::Zeros | Phase::Ended(_) => false,
            Phase::Size => (load.length as u32 / 4) >> index & 1 == 1,
            Phase::Image => image[index as usize / 8] >> (index % 8) & 1 == 1,
        }
    }

    pub fn follow(&mut self, planner: &Planner, load: &Load, seen: Seen) {
        if self.index % 2 == 1 {
            match (self.phase, seen) {
                (Phase::Connection, Seen::Silence) | (Phase::Version(_), Seen::Silence) => return self.open(Phase::Ended(Ending::Lost)),
                (Phase::Connection, Seen::Zero) if planner.draw(251 + self.index / 2) => return self.open(Phase::Ended(Ending::Lost)),
                (Phase::Connection, Seen::One) if !planner.draw(251 + self.index / 2) => return self.open(Phase::Ended(Ending::Lost)),
                (Phase::Version(v), Seen::Zero) => self.phase = Phase::Version(v >> 1),
                (Phase::Version(v), Seen::One) => self.phase = Phase::Version(v >> 1 | 128),
                (Phase::Wait(awaited), Seen::Zero) => {
                    return self.open(match awaited {
                        Acknowledgement::Ram if load.command == 1 => Phase::Ended(Ending::Done),
                        Acknowledgement::Ram => Phase::Wait(Acknowledgement::Programming),
                        Acknowledgement::Programming => Phase::Wait(Acknowledgement::Verification),
                        Acknowledgement::Verification => Phase::Ended(Ending::Done),
                    })
                }
                (Phase::Wait(awaited), Seen::One) => {
                    return self.open(Phase::Ended(match awaited {
                        Acknowledgement::Ram => Ending::BadRam,
                        Acknowledgement::Programming => Ending::BadProgramming,
                        Acknowledgement::Verification => Ending::BadVerification,
                    }))
                }
                _ => {}
            }
        }
        if self.index + 1 < self.table(load).0 {
            self.index += 1;
            return;
        }
        self.open(match self.phase {
            Phase::Calibration => Phase::Handshake,
            Phase::Handshake => Phase::Connection,
            Phase::Connection => Phase::Version(0),
            Phase::Version(1) => Phase::Command,
            Phase::Version(_) => Phase::Zeros,
            Phase::Command if load.command == 0 => Phase::Ended(Ending::Done),
            Phase::Command => Phase::Size,
            Phase::Zeros => Phase::Ended(Ending::WrongVersion),
            Phase::Size => Phase::Image,
            Phase::Image => Phase::Wait(Acknowledgement::Ram),
            Phase::Wait(_) => Phase::Ended(Ending::Lost),
            Phase::Ended(ending) => Phase::Ended(ending),
        })
    }

    fn open(&mut self, phase: Phase) {
        self.phase = phase;
        self.index = 0;
    }
}

impl PhaseTicks {
    // The ticks from the last rise to a fall, where the ten do not add up past it.
    fn spacer_before(&self, fall: u64) -> Option<u64> {
        fall.checked_sub(self.calibration)?
            .checked_sub(self.handshake)?
            .checked_sub(self.connection)?
            .checked_sub(self.version)?
            .checked_sub(self.command)?
            .checked_sub(self.size)?
            .checked_sub(self.image)?
            .checked_sub(self.ram)?
            .checked_sub(self.programming)?
            .checked_sub(self.verification)
    }

    // More ticks for a phase.
    fn add(&mut self, phase: Phase, ticks: u64) {
        match phase {
            Phase::Calibration => self.calibration += ticks,
            Phase::Handshake => self.handshake += ticks,
            Phase::Connection => self.connection += ticks,
            Phase::Version(_) => self.version += ticks,
            Phase::Command | Phase::Zeros => self.command += ticks,
            Phase::Size => self.size += ticks,
            Phase::Image => self.image += ticks,
            Phase::Wait(Acknowledgement::Ram) => self.ram += ticks,
            Phase::Wait(Acknowledgement::Programming) => self.programming += ticks,
            Phase::Wait(Acknowledgement::Verification) | Phase::Ended(_) => self.verification += ticks,
        }
    }

    fn add_before(&mut self, phase: Phase, ticks: u64) {
        match phase {
            Phase::Calibration | Phase::Handshake => self.calibration += ticks,
            Phase::Connection => self.handshake += ticks,
            Phase::Version(_) => self.connection += ticks,
            Phase::Command | Phase::Zeros => self.version += ticks,
            Phase::Size => self.command += ticks,
            Phase::Image => self.size += ticks,
            Phase::Wait(Acknowledgement::Ram) => self.image += ticks,
            Phase::Wait(Acknowledgement::Programming) => self.ram += ticks,
            Phase::Wait(Acknowledgement::Verification) | Phase::Ended(_) => self.programming += ticks,
        }
    }

    // The spacer before a phase's first pulse is of the phase before.
    fn pulse(&mut self, place: Place, spacer: u64, low: u64) {
        if place.index == 0 {
            self.add_before(place.phase, spacer);
            self.add(place.phase, low);
        } else {
            self.add(place.phase, spacer + low);
        }
    }

    pub fn print(&self) {
        println!("calibration {}", self.calibration);
        println!("handshake {}", self.handshake);
        println!("connection {}", self.connection);
        println!("version {}", self.version);
        println!("command {}", self.command);
        println!("size {}", self.size);
        println!("image {}", self.image);
        println!("ram {}", self.ram);
        println!("programming {}", self.programming);
        println!("verification {}", self.verification);
    }
}

impl Host {
    pub fn start(t: u32, h: u32, p: u32, command: u32, image: &[u8]) -> Result<Host, u8> {
        if !(4_300..=26_000).contains(&t) {
            return Err(1);
        }
        if !(4_300..=90_000_000).contains(&h) {
            return Err(2);
        }
        if !(1_000..=1_000_000).contains(&p) {
            return Err(3);
        }
        if slow(t, h, p) {
            return Err(16);
        }
        Ok(Host {
            t,
            h,
            p,
            load: Load::new(command, image)?,
            place: Place::START,
            time: 0,
            phases: PhaseTicks::default(),
            pulses: 0,
            ones: 0,
            zeros: 0,
        })
    }

    fn outside(&self) -> bool {
        if !(4_300..=26_000).contains(&self.t)
            || !(4_300..=90_000_000).contains(&self.h)
            || !(1_000..=1_000_000).contains(&self.p)
            || slow(self.t, self.h, self.p)
            || self.load.outside()
        {
            return true;
        }
        let (places, before, least) = self.place.table(&self.load);
        self.load.command < least
            || self.place.index >= places
            || self.pulses > before + self.place.index
            || self.ones > self.pulses
            || self.zeros != self.pulses - self.ones
            || self.time > self.pulses as u64 * LONGEST_LEG
    }

    pub fn step(mut self, planner: &Planner, image: &[u8], seen: Seen) -> Result<Sent, u8> {
        if self.outside() {
            return Err(13);
        }
        let p = self.p as u64;
        let fall = self.time / p;
        let Some(gap) = self.phases.spacer_before(fall) else {
            return Err(13);
        };
        if let Phase::Ended(_) = self.place.phase {
            return Err(14);
        }
        if self.load.other_image(image) {
            return Err(5);
        }
        let bit = self.place.bit(planner, &self.load, image);
        let silent = matches!((self.place.phase, seen), (Phase::Wait(_), Seen::Silence)) && self.place.index % 2 == 1;
        let low = if bit { self.t as u64 } else { self.t as u64 * 2 } * 1_000;
        let spacer = if silent { self.h.max(10_000_000) } else { self.h } as u64 * 1_000;
        let risen = self.time + low;
        let rise = risen / p;
        self.time = risen + spacer;
        self.phases.pulse(self.place, gap, rise - fall);
        self.pulses += 1;
        if bit {
            self.ones += 1;
        } else {
            self.zeros += 1;
        }
        self.place.follow(planner, &self.load, seen);
        Ok(Sent { host: self, fall, rise })
    }
}

// What a good chip replies to the pulse before.
fn reply(planner: &Planner, host: &Host) -> Seen {
    let seen = |bit| if bit { Seen::One } else { Seen::Zero };
    match host.place.phase {
        Phase::Connection => seen(planner.draw(251 + host.place.index / 2)),
        Phase::Version(_) => seen(host.place.index < 2),
        Phase::Wait(_) if host.place.index >= 2 => Seen::Zero,
        _ => Seen::Silence,
    }
}

fn main() {
    let planner = Planner { states: states() };
    let image = image::longest();
    let mut host = match Host::start(8_600, 8_600, 700_000, 1, &image) {
        Ok(host) => host,
        Err(n) => {
            println!("refused {n}");
            return;
        }
    };
    let mut last = 0;
    let mut edges = 0u64;
    for _ in 0..262_916 {
        let seen = reply(&planner, &host);
        if let Ok(sent) = host.step(&planner, &image, seen) {
            host = sent.host;
            last = sent.rise;
            edges = edges.wrapping_add(sent.fall.wrapping_add(sent.rise));
        }
    }
    println!("pulses {}", host.pulses);
    println!("ones {}", host.ones);
    println!("zeros {}", host.zeros);
    println!("ticks {last}");
    println!("edges {edges}");
    host.phases.print();
    match host.place.phase {
        Phase::Ended(ending) => println!("host {}", ending as u8),
        _ => println!("host going on"),
    }
}
