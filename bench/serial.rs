// The serial sender written plainly in Rust, with the refusals and the answers of the crate `serial`, and the program of crates/docked over
// it, where that writes the bytes: what the proved sender's instructions are compared with.

#[allow(dead_code)]
mod host;

use host::{Load, Phase, Place, Planner, Seen};
use std::io::{Read, Write};

#[derive(Clone, Copy)]
enum Packing {
    One,
    Three,
    Fewest,
}

#[derive(Clone, Copy)]
struct Serial {
    packing: Packing,
    load: Load,
    place: Place,
}

const CALLS: usize = 263_379;

fn in_pairs(phase: Phase) -> bool {
    matches!(phase, Phase::Calibration | Phase::Connection | Phase::Version(_) | Phase::Wait(_))
}

fn in_bits(phase: Phase) -> bool {
    matches!(phase, Phase::Handshake | Phase::Command | Phase::Zeros | Phase::Size | Phase::Image)
}

impl Serial {
    fn start(packing: Packing, command: u32, image: &[u8]) -> Result<Serial, u8> {
        Ok(Serial { packing, load: Load::new(command, image)?, place: Place::START })
    }

    fn step(mut self, planner: &Planner, image: &[u8], back: Option<u8>) -> Result<(Option<u8>, Serial), u8> {
        if self.load.outside() || self.place.outside(&self.load) {
            return Err(13);
        }
        if let Phase::Ended(_) = self.place.phase {
            return Err(14);
        }
        let pending = in_pairs(self.place.phase) && self.place.index % 2 == 1;
        if pending && !matches!(self.place.phase, Phase::Calibration) && matches!(back, Some(byte) if byte < 0xfe) {
            return Err(15);
        }
        if self.load.other_image(image) {
            return Err(5);
        }
        if pending {
            let seen = match back {
                None => Seen::Silence,
                Some(0xfe) => Seen::Zero,
                Some(_) => Seen::One,
            };
            self.place.follow(planner, &self.load, seen);
            if let Phase::Ended(_) = self.place.phase {
                return Ok((None, self));
            }
        }
        if in_pairs(self.place.phase) {
            self.place.follow(planner, &self.load, Seen::Silence);
            return Ok((Some(0xf9), self));
        }
        let most = match self.packing {
            Packing::One => 1,
            Packing::Three => 3,
            Packing::Fewest => 5,
        };
        let mut lows = 0u16;
        let mut used = 0;
        for _ in 0..most {
            let (low, width) = if self.place.bit(planner, &self.load, image) { (1, 2) } else { (3, 3) };
            if used + width > 10 {
                break;
            }
            lows |= low << used;
            used += width;
            self.place.follow(planner, &self.load, Seen::Silence);
            if self.place.index == 0 && !(matches!(self.packing, Packing::Fewest) && in_bits(self.place.phase)) {
                break;
            }
        }
        Ok((Some(!(lows >> 1) as u8), self))
    }
}

// What a good chip answers to the pair at whose second pulse the session stands.
fn reply(planner: &Planner, place: &Place) -> Option<u8> {
    let byte = |bit| Some(if bit { 0xff } else { 0xfe });
    match place.phase {
        Phase::Connection => byte(planner.draw(251 + place.index / 2)),
        Phase::Version(_) => byte(place.index < 2),
        Phase::Wait(_) if place.index >= 2 => byte(false),
        _ => None,
    }
}

const ENDED: u32 = 5;

// The part of the byte that is sent next.
fn part_at(place: &Place) -> u32 {
    match place.phase {
        Phase::Calibration => (place.index >= 1) as u32,
        Phase::Handshake => 1,
        Phase::Connection => 2,
        Phase::Version(_) => 2 + (place.index >= 15) as u32,
        Phase::Command | Phase::Zeros | Phase::Size | Phase::Image => 3,
        Phase::Wait(_) => 4,
        Phase::Ended(_) => ENDED,
    }
}

fn main() {
    let planner = Planner { states: host::states() };
    let packing = match std::env::args().nth(2).as_deref() {
        Some("1") => Packing::One,
        Some("3") => Packing::Three,
        Some("5") => Packing::Fewest,
        _ => panic!("two numbers are wanted, 1 and BITS (1, 3 or 5), and an image on standard input"),
    };
    let mut image = Vec::new();
    std::io::stdin().take(32_761).read_to_end(&mut image).expect("an image on standard input");
    let mut serial = match Serial::start(packing, 1, &image) {
        Ok(serial) => serial,
        Err(n) => {
            println!("refused {n}");
            return;
        }
    };
    let part = std::hint::black_box(ENDED);
    let mut bytes = [0u8; CALLS];
    let (mut sent, mut calls) = (0, 0);
    while calls < CALLS && part_at(&serial.place) < part {
        match serial.step(&planner, &image, reply(&planner, &serial.place)) {
            Ok((byte, next)) => {
                serial = next;
                if let Some(byte) = byte {
                    bytes[sent] = byte;
                    sent += 1;
                }
            }
            Err(_) => break,
        }
        calls += 1;
    }
    std::hint::black_box(calls);
    std::io::stdout().write_all(&bytes[..sent]).expect("output that can be written");
}
