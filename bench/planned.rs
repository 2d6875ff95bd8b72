// The program `planned` written plainly in Rust, over the host and the chip of bench/: what the proved program's instructions are compared
// with.

#[allow(dead_code)]
mod chip;
#[allow(dead_code)]
mod host;

use chip::{Chip, Fault, MEMORY};
use host::{Host, Phase, Planner};
use std::io::Read;

struct Report {
    pulses: u32,
    ones: u32,
    zeros: u32,
    ticks: u64,
    host: host::Ending,
    chip: Option<chip::Ending>,
}

// The whole loops of l ps in some ticks of p ps.
fn loops(ticks: u64, p: u32, l: u32) -> u32 {
    if l == 0 {
        return u32::MAX;
    }
    match ticks.checked_mul(p as u64) {
        Some(ps) => (ps / l as u64).min(u32::MAX as u64) as u32,
        None => u32::MAX,
    }
}

// What the host sees in the call that sends its next pulse.
fn sees(host: &Host, reply: host::Seen) -> host::Seen {
    match host.place.phase {
        Phase::Calibration | Phase::Connection | Phase::Version(_) | Phase::Wait(_) if host.place.index % 2 == 1 => reply,
        _ => host::Seen::Silence,
    }
}

fn run(
    t: u32,
    h: u32,
    p: u32,
    command: u32,
    image: &[u8],
    fault: Fault,
    l: u32,
    ram: &mut [u8],
    eeprom: &mut [u8],
) -> Result<Report, u8> {
    let planner = Planner { states: host::states() };
    let mut host = Host::start(t, h, p, command, image)?;
    let mut chip = Chip::start(ram, eeprom, fault)?;
    let mut last = 0;
    let mut reply = host::Seen::Silence;
    loop {
        if let Phase::Ended(ending) = host.place.phase {
            let chip = match chip.phase {
                chip::Phase::Ended(ending) => Some(ending),
                _ => None,
            };
            return Ok(Report { pulses: host.pulses, ones: host.ones, zeros: host.zeros, ticks: last, host: ending, chip });
        }
        let sent = host.step(&planner, image, sees(&host, reply))?;
        reply = host::Seen::Silence;
        if !matches!(chip.phase, chip::Phase::Ended(_)) {
            let wait = if host.pulses == 0 { 0 } else { loops(sent.fall.saturating_sub(last), p, l) };
            let low = loops(sent.rise.saturating_sub(sent.fall), p, l);
            let (next, shown) = chip.step(ram, eeprom, wait, low)?;
            chip = next;
            reply = match shown {
                chip::Seen::Silence => host::Seen::Silence,
                chip::Seen::Zero => host::Seen::Zero,
                chip::Seen::One => host::Seen::One,
            };
        }
        host = sent.host;
        last = sent.rise;
    }
}

fn main() {
    let mut image = Vec::new();
    if let Err(error) = std::io::stdin().take(32_761).read_to_end(&mut image) {
        eprintln!("standard input: {error}");
        return;
    }
    let mut ram = [0u8; MEMORY];
    let mut eeprom = [0u8; MEMORY];
    match run(8_600, 8_600, 700_000, 1, &image, Fault::None, 400_000, &mut ram, &mut eeprom) {
        Err(n) => println!("refused {n}"),
        Ok(report) => {
            println!("pulses {}", report.pulses);
            println!("ones {}", report.ones);
            println!("zeros {}", report.zeros);
            println!("ticks {}", report.ticks);
            println!("host {}", report.host as u8);
            let ending = match report.chip {
                Some(chip::Ending::Launched) => "launched",
                Some(chip::Ending::Booted) => "booted",
                Some(chip::Ending::Shut) => "shut",
                Some(chip::Ending::Off) => "off",
                None => "listening",
            };
            println!("chip {ending}");
        }
    }
}
