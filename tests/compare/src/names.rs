//! Names of segments against the second program, read and made: answer, `out`, every byte of the
//! name's buffer.

use crate::ffi::{names, Answer};
use crate::rng::Rng;
use crate::twin::Twin;
use crate::{Group, Outcome};
use reference::refusal::{Refusal, NO_ROOM};
use reference::version::{make_name, parse_name};

pub fn groups() -> Vec<Group> {
    vec![
        ("names, every sequence", compare_sequences),
        ("names, every byte", compare_bytes),
        ("names, of every shape", compare_shapes),
        ("names, made of any numbers", compare_made),
    ]
}

/// Bytes of the longest buffer.
const ROOM: usize = 40;

struct Names {
    name: Twin,
    cases: u64,
}

impl Names {
    fn new(rng: &mut Rng) -> Names {
        let name = Twin::new(rng, ROOM);
        Names { name, cases: 0 }
    }

    /// Reads a name.
    fn parse(&mut self, name: &[u8]) -> Result<Answer<2>, String> {
        self.name.put(name);
        let (ours, theirs) = self.name.both(0..name.len());
        let got = names::parse(ours);
        let wanted = match parse_name(theirs) {
            Ok(name) => Answer::new(0, [name.sequence, name.version.number()]),
            Err(Refusal { number, place }) => Answer::new(number, [place as u64, 0]),
        };
        self.compare(got, wanted, || format!("the name {}", name.escape_ascii()))
    }

    /// Makes a name in the first `room` bytes.
    fn make(&mut self, sequence: u64, version: u64, room: usize) -> Result<Answer<2>, String> {
        let (ours, theirs) = self.name.both(0..room);
        let got = names::make(sequence, version, ours);
        let wanted = match make_name(sequence, version, theirs) {
            Ok(length) => Answer::new(0, [length as u64, 0]),
            Err(Refusal { number, place }) => Answer::new(number, [0, place as u64]),
        };
        self.compare(got, wanted, || {
            format!("a name of {sequence} and {version} in {room} bytes")
        })
    }

    fn compare(
        &mut self,
        got: Answer<2>,
        wanted: Answer<2>,
        what: impl Fn() -> String,
    ) -> Result<Answer<2>, String> {
        self.cases += 1;
        if got != wanted {
            return Err(format!("{}: got {got:?}, wanted {wanted:?}", what()));
        }
        if !self.name.equal_to(usize::MAX) {
            let place = self.name.first_difference();
            return Err(format!("{}: the buffer differs at {place:?}", what()));
        }
        Ok(got)
    }
}

/// Every name that is ever written, made with just the room that it needs and read again.
fn compare_sequences(rng: &mut Rng) -> Outcome {
    let mut names = Names::new(rng);
    for sequence in 0..1_000_000 {
        let version = 1 + sequence % 2;
        let length = names.make(sequence, version, 9)?.out[0] as usize;
        let name = names.name.bytes(0..length).to_vec();
        let parsed = names.parse(&name)?;
        if parsed != Answer::new(0, [sequence, version]) {
            return Err(format!("{sequence} of version {version}: {parsed:?}"));
        }
    }
    Ok(names.cases)
}

/// Names with every byte in every place, cut at every length, and with a byte more.
fn compare_bytes(rng: &mut Rng) -> Outcome {
    let mut names = Names::new(rng);
    for name in [
        "000000",
        "999999-v1",
        "123456-v2",
        "000001-v10",
        "000001-v02",
    ] {
        let name = name.as_bytes();
        for place in 0..=name.len() {
            names.parse(&name[..place])?;
            for byte in 0..=255 {
                let mut longer = name.to_vec();
                longer.insert(place, byte);
                names.parse(&longer)?;
                if place < name.len() {
                    let mut changed = name.to_vec();
                    changed[place] = byte;
                    names.parse(&changed)?;
                }
            }
        }
    }
    Ok(names.cases)
}

/// Digits of any number, a separator of any kind, a version of any number; or a few bytes such as
/// names have.
fn compare_shapes(rng: &mut Rng) -> Outcome {
    let mut names = Names::new(rng);
    let mut good = 0;
    for _ in 0..200_000 {
        let mut name = match rng.below(4) {
            0 => some_bytes(rng),
            _ => shaped(rng).into_bytes(),
        };
        name.truncate(ROOM);
        good += u64::from(names.parse(&name)?.number == 0);
    }
    match good {
        0 => Err("no name was good".to_string()),
        _ => Ok(names.cases),
    }
}

fn shaped(rng: &mut Rng) -> String {
    let sequence = rng.number() % 10_u64.pow(rng.below(9) as u32);
    let width = rng.pick(&[6, 6, 6, 6, 5, 7, 1, 8]);
    let separator = rng.pick(&[
        "-v", "-v", "-v", "-v", "", "-", "v", "-V", "_v", "--v", "-v-", "-v+",
    ]);
    let version = match rng.below(8) {
        0 => String::new(),
        1 => format!("0{}", rng.below(4)),
        // Numbers that are 1 or 2 modulo 2^8, 2^16, 2^32 and 2^64.
        2 => {
            let power = 1 << rng.pick(&[8, 16, 32, 64]);
            format!("{}", power + u128::from(rng.pick(&[1_u8, 2])))
        }
        3 => format!("{}", rng.number()),
        _ => format!("{}", rng.below(5)),
    };
    format!("{sequence:0width$}{separator}{version}")
}

fn some_bytes(rng: &mut Rng) -> Vec<u8> {
    let length = rng.below(14);
    let mut bytes: Vec<u8> = (0..length).map(|_| b'0' + rng.byte() % 10).collect();
    for _ in 0..rng.below(3).min(length) {
        let place = rng.below(length);
        bytes[place] = rng.pick(b"-v/:. \0\xB0");
    }
    bytes
}

/// Any numbers, into buffers of every length around those that are needed.
fn compare_made(rng: &mut Rng) -> Outcome {
    let mut names = Names::new(rng);
    let mut short = 0;
    for _ in 0..200_000 {
        if rng.once_in(50) {
            names.name.refill(rng);
        }
        let sequence = match rng.below(4) {
            0 => rng.number() >> rng.below(64),
            1 => 1_000_002 - rng.below(5) as u64,
            2 => 10_u64.pow(rng.below(20) as u32),
            _ => rng.below(1_000_000) as u64,
        };
        let version = match rng.below(8) {
            0 => rng.number() >> rng.below(64),
            1 => rng.pick(&[1, 2]) | 1 << (8 + rng.below(56)),
            2 => rng.below(5) as u64,
            _ => rng.pick(&[1, 2]),
        };
        let room = rng.below(12);
        short += u64::from(names.make(sequence, version, room)?.number == NO_ROOM);
    }
    match short {
        0 => Err("no buffer was too short".to_string()),
        _ => Ok(names.cases),
    }
}
