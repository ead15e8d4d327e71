//! The tapes that are played.

use check::SIZE;
use check::bytes::{at, done, finish, program, sent};
use check::rng::Rng;

/// Commands of a tape of one kind.
const COMMANDS: usize = 4_096;

/// A tape and what it is made of.
pub struct Tape {
    pub name: &'static str,
    pub bytes: Vec<u8>,
}

/// All tapes, from one seed.
pub fn all() -> Vec<Tape> {
    let mut rng = Rng::new(11, "bench", 0);
    let tape = |name, bytes| Tape { name, bytes };
    vec![
        tape(
            "erases of 4 KB",
            commands(&mut rng, |rng| at(0x20, anywhere(rng))),
        ),
        tape("full pages", commands(&mut rng, page)),
        tape(
            "single bytes",
            commands(&mut rng, |rng| program(anywhere(rng), &rng.bytes(1))),
        ),
        tape(
            "reads of 256",
            (0..3 * COMMANDS).flat_map(|_| read(&mut rng)).collect(),
        ),
        tape("a mix", (0..128).flat_map(|_| work(&mut rng)).collect()),
    ]
}

fn anywhere(rng: &mut Rng) -> u32 {
    rng.below(SIZE) as u32
}

/// As a translator writes them: 06, the command, finish.
fn commands(rng: &mut Rng, one: impl Fn(&mut Rng) -> Vec<u8>) -> Vec<u8> {
    (0..COMMANDS).flat_map(|_| done(&one(rng))).collect()
}

fn page(rng: &mut Rng) -> Vec<u8> {
    program(anywhere(rng) & !255, &rng.bytes(256))
}

fn read(rng: &mut Rng) -> Vec<u8> {
    sent(&[&at(0x03, anywhere(rng))[..], &[0; 256]].concat())
}

/// A piece of ordinary work: erase a sector, fill it page by page with a look
/// at the status meanwhile, change a few bytes, read some of it back, guard.
fn work(rng: &mut Rng) -> Vec<u8> {
    let sector = anywhere(rng) & !4_095;
    let mut tape = done(&at(0x20, sector));
    for page in (sector..sector + 4_096).step_by(256) {
        tape.extend(sent(&[0x06]));
        tape.extend(sent(&program(page, &rng.bytes(256))));
        tape.extend(sent(&[0x05, 0]));
        tape.extend(finish());
    }
    for _ in 0..8 {
        let length = 1 + rng.below(16);
        tape.extend(done(&program(anywhere(rng), &rng.bytes(length))));
    }
    tape.extend((0..8).flat_map(|_| read(rng)));
    tape.extend(done(&[0x01, 0x04, 0x00]));
    tape.extend(done(&[0x01, 0x00, 0x00]));
    tape
}
