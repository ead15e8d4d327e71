//! A host that lends the chip an array, and builders for jobs and tapes.

use second::{Answer, Meter, Regs, Tape, count, transact, translate};

pub const SIZE: usize = 2_097_152;
pub const FULL: u32 = 4_294_967_295;
pub const WEL: u32 = 2;

/// What a caller keeps between transactions.
pub struct Host {
    pub part: u32,
    pub regs: Regs,
    pub meter: Meter,
    pub leftover: u32,
    pub wp: u32,
    pub array: Vec<u8>,
    pub out: Vec<u8>,
}

impl Host {
    /// Awake, /WP high, no leftover bits, every byte FF.
    pub fn new(status: u32) -> Host {
        Host {
            part: 1,
            regs: Regs { status, awake: 1 },
            meter: Meter::default(),
            leftover: 0,
            wp: 1,
            array: vec![0xFF; SIZE],
            out: Vec::new(),
        }
    }

    pub fn asleep(status: u32) -> Host {
        let mut host = Host::new(status);
        host.regs.awake = 0;
        host
    }

    /// One transaction with an output of exactly its size; counting by its
    /// answer must come to the same meter.
    pub fn send(&mut self, bytes: &[u8]) -> Answer {
        self.out = vec![0x55; bytes.len()];
        let answer = transact(
            self.part,
            self.regs,
            self.meter,
            self.leftover,
            self.wp,
            &mut self.array,
            &mut self.out,
            bytes,
        );
        // Where no byte was sent, one that would count must not.
        let op = bytes.first().map_or(0x02, |&byte| u32::from(byte));
        count(self.part, &mut self.meter, answer.number, op);
        assert_eq!(self.meter, answer.meter, "{} {op:02X}", answer.number);
        self.regs = answer.regs;
        self.meter = answer.meter;
        answer
    }

    /// The verdict alone.
    pub fn verdict(&mut self, bytes: &[u8]) -> u32 {
        self.send(bytes).number
    }
}

/// A command with its three address bytes.
pub fn at(code: u8, address: u32) -> Vec<u8> {
    let [_, high, middle, low] = address.to_be_bytes();
    vec![code, high, middle, low]
}

/// A page program.
pub fn program(address: u32, data: &[u8]) -> Vec<u8> {
    [at(0x02, address), data.to_vec()].concat()
}

fn job_record(kind: u8, byte_1: u8, words: [u32; 3]) -> Vec<u8> {
    let mut record = vec![kind, byte_1, 0, 0];
    record.extend(words.iter().flat_map(|word| word.to_be_bytes()));
    record
}

pub fn erase(which: u8, address: u32) -> Vec<u8> {
    job_record(1, which, [address, 0, 0])
}

pub fn lay(address: u32, length: u32, offset: u32) -> Vec<u8> {
    job_record(2, 0, [address, length, offset])
}

pub fn guard(setting: u8) -> Vec<u8> {
    job_record(3, setting, [0; 3])
}

/// A tape record with its bytes, zero-filled.
pub fn tape_record(kind: u8, byte_3: u8, bytes: &[u8]) -> Vec<u8> {
    let mut record = vec![0; 264];
    record[..2].copy_from_slice(&(bytes.len() as u16).to_be_bytes());
    record[2] = kind;
    record[3] = byte_3;
    record[4..4 + bytes.len()].copy_from_slice(bytes);
    record
}

/// The tape of a job that must be accepted.
pub fn tape_of(setting: u32, job: &[u8], payload: &[u8]) -> Vec<u8> {
    let mut tape = vec![0x55; 900_000];
    let Tape {
        number,
        index,
        length,
    } = translate(1, setting, job, payload, &mut tape);
    assert_eq!((number, index), (0, 0));
    assert!(tape[length as usize..].iter().all(|&byte| byte == 0x55));
    tape.truncate(length as usize);
    tape
}

/// SplitMix64: a fixed seed, so that a failure can be repeated.
pub struct Rng(pub u64);

impl Rng {
    pub fn next(&mut self) -> u64 {
        self.0 = self.0.wrapping_add(0x9E37_79B9_7F4A_7C15);
        let mut z = self.0;
        z = (z ^ (z >> 30)).wrapping_mul(0xBF58_476D_1CE4_E5B9);
        z = (z ^ (z >> 27)).wrapping_mul(0x94D0_49BB_1331_11EB);
        z ^ (z >> 31)
    }

    pub fn below(&mut self, limit: u64) -> u64 {
        self.next() % limit
    }

    pub fn pick<T: Copy>(&mut self, from: &[T]) -> T {
        from[self.below(from.len() as u64) as usize]
    }

    pub fn one_in(&mut self, many: u64) -> bool {
        self.below(many) == 0
    }

    pub fn bytes(&mut self, count: usize) -> Vec<u8> {
        (0..count).map(|_| self.next() as u8).collect()
    }

    /// An address, as often as not near the edge of some area.
    pub fn address(&mut self) -> u32 {
        let edges: [u32; 12] = [
            0x00_0000, 0x00_1000, 0x00_4000, 0x00_8000, 0x01_0000, 0x08_0000, 0x10_0000, 0x18_0000,
            0x1F_0000, 0x1F_8000, 0x1F_E000, 0x1F_F000,
        ];
        let near = self.pick(&edges).wrapping_add(self.below(600) as u32);
        let any = self.below(SIZE as u64) as u32;
        let chosen = if self.one_in(2) {
            near.wrapping_sub(300)
        } else {
            any
        };
        chosen % SIZE as u32
    }
}

/// Four counts, in the meter's order.
pub fn meter(counts: [u32; 4]) -> Meter {
    let [programs, erases, register_writes, ignored] = counts;
    Meter {
        programs,
        erases,
        register_writes,
        ignored,
    }
}
