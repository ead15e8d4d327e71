//! An image cut into jobs: what has to be erased and laid, sector by sector.

use crate::job_text::{LARGEST_JOB, LARGEST_PAYLOAD, RECORD};
use crate::pool::sectors::SECTOR;
use tunebriar::{Step, Unit};

/// A job within the paper's limits.
#[derive(Debug, Default, PartialEq, Eq)]
pub struct Job {
    /// Records of 16 bytes, 64 at the most.
    pub records: Vec<u8>,
    /// What its lays are taken from, 65,536 bytes at the most.
    pub payload: Vec<u8>,
}

const PAGE: usize = 256;

impl Job {
    /// The address of a record.
    #[must_use]
    pub fn address(&self, index: u64) -> u32 {
        let record = self.records.chunks_exact(RECORD).nth(index as usize);
        record.map_or(0, |record| {
            u32::from_be_bytes([record[4], record[5], record[6], record[7]])
        })
    }
}

/// The jobs that make `wanted` of an array, in order.
#[must_use]
pub fn cut(array: &[u8], wanted: &[u8]) -> Vec<Job> {
    let mut jobs: Vec<Job> = Vec::new();
    let erases: Vec<bool> = array
        .chunks_exact(SECTOR)
        .zip(wanted.chunks_exact(SECTOR))
        .map(|(has, wants)| {
            has.iter()
                .zip(wants)
                .any(|(has, wants)| has & wants != *wants)
        })
        .collect();
    for (unit, address) in units(&erases) {
        put(&mut jobs, &[], |_| Step::Erase { unit, address });
    }
    for (place, erased) in erases.into_iter().enumerate() {
        let at = place * SECTOR;
        let has = if erased {
            &[0xFF; SECTOR]
        } else {
            &array[at..at + SECTOR]
        };
        lay(&mut jobs, at, has, &wanted[at..at + SECTOR]);
    }
    jobs
}

/// The erases of all marked sectors: whole blocks where all of one are marked.
fn units(sectors: &[bool]) -> Vec<(Unit, u32)> {
    let mut units = Vec::new();
    let address = |place: usize| (place * SECTOR) as u32;
    for (block, sectors) in sectors.chunks(16).enumerate() {
        if sectors.iter().all(|&marked| marked) {
            units.push((Unit::Block, address(16 * block)));
            continue;
        }
        for (half, sectors) in sectors.chunks(8).enumerate() {
            let first = 16 * block + 8 * half;
            if sectors.iter().all(|&marked| marked) {
                units.push((Unit::HalfBlock, address(first)));
                continue;
            }
            let marked = (first..).zip(sectors).filter(|(_, marked)| **marked);
            units.extend(marked.map(|(place, _)| (Unit::Sector, address(place))));
        }
    }
    units
}

/// The lays of a sector: runs of pages that differ.
fn lay(jobs: &mut Vec<Job>, at: usize, has: &[u8], wants: &[u8]) {
    let pages = has.chunks_exact(PAGE).zip(wants.chunks_exact(PAGE));
    let differ: Vec<bool> = pages.map(|(has, wants)| has != wants).collect();
    let mut page = 0;
    while page < differ.len() {
        let run = differ[page..]
            .iter()
            .take_while(|&&differs| differs)
            .count();
        if run > 0 {
            let bytes = &wants[page * PAGE..(page + run) * PAGE];
            put(jobs, bytes, |offset| Step::Lay {
                address: (at + page * PAGE) as u32,
                length: bytes.len() as u32,
                offset,
            });
        }
        page += run.max(1);
    }
}

/// One more step, in a new job where the last one has no room.
fn put(jobs: &mut Vec<Job>, bytes: &[u8], step: impl Fn(u32) -> Step) {
    let room = jobs.last().is_some_and(|job| {
        job.records.len() < LARGEST_JOB && job.payload.len() + bytes.len() <= LARGEST_PAYLOAD
    });
    if !room {
        jobs.push(Job::default());
    }
    if let Some(job) = jobs.last_mut() {
        let record = step(job.payload.len() as u32).record();
        job.records.extend(record);
        job.payload.extend(bytes);
    }
}

#[cfg(test)]
mod tests {
    use super::*;
    use crate::chip::Chip;
    use crate::translate::translated;
    use tunebriar::{SIZE, State};

    /// Plays the jobs on an array; programs and erases.
    fn played(array: &[u8], jobs: &[Job]) -> (Vec<u8>, u32, u32) {
        let mut chip = Chip::erased(State::default());
        for (place, sector) in array.chunks_exact(SECTOR).enumerate() {
            chip.fill(place, sector);
        }
        for job in jobs {
            let done = translated(0, &job.records, &job.payload).expect("a good job");
            let outcome = chip.play(&done.tape).expect("a good tape");
            assert_eq!(outcome.rise.ignored, 0);
        }
        let meter = chip.state.meter;
        (chip.array().to_vec(), meter.programs, meter.erases)
    }

    fn check(array: &[u8], wanted: &[u8], programs: u32, erases: u32) {
        let came = played(array, &cut(array, wanted));
        assert!(came.0 == wanted);
        assert_eq!((came.1, came.2), (programs, erases));
    }

    #[test]
    fn every_array_becomes_the_wanted_one_at_the_least_cost() {
        let erased = vec![0xFF; SIZE];
        let full: Vec<u8> = (0..SIZE).map(|place| (place % 251) as u8).collect();
        check(&erased, &erased, 0, 0);
        check(&full, &full, 0, 0);
        check(&erased, &full, 8_192, 0);
        check(&full, &erased, 0, 32);
        let mut one = full.clone();
        one[0x12345] = 0xFF;
        check(&full, &one, 16, 1);
        one[0x12345] = full[0x12345] & 0x0F;
        check(&full, &one, 1, 0);
        let mut half = full.clone();
        half[0x8000..0x10000].fill(0xFF);
        check(&full, &half, 0, 1);
    }
}
