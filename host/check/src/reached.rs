//! What the calls have reached: a comparison that never met a number says
//! nothing about it.

use second::Meter;

/// The entries of the C interface.
#[derive(Clone, Copy, Debug, PartialEq, Eq)]
pub enum Entry {
    /// `tb_transact`
    Transact,
    /// `tb_finish`
    Finish,
    /// `tb_power_cycle`
    PowerCycle,
    /// `tb_count`
    Count,
    /// `tb_replay`
    Replay,
    /// `tb_replay_first`
    ReplayFirst,
    /// `tb_read`
    Read,
    /// `tb_translate`
    Translate,
    /// `tb_quote`
    Quote,
}

/// An entry, and every number that it can answer.
type Row = (Entry, &'static [u32]);

const CHIP: [Row; 7] = [
    (
        Entry::Transact,
        &[0, 10, 11, 12, 13, 14, 15, 16, 1, 2, 3, 4, 5, 6, 7],
    ),
    (Entry::Finish, &[0, 1, 3]),
    (Entry::PowerCycle, &[0, 1, 3]),
    (Entry::Count, &[0, 1, 7]),
    (Entry::Replay, &[0, 1, 2, 3, 30, 31, 7]),
    (Entry::ReplayFirst, &[0, 1, 2, 3, 30, 31, 7]),
    (Entry::Read, &[0, 30, 31]),
];

const JOBS: [Row; 2] = [
    (Entry::Translate, &[0, 1, 20, 21, 22, 23, 24, 25, 26]),
    (Entry::Quote, &[0, 1, 20, 21, 22, 23, 24, 25]),
];

/// The paper's codes; each must be carried out at least once.
const CODES: [u8; 17] = [
    0x06, 0x04, 0x05, 0x35, 0x01, 0x03, 0x0B, 0x02, 0x20, 0x52, 0xD8, 0xC7, 0x60, 0xB9, 0xAB, 0x90,
    0x9F,
];

const KINDS: [&str; 5] = ["transaction", "finish", "power cycle", "end", "fault"];

/// The counts of a meter; `tb_count` must raise each at least once.
const COUNTS: [&str; 4] = ["programs", "erases", "register_writes", "ignored"];

/// How many entries there are.
const ENTRIES: usize = 9;

/// How often each number of each entry was answered, and a little more.
#[derive(Clone, Debug)]
pub struct Reached {
    numbers: [[u64; 32]; ENTRIES],
    carried_out: [u64; 256],
    kinds: [u64; 5],
    raised: [u64; 4],
}

impl Default for Reached {
    fn default() -> Reached {
        Reached {
            numbers: [[0; 32]; ENTRIES],
            carried_out: [0; 256],
            kinds: [0; 5],
            raised: [0; 4],
        }
    }
}

impl Reached {
    /// An answer of an entry; numbers that are not the paper's are not kept.
    pub fn answered(&mut self, entry: Entry, number: u32) {
        if let Some(count) = self.numbers[entry as usize].get_mut(number as usize) {
            *count += 1;
        }
    }

    /// A transaction that was carried out, by its first byte.
    pub fn carried_out(&mut self, code: u8) {
        self.carried_out[usize::from(code)] += 1;
    }

    /// The kind of a record that was read.
    pub fn read(&mut self, kind: u32) {
        if let Some(count) = self.kinds.get_mut(kind as usize) {
            *count += 1;
        }
    }

    /// The meter before a count and after it.
    pub fn counted(&mut self, before: Meter, after: Meter) {
        let pairs = counts(before).into_iter().zip(counts(after));
        for (raised, (before, after)) in self.raised.iter_mut().zip(pairs) {
            *raised += u64::from(before != after);
        }
    }

    /// How often an entry was called.
    #[must_use]
    pub fn calls(&self, entry: Entry) -> u64 {
        self.numbers[entry as usize].iter().sum()
    }

    /// Everything that must be reached, with a name, and how often it was.
    #[must_use]
    pub fn goals(&self, jobs: bool) -> Vec<(String, u64)> {
        let rows = CHIP.iter().chain(JOBS.iter().filter(|_| jobs));
        let mut goals = Vec::new();
        for &(entry, numbers) in rows {
            let count = |number: u32| self.numbers[entry as usize][number as usize];
            goals.extend(
                numbers
                    .iter()
                    .map(|&n| (format!("{entry:?} {n}"), count(n))),
            );
        }
        let carried = |code: u8| self.carried_out[usize::from(code)];
        goals.extend(CODES.map(|code| (format!("carried out {code:02X}"), carried(code))));
        let kinds = KINDS.iter().zip(self.kinds);
        goals.extend(kinds.map(|(kind, count)| (format!("read {kind}"), count)));
        let raised = COUNTS.iter().zip(self.raised);
        goals.extend(raised.map(|(name, count)| (format!("Count raised {name}"), count)));
        goals
    }
}

fn counts(meter: Meter) -> [u32; 4] {
    [
        meter.programs,
        meter.erases,
        meter.register_writes,
        meter.ignored,
    ]
}

#[cfg(test)]
mod tests {
    use super::*;

    #[test]
    fn nothing_is_reached_before_it_is() {
        let mut reached = Reached::default();
        assert!(reached.goals(true).iter().all(|goal| goal.1 == 0));
        assert_eq!(reached.goals(true).len(), reached.goals(false).len() + 17);
        reached.answered(Entry::Replay, 31);
        reached.answered(Entry::Replay, 99);
        let met: Vec<_> = reached
            .goals(false)
            .into_iter()
            .filter(|goal| goal.1 > 0)
            .collect();
        assert_eq!(met, [("Replay 31".to_string(), 1)]);
        assert_eq!(reached.calls(Entry::Replay), 1);
    }

    #[test]
    fn a_count_is_raised_where_it_has_changed() {
        let mut reached = Reached::default();
        let (before, mut after) = (Meter::default(), Meter::default());
        reached.counted(before, after);
        assert_eq!(reached.raised, [0; 4]);
        (after.erases, after.ignored) = (1, 1);
        reached.counted(before, after);
        assert_eq!(reached.raised, [0, 1, 0, 1]);
        let goals = reached.goals(false);
        assert!(goals.contains(&("Count raised register_writes".to_string(), 0)));
        assert!(goals.contains(&("Count raised ignored".to_string(), 1)));
    }
}
