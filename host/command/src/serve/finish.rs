//! When a busy chip is done: an event, and not time, that the user chooses.

use crate::numbers::number;

/// When the finish comes.
#[derive(Clone, Copy, Debug, PartialEq, Eq)]
pub enum Finish {
    /// After so many status reads that still see BUSY.
    AfterStatusReads(u32),
    /// After the transaction that leaves the chip busy.
    AtOnce,
}

/// The commands that read the status.
const STATUS_READS: [u8; 2] = [0x05, 0x35];

impl Finish {
    /// From the words of `--finish`.
    ///
    /// # Errors
    ///
    /// Words, where it is none.
    pub fn of(words: &[String]) -> Result<Finish, String> {
        let words: Vec<&str> = words.iter().map(String::as_str).collect();
        match words[..] {
            ["at-once"] => Ok(Finish::AtOnce),
            ["at-once", more] => Err(format!(
                "at-once has no number, and '{more}' is one word too many; the board stands \
                 before --finish"
            )),
            ["after-status-reads"] => Ok(Finish::AfterStatusReads(1)),
            ["after-status-reads", reads] => match number(reads)? {
                0 => Err("after-status-reads counts from 1; at-once is before them".to_string()),
                reads => Ok(Finish::AfterStatusReads(reads)),
            },
            _ => Err(format!(
                "'{}' is no after-status-reads N, and not at-once",
                words.join(" ")
            )),
        }
    }
}

/// What a busy chip still waits for.
#[derive(Clone, Copy, Debug)]
pub struct Waiting {
    finish: Finish,
    /// Status reads since BUSY rose.
    reads: u32,
}

impl Waiting {
    /// At the start of a session. Where BUSY rose before it, counting begins here.
    #[must_use]
    pub fn new(finish: Finish) -> Waiting {
        Waiting { finish, reads: 0 }
    }

    /// Whether the finish comes after a transaction with this first byte, from
    /// BUSY before and after it.
    pub fn is_over(&mut self, command: Option<&u8>, (before, after): (bool, bool)) -> bool {
        let read = before && command.is_some_and(|command| STATUS_READS.contains(command));
        self.reads = match before && after {
            true => self.reads.saturating_add(read.into()),
            false => 0,
        };
        after
            && match self.finish {
                Finish::AfterStatusReads(reads) => self.reads >= reads,
                Finish::AtOnce => true,
            }
    }
}

#[cfg(test)]
mod tests {
    use super::*;

    fn of(line: &str) -> Result<Finish, String> {
        let words: Vec<String> = line.split_whitespace().map(str::to_string).collect();
        Finish::of(&words)
    }

    #[test]
    fn the_words_are_taken_or_refused() {
        assert_eq!(of("at-once"), Ok(Finish::AtOnce));
        assert_eq!(of("after-status-reads"), Ok(Finish::AfterStatusReads(1)));
        assert_eq!(of("after-status-reads 7"), Ok(Finish::AfterStatusReads(7)));
        for bad in [
            "at-once 1",
            "after-status-reads 0",
            "after-status-reads x",
            "after-status-reads -1",
            "soon",
            "soon 1",
            "1",
        ] {
            assert!(of(bad).is_err(), "{bad}");
        }
    }

    /// Which of some transactions the finish follows; each is its first byte and
    /// whether it makes an idle chip busy.
    fn finishes(finish: Finish, mut busy: bool, sent: &[(u8, bool)]) -> Vec<usize> {
        let mut waiting = Waiting::new(finish);
        let mut after = Vec::new();
        for (place, (command, makes_busy)) in sent.iter().enumerate() {
            let before = busy;
            busy |= *makes_busy;
            if waiting.is_over(Some(command), (before, busy)) {
                after.push(place);
                busy = false;
            }
        }
        after
    }

    #[test]
    fn only_status_reads_of_a_busy_chip_count() {
        let sent = [
            (0x05, false),
            (0x02, true),
            (0x9F, false),
            (0x05, false),
            (0x35, false),
            (0x05, false),
            (0xC7, true),
            (0x35, false),
            (0x05, false),
        ];
        assert_eq!(finishes(Finish::AtOnce, false, &sent), [1, 6]);
        let after = Finish::AfterStatusReads;
        assert_eq!(finishes(after(1), false, &sent), [3, 7]);
        assert_eq!(finishes(after(2), false, &sent), [4, 8]);
        assert_eq!(finishes(after(3), false, &sent), [5]);
        assert_eq!(finishes(after(5), false, &sent), [8]);
        assert!(finishes(after(6), false, &sent).is_empty());
    }

    #[test]
    fn a_board_that_was_left_busy_is_done_too() {
        let sent = [(0x9F, false), (0x05, false), (0x05, false)];
        assert_eq!(finishes(Finish::AtOnce, true, &sent), [0]);
        assert_eq!(finishes(Finish::AfterStatusReads(1), true, &sent), [1]);
        assert_eq!(finishes(Finish::AfterStatusReads(2), true, &sent), [2]);
    }
}
