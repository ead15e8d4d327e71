//! Named checks, one line each, and their tally.

use crate::Checked;
use crate::options::Options;
use crate::twin::Twin;

/// The checks so far.
#[derive(Debug)]
pub struct Suite {
    /// What was asked for.
    pub options: Options,
    /// Both emulators.
    pub twin: Twin,
    passed: u64,
    failed: u64,
}

impl Suite {
    /// Nothing checked yet.
    #[must_use]
    pub fn new(options: Options) -> Suite {
        let twin = Twin::new(options.every);
        Suite {
            options,
            twin,
            passed: 0,
            failed: 0,
        }
    }

    /// One named check, if it is asked for. Every check ends with a comparison
    /// of the whole array.
    pub fn check(&mut self, name: &str, run: impl FnOnce(&mut Twin) -> Checked) {
        if !self.options.wants(name) {
            return;
        }
        let found = run(&mut self.twin).and_then(|()| self.twin.whole());
        self.note(name, found);
    }

    /// The outcome of a check that was made elsewhere.
    pub fn note(&mut self, name: &str, found: Checked) {
        match found {
            Ok(()) => {
                self.passed += 1;
                println!("ok    {name}");
            }
            Err(found) => {
                self.failed += 1;
                println!("FAIL  {name}: {found}");
                self.twin.renew(self.options.every);
            }
        }
    }

    /// Whether some check was made and none has failed.
    #[must_use]
    pub fn good(&self) -> bool {
        self.passed > 0 && self.failed == 0
    }

    /// The last line.
    #[must_use]
    pub fn tally(&self) -> String {
        format!("{} passed, {} failed", self.passed, self.failed)
    }
}
