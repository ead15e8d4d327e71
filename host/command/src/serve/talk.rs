//! What is said in a session: commands are heard, carried out and answered.

use super::end::End;
use super::protocol::{ACK, Command, NAK, Parser};
use super::session::Session;
use super::wire::Wire;

/// Bytes that are heard at a time; their answers are said before the next.
const AT_ONCE: usize = 4_096;
/// Unknown opcodes in a row that no serprog client sends.
const STRANGE: usize = 16;

/// Talks until the session ends; why it did.
pub fn talk(wire: &Wire, session: &mut Session) -> End {
    let mut talk = Talk {
        session,
        parser: Parser::default(),
        unknown: 0,
    };
    let mut heard = [0; AT_ONCE];
    loop {
        let said = match wire.hear(&mut heard) {
            Ok(count) => talk.over(wire, &heard[..count]),
            Err(End::Gone) if talk.parser.inside() => Err(End::Cut),
            Err(end) => Err(end),
        };
        if let Err(end) = said {
            return end;
        }
    }
}

struct Talk<'a> {
    session: &'a mut Session,
    parser: Parser,
    /// Unknown opcodes in a row.
    unknown: usize,
}

impl Talk<'_> {
    /// Carries out what was heard, and says the answers.
    fn over(&mut self, wire: &Wire, bytes: &[u8]) -> Result<(), End> {
        let mut answers = Vec::new();
        let done = self.heard(bytes, &mut answers);
        let said = wire.say(&answers);
        done.and(said)
    }

    fn heard(&mut self, bytes: &[u8], answers: &mut Vec<u8>) -> Result<(), End> {
        for &byte in bytes {
            if let Some(command) = self.parser.push(byte) {
                self.one(command, answers)?;
            }
        }
        Ok(())
    }

    fn one(&mut self, command: Command, answers: &mut Vec<u8>) -> Result<(), End> {
        self.unknown = match command {
            Command::Unknown => self.unknown + 1,
            _ => 0,
        };
        match command {
            Command::Plain(answer) => answers.extend(answer),
            Command::Operation { sent, read } => match self.session.operate(&sent, read) {
                Ok(out) => answers.extend([&[ACK], &out[..]].concat()),
                Err(end) => {
                    answers.push(NAK);
                    return Err(end);
                }
            },
            Command::Unknown => answers.push(NAK),
        }
        match self.unknown < STRANGE {
            true => Ok(()),
            false => Err(End::Strange),
        }
    }
}

#[cfg(test)]
mod tests;
