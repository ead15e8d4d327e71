//! The book's form: its tables, and how an older book becomes a new one.

use crate::error::Error;
use rusqlite::{Connection, TransactionBehavior};

/// What tells a pool from other SQLite files: `TUNE`.
const APPLICATION: i32 = 0x5455_4E45;

/// What leads from each form to the next; a book's form is how many of them it
/// has seen.
const STEPS: &[&str] = &[include_str!("1.sql")];

/// Lays out a book that is empty.
///
/// # Errors
///
/// Where it is not.
pub fn lay_out(book: &mut Connection) -> Result<(), Error> {
    let book = book.transaction_with_behavior(TransactionBehavior::Immediate)?;
    let tables: i64 = book.query_row("SELECT count(*) FROM sqlite_schema", [], |row| row.get(0))?;
    if tables > 0 {
        return Err(Error::wrong("is there already"));
    }
    book.pragma_update(None, "application_id", APPLICATION)?;
    take(&book, STEPS, 0)?;
    Ok(book.commit()?)
}

/// Brings an older book up to today's form.
///
/// # Errors
///
/// Where it is no pool, or one of a newer command.
pub fn bring_up(book: &mut Connection) -> Result<(), Error> {
    bring_up_to(book, STEPS)
}

fn bring_up_to(book: &mut Connection, steps: &[&str]) -> Result<(), Error> {
    let number = |name: &str| book.pragma_query_value(None, name, |row| row.get::<_, i32>(0));
    if number("application_id")? != APPLICATION {
        return Err(Error::wrong("this is no pool"));
    }
    let form = number("user_version")? as usize;
    if form > steps.len() {
        let words = format!(
            "this pool has form {form}, and this command knows {}",
            steps.len()
        );
        return Err(Error::wrong(words));
    }
    if form < steps.len() {
        let book = book.transaction_with_behavior(TransactionBehavior::Immediate)?;
        // Another call may have been faster.
        let form: i32 = book.pragma_query_value(None, "user_version", |row| row.get(0))?;
        take(&book, steps, form as usize)?;
        book.commit()?;
    }
    Ok(())
}

fn take(book: &Connection, steps: &[&str], form: usize) -> Result<(), Error> {
    for step in steps.iter().skip(form) {
        book.execute_batch(step)?;
    }
    Ok(book.pragma_update(None, "user_version", steps.len() as i32)?)
}

#[cfg(test)]
mod tests {
    use super::*;

    fn form(book: &Connection) -> i32 {
        book.pragma_query_value(None, "user_version", |row| row.get(0))
            .expect("a number")
    }

    #[test]
    fn an_older_book_is_brought_up_once_and_a_newer_one_is_told() {
        let mut book = Connection::open_in_memory().expect("a book");
        lay_out(&mut book).expect("laid out");
        let steps = [STEPS[0], "ALTER TABLE board ADD COLUMN place TEXT;"];
        for _ in 0..2 {
            bring_up_to(&mut book, &steps).expect("brought up");
            assert_eq!(form(&book), 2);
        }
        book.query_row("SELECT count(place) FROM board", [], |_| Ok(()))
            .expect("the new column");
        let words = bring_up(&mut book).expect_err("too new").to_string();
        assert!(words.contains("form 2"), "{words}");
    }

    #[test]
    fn a_step_that_fails_leaves_the_old_form() {
        let mut book = Connection::open_in_memory().expect("a book");
        lay_out(&mut book).expect("laid out");
        let steps = [STEPS[0], "CREATE TABLE half (id INTEGER); no step;"];
        assert!(bring_up_to(&mut book, &steps).is_err());
        assert_eq!(form(&book), 1);
        assert!(book.prepare("SELECT * FROM half").is_err());
    }

    #[test]
    fn what_is_no_pool_is_told() {
        let mut book = Connection::open_in_memory().expect("a book");
        assert!(bring_up(&mut book).is_err());
        book.execute_batch("CREATE TABLE other (id INTEGER)")
            .expect("a table");
        assert!(lay_out(&mut book).is_err());
    }
}
