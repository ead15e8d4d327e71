//! Prices as people write them: a text of `KEY = VALUE`.

use super::letters;
use super::money::{Money, PLACES};
use super::prices::Prices;
use crate::error::Error;
use crate::files;
use crate::numbers::grouped;
use std::fmt::Write;
use std::path::Path;

const KEYS: [&str; 6] = [
    "currency",
    "decimals",
    "program",
    "erase",
    "register-write",
    "ignored",
];
/// The highest price of one, in whole units of the currency.
const HIGHEST: u64 = 1_000_000_000;
/// Columns that the currency may take; it stands at the head of tables.
const WIDEST: usize = 16;
/// Decimals of an amount where the text says nothing.
const DECIMALS: u32 = 2;

impl Prices {
    /// The prices of a file: see [`Prices::of_text`].
    ///
    /// # Errors
    ///
    /// Where it cannot be read or understood.
    pub fn read(path: &Path) -> Result<Prices, Error> {
        Prices::of_text(path, &files::text(path)?)
    }

    /// The prices of a text that came from `path`: `currency = EUR`, then
    /// `program`, `erase`, `register-write` and `ignored`, each with a decimal
    /// number, and perhaps `decimals`. A `#` that begins a word begins a
    /// comment. A byte order mark and carriage returns at line ends are taken.
    ///
    /// # Errors
    ///
    /// The path, the line and what is wrong with it.
    pub fn of_text(path: &Path, text: &str) -> Result<Prices, Error> {
        let fields = fields(path, text)?;
        let price = |key| value(path, &fields, key, price);
        Ok(Prices {
            currency: value(path, &fields, "currency", currency)?,
            decimals: match fields.iter().any(|(_, key, _)| *key == "decimals") {
                true => value(path, &fields, "decimals", decimals)?,
                false => DECIMALS,
            },
            program: price("program")?,
            erase: price("erase")?,
            register_write: price("register-write")?,
            ignored: price("ignored")?,
        })
    }

    /// The text that gives these prices again.
    #[must_use]
    pub fn text(&self) -> String {
        let (currency, decimals) = (&self.currency, self.decimals);
        let mut text = format!("currency = {currency}\ndecimals = {decimals}\n");
        for (key, price) in KEYS.iter().skip(2).zip(self.each()) {
            let _ = writeln!(text, "{key} = {}", price.bare(self.exact()));
        }
        text
    }
}

/// A line's number, its key and its value.
type Field<'a> = (usize, &'a str, &'a str);

/// The fields of a text, each key once.
fn fields<'a>(path: &Path, text: &'a str) -> Result<Vec<Field<'a>>, Error> {
    let mut fields: Vec<Field<'a>> = Vec::new();
    let text = text.strip_prefix('\u{FEFF}').unwrap_or(text);
    for (line, content) in (1..).zip(text.lines()) {
        let content = without_comment(content).trim();
        if !content.is_empty() {
            let field = field(&fields, line, content);
            fields.push(field.map_err(|words| Error::line(path, line, words))?);
        }
    }
    Ok(fields)
}

/// A comment begins with a `#` at the beginning of a word, so `C#` has none.
fn without_comment(content: &str) -> &str {
    let mut blank = true;
    for (place, letter) in content.char_indices() {
        if letter == '#' && blank {
            return &content[..place];
        }
        blank = letter.is_whitespace();
    }
    content
}

fn field<'a>(fields: &[Field], line: usize, content: &'a str) -> Result<Field<'a>, String> {
    let unfit = |letter: &char| letters::unfit(*letter) && *letter != '\t';
    if let Some(letter) = content.chars().find(unfit) {
        let number = u32::from(letter);
        return Err(format!("U+{number:04X} stands in it, a control character"));
    }
    let Some((key, value)) = content.split_once('=') else {
        return Err(format!("'{content}' is not KEY = VALUE"));
    };
    let (key, value) = (key.trim(), value.trim());
    if !KEYS.contains(&key) {
        return Err(format!("'{key}' is none of {}", KEYS.join(", ")));
    }
    match fields.iter().find(|(_, known, _)| *known == key) {
        Some((before, ..)) => Err(format!("'{key}' stands in line {before} already")),
        None if value.is_empty() => Err(format!("'{key}' is empty")),
        None => Ok((line, key, value)),
    }
}

/// The value of a key, as `meant` understands it.
fn value<T>(
    path: &Path,
    fields: &[Field],
    key: &str,
    meant: impl Fn(&str) -> Result<T, String>,
) -> Result<T, Error> {
    let found = fields.iter().find(|(_, known, _)| *known == key);
    let Some((line, _, value)) = found else {
        return Err(Error::file(path, format!("'{key}' is missing")));
    };
    meant(value).map_err(|words| Error::line(path, *line, words))
}

fn currency(word: &str) -> Result<String, String> {
    match letters::width(word) {
        _ if word.contains('\t') => Err("a tab stands in the currency".to_string()),
        0 => Err(format!("'{word}' is no currency: it shows nothing")),
        1..=WIDEST => Ok(word.to_string()),
        _ => Err(format!("'{word}' is over {WIDEST} columns wide")),
    }
}

fn decimals(word: &str) -> Result<u32, String> {
    let number = word.parse().ok().filter(|number| *number <= PLACES);
    number.ok_or_else(|| format!("'{word}' is none of 0 to {PLACES}"))
}

/// A decimal number of at most six places, and at most a thousand million.
fn price(word: &str) -> Result<Money, String> {
    let places = PLACES as usize;
    let (whole, part) = word.split_once('.').unwrap_or((word, "0"));
    let digits = |text: &str| !text.is_empty() && text.bytes().all(|digit| digit.is_ascii_digit());
    if !digits(whole) || !digits(part) || part.len() > places {
        return Err(format!(
            "'{word}' is no price: digits, and at most six after a point"
        ));
    }
    let over = || format!("{word} is over the highest price, {}", grouped(HIGHEST));
    let highest = HIGHEST * 10_u64.pow(PLACES);
    let number = format!("{whole}{part:0<places$}").parse().ok();
    let number = number.filter(|number| *number <= highest);
    number.and_then(Money::new).ok_or_else(over)
}

#[cfg(test)]
mod tests {
    use super::*;

    const GOOD: &str =
        "currency = EUR\nprogram = 0.02\nerase = 0.35\nregister-write = 0.05\nignored = 0\n";

    fn read(text: &str) -> Result<Prices, String> {
        let read = Prices::of_text(Path::new("prices.txt"), text);
        read.map_err(|error| error.to_string())
    }

    #[test]
    fn prices_are_exact() {
        let prices = read(GOOD).expect("prices");
        assert_eq!(prices.decimals, 2);
        let millionths = prices.each().map(Money::millionths);
        assert_eq!(millionths, [20_000, 350_000, 50_000, 0]);
        for (word, millionths) in [
            ("12", 12_000_000),
            ("0.000001", 1),
            ("1000000000", 1_000_000_000_000_000),
            ("1000000000.000000", 1_000_000_000_000_000),
        ] {
            assert_eq!(price(word).map(Money::millionths), Ok(millionths));
        }
    }

    #[test]
    fn any_line_ends_marks_and_comments_are_taken() {
        let prices = read(GOOD).expect("prices");
        let windows = GOOD.replace('\n', "\r\n").replace("0.35", "0.35\t# a unit");
        assert_eq!(
            read(&format!("\u{FEFF}# ours\r\n\r\n{windows}")),
            Ok(prices)
        );
        let sharp = read(&GOOD.replace("EUR", "C# points # two")).expect("prices");
        assert_eq!(sharp.currency, "C# points");
    }

    #[test]
    fn the_text_of_prices_gives_them_again() {
        for text in [
            GOOD.to_string(),
            GOOD.replace("0.05", "0.000001"),
            format!("{GOOD}decimals = 0\n"),
        ] {
            let prices = read(&text).expect("prices");
            assert_eq!(read(&prices.text()), Ok(prices));
        }
        let text = read(&GOOD.replace("0.05", "0.125")).expect("prices").text();
        assert_eq!(
            text,
            "currency = EUR\ndecimals = 2\nprogram = 0.020\nerase = 0.350\n\
             register-write = 0.125\nignored = 0.000\n"
        );
    }

    /// What is changed in a good text, into what, and what is then said.
    const WRONG: &[(&str, &str, &str)] = &[
        (
            "0.35",
            ".5",
            "line 3: '.5' is no price: digits, and at most six after a point",
        ),
        (
            "0.35",
            "0,35",
            "line 3: '0,35' is no price: digits, and at most six after a point",
        ),
        (
            "0.35",
            "-1",
            "line 3: '-1' is no price: digits, and at most six after a point",
        ),
        (
            "0.35",
            "0.1234567",
            "line 3: '0.1234567' is no price: digits, and at most six after a point",
        ),
        (
            "0.35",
            "1000000000.000001",
            "line 3: 1000000000.000001 is over the highest price, 1,000,000,000",
        ),
        (
            "0.35",
            "99999999999999999999",
            "line 3: 99999999999999999999 is over the highest price, 1,000,000,000",
        ),
        ("0.35", "# none", "line 3: 'erase' is empty"),
        ("EUR", "", "line 1: 'currency' is empty"),
        (
            "EUR",
            "\u{200B}",
            "line 1: '\u{200B}' is no currency: it shows nothing",
        ),
        (
            "EUR",
            "E\u{7}",
            "line 1: U+0007 stands in it, a control character",
        ),
        ("EUR", "E\tR", "line 1: a tab stands in the currency"),
        (
            "EUR",
            "\u{202E}R",
            "line 1: U+202E stands in it, a control character",
        ),
        (
            "EUR",
            "研究研究研究研究研",
            "line 1: '研究研究研究研究研' is over 16 columns wide",
        ),
        (
            "EUR",
            "EUR\rprogram = 1",
            "line 1: U+000D stands in it, a control character",
        ),
        ("EUR", "EUR\ndecimals = 7", "line 2: '7' is none of 0 to 6"),
        (
            "erase =",
            "erase",
            "line 3: 'erase 0.35' is not KEY = VALUE",
        ),
        (
            "erase",
            "eraze",
            "line 3: 'eraze' is none of currency, decimals, program, erase, register-write, ignored",
        ),
        (
            "erase",
            "program",
            "line 3: 'program' stands in line 2 already",
        ),
        ("erase = 0.35\n", "", "'erase' is missing"),
    ];

    #[test]
    fn what_is_wrong_is_told_with_its_line() {
        for (from, to, words) in WRONG {
            let told = read(&GOOD.replace(from, to));
            assert_eq!(told, Err(format!("prices.txt: {words}")));
        }
    }
}
