//! Bills of many departments: what must hold, whatever is in them.

use crate::sample::{bill, department, figures, four, many, play};
use crate::xml::{Element, elements};
use command::bill::{Bill, chart, csv, html, json, table};
use serde_json::Value;

/// Sizes to try: none, few, as many as have rows of their own, and more.
const SIZES: [u64; 6] = [0, 1, 4, 60, 61, 1_000];
/// The same without the largest, for what takes long.
const SMALL: &[u64] = SIZES.split_at(5).0;

/// A number of millionths from a decimal.
fn millionths(word: &str) -> u64 {
    let (whole, part) = word.split_once('.').unwrap_or((word, ""));
    format!("{whole}{part:0<6}").parse().expect("an amount")
}

/// Lines of a spreadsheet, read back by the crate that reads such files.
fn records(text: &str) -> Vec<Vec<String>> {
    let mut reader = ::csv::Reader::from_reader(text.as_bytes());
    let heads = reader.headers().expect("heads").len();
    let records = reader.records().map(|record| record.expect("a line"));
    let records: Vec<Vec<String>> = records
        .map(|record| record.iter().map(str::to_string).collect())
        .collect();
    assert!(records.iter().all(|record| record.len() == heads));
    records
}

#[test]
fn lines_add_up_to_the_total() {
    for size in SIZES {
        let bill = many(size);
        let records = records(&csv::render(&bill, true).expect("csv"));
        let of = |kind: &str, column: usize| {
            let chosen = records.iter().filter(|record| record[0] == kind);
            chosen
                .map(|record| millionths(&record[column]))
                .sum::<u64>()
        };
        for column in (5..7).chain(8..25) {
            assert_eq!(of("department", column), of("total", column), "{column}");
            assert_eq!(of("play", column), of("total", column), "{column}");
        }
        let json = json::render(&bill, true).expect("json");
        let json: Value = serde_json::from_str(&json).expect("json");
        let total = |key: &str| json["total"][key].as_str().map(millionths);
        assert_eq!(total("amount"), Some(of("total", 12)));
        assert_eq!(total("amount_as_sent"), Some(of("total", 13)));
        assert_eq!(
            json["departments"].as_array().map(Vec::len),
            Some(bill.departments.len())
        );
    }
}

#[test]
fn names_come_back_from_the_spreadsheet_and_from_json() {
    let bill = many(60);
    let records = records(&csv::render(&bill, false).expect("csv"));
    let json = json::render(&bill, false).expect("json");
    let json: Value = serde_json::from_str(&json).expect("json");
    for (place, department) in bill.departments.iter().enumerate() {
        let written = &records[place][3];
        let read = written.strip_prefix('\'').unwrap_or(written);
        assert_eq!(read, department.name);
        assert_eq!(json["departments"][place]["name"], department.name.as_str());
    }
}

#[test]
fn a_table_keeps_to_its_room_and_loses_no_name() {
    for (width, size) in [(80, 1_000), (100, 60), (132, 60)] {
        let text = table::render(&many(size), true, width).expect("a table");
        for line in text.lines() {
            let wide = command::bill::letters::width(line);
            assert!(wide <= width, "{wide} of {width}: {line}");
        }
        for word in ["研究開発部 55", "=SUM(A3)", "department 0050"] {
            assert!(text.contains(word), "{word}");
        }
    }
}

/// The columns of an aligned table end below each other, wide letters or not.
#[test]
fn amounts_stand_below_each_other() {
    let text = table::render(&many(60), false, 100).expect("a table");
    let lines = text.lines().skip_while(|line| !line.starts_with("---"));
    let lines = lines.skip(1).take_while(|line| !line.starts_with("---"));
    let wide: Vec<usize> = lines
        .filter(|line| line.ends_with(|last: char| last.is_ascii_digit()))
        .filter(|line| line.contains('.'))
        .map(command::bill::letters::width)
        .collect();
    assert_eq!(wide.len(), 60);
    assert!(wide.iter().all(|one| *one == wide[0]), "{wide:?}");
}

/// A picture and a page, as XML.
fn parsed(bill: &Bill) -> (Vec<Element>, Vec<Element>) {
    let picture = elements(&chart::render(bill).expect("a picture")).expect("well formed");
    let page = html::render(bill, true).expect("a page");
    let page = page.strip_prefix("<!DOCTYPE html>\n").expect("a page");
    let page = format!("<?xml version=\"1.0\" encoding=\"UTF-8\"?>{page}");
    (picture, elements(&page).expect("well formed"))
}

#[test]
fn pictures_and_pages_are_well_formed_and_alone() {
    for &size in SMALL {
        let (picture, page) = parsed(&many(size));
        for element in picture.iter().chain(&page) {
            assert!(!["script", "img", "link", "iframe", "a"].contains(&element.name.as_str()));
            for (name, value) in &element.attributes {
                assert!(!name.starts_with("on"), "{name}");
                assert!(name == "xmlns" || !value.contains("://"), "{value}");
            }
        }
        let rows = page.iter().filter(|element| element.name == "tr").count();
        assert!(rows as u64 > size, "a row a department");
    }
}

#[test]
fn bars_are_as_long_as_their_figures() {
    for size in SIZES {
        let picture = chart::render(&many(size)).expect("a picture");
        let picture = elements(&picture).expect("well formed");
        let bars: Vec<&Element> = picture
            .iter()
            .filter(|element| !element.get("data-count").is_empty())
            .collect();
        let scale = bars
            .first()
            .map_or(0.0, |bar| bar.number("width") / bar.number("data-count"));
        for bar in &bars {
            let wanted = bar.number("data-count") * scale;
            assert!((bar.number("width") - wanted).abs() < 0.01, "{bar:?}");
            assert!(bar.number("x") + bar.number("width") < 523.0, "{bar:?}");
            let hatched = bar.get("fill") == "#ffffff";
            assert_eq!(hatched, bar.get("class").ends_with("ignored"));
        }
        let named = |element: &&Element| element.get("class") == "name";
        let rows = picture.iter().filter(named).count() as u64;
        assert_eq!(rows, size.min(60) + u64::from(size > 60) + 1);
    }
}

#[test]
fn no_name_breaks_out_of_its_element() {
    let hostile = [
        "</td></table><script>alert(1)</script>",
        "\"><svg onload=\"alert(1)",
        "' onmouseover='alert(1)",
        "]]> --> </style> </title> &lt;",
        "a\u{0}b\u{7}c\u{1B}[2Jd\u{202E}e\u{FFFE}\r\nf",
    ];
    for name in hostile {
        let mut one = play(1, name, figures([1, 0, 0], [1, 0, 0, 0]));
        one.board = name.to_string();
        one.sha256 = name.to_string();
        one.when = name.to_string();
        let mut two = play(2, name, figures([0; 3], [0; 4]));
        two.refusal = Some(name.to_string());
        let mut bill = bill(vec![department(name, vec![one, two])]);
        let plain = parsed(&four_names(&bill, "x"));
        bill.month = name.to_string();
        bill.closed = Some(name.to_string());
        bill.prices.currency = name.to_string();
        let shown = parsed(&bill);
        let names = |all: &[Element]| -> Vec<String> {
            all.iter().map(|element| element.name.clone()).collect()
        };
        assert_eq!(names(&shown.0), names(&plain.0));
        assert_eq!(names(&shown.1), names(&plain.1));
        let text = table::render(&bill, true, 80).expect("a table");
        assert!(
            text.chars()
                .all(|letter| letter == '\n' || !letter.is_control())
        );
    }
}

/// The same bill with another name everywhere.
fn four_names(bill: &Bill, name: &str) -> Bill {
    let mut bill = bill.clone();
    for department in &mut bill.departments {
        department.name = name.to_string();
        for play in &mut department.plays {
            play.tape = name.to_string();
            play.board = name.to_string();
            play.sha256 = name.to_string();
            play.when = name.to_string();
            play.refusal = play.refusal.as_ref().map(|_| name.to_string());
        }
    }
    bill
}

/// Every size in every form, in cargo's folder for tests.
#[test]
#[ignore = "to look at, not to judge"]
fn pictures_to_look_at() {
    let folder = std::path::Path::new(env!("CARGO_TARGET_TMPDIR"));
    let plays = (1..10_001).map(|number| play(number, "t", figures([1, 0, 0], [0; 4])));
    let busy = bill(vec![department("busy", plays.collect())]);
    let page = html::render(&busy, true).expect("a page");
    std::fs::write(folder.join("bill-busy.html"), page).expect("written");
    for size in SIZES {
        let bill = if size == 4 { four() } else { many(size) };
        let write = |end: &str, text: String| {
            let path = folder.join(format!("bill-{size}.{end}"));
            std::fs::write(path, text).expect("written");
        };
        write("svg", chart::render(&bill).expect("a picture"));
        write("html", html::render(&bill, false).expect("a page"));
        write("detail.html", html::render(&bill, true).expect("a page"));
        write("txt", table::render(&bill, true, 80).expect("a table"));
    }
}
