//! A small bill, letter by letter.

use crate::sample::{bill, department, figures, four, play, price};
use command::bill::sums::{Fault, sums};
use command::bill::{Bill, Figures, chart, csv, html, json, table};

/// One department: 83 programs, 3 erases, 2 register writes, and 5 ignored.
fn one() -> Bill {
    let mut night = figures([80, 3, 2], [2, 1, 1, 1]);
    night.ignored.by_verdict = [0, 1, 0, 0, 4, 0, 0];
    let plays = vec![
        play(1, "night.tape", night),
        play(2, "day, \"late\".tape", figures([3, 0, 0], [0; 4])),
    ];
    bill(vec![department("labels", plays)])
}

#[test]
fn the_table_is_this() {
    let text = table::render(&one(), false, 80).expect("a table");
    assert_eq!(text, include_str!("one.txt"));
}

#[test]
fn the_table_with_its_plays_is_this() {
    let text = table::render(&four(), true, 80).expect("a table");
    assert_eq!(text, include_str!("four.txt"));
}

#[test]
fn the_csv_is_this() {
    let text = csv::render(&one(), false).expect("csv");
    assert_eq!(
        text,
        "line,month,closed,department,boards,plays,plays_refused,currency,programs,erases,\
         register_writes,ignored,amount,amount_as_sent,programs_ignored,erases_ignored,\
         register_writes_ignored,others_ignored,ignored_10,ignored_11,ignored_12,ignored_13,\
         ignored_14,ignored_15,ignored_16,price_program,price_erase,price_register_write,\
         price_ignored\n\
         department,2026-11,2026-12-01T08:00:00Z,labels,1,2,0,EUR,83,3,2,5,2.81,3.25,2,1,1,1,\
         0,1,0,0,4,0,0,0.02,0.35,0.05,0.00\n\
         total,2026-11,2026-12-01T08:00:00Z,,1,2,0,EUR,83,3,2,5,2.81,3.25,2,1,1,1,\
         0,1,0,0,4,0,0,0.02,0.35,0.05,0.00\n"
    );
    let text = csv::render(&one(), true).expect("csv");
    let line = text.lines().nth(3).expect("the second play");
    assert_eq!(
        line,
        "play,2026-11,2026-12-01T08:00:00Z,labels,,1,0,EUR,3,0,0,0,0.06,0.06,0,0,0,0,\
         0,0,0,0,0,0,0,0.02,0.35,0.05,0.00,2,b2,2026-11-03T09:30:00Z,\"day, \"\"late\"\".tape\",\
         0000000000000000000000000000000000000000000000000000000000000002,528,2,"
    );
}

#[test]
fn the_json_is_this() {
    let text = json::render(&one(), false).expect("json");
    assert_eq!(text, include_str!("one.json"));
    let text = json::render(&four(), true).expect("json");
    assert_eq!(text, include_str!("four.json"));
}

#[test]
fn the_picture_and_the_page_are_these() {
    let picture = chart::render(&one()).expect("a picture");
    assert_eq!(picture, include_str!("one.svg"));
    let page = html::render(&one(), true).expect("a page");
    assert_eq!(page, include_str!("one.html"));
}

#[test]
fn no_spreadsheet_finds_a_formula() {
    for (name, written) in [
        ("=1+1", "'=1+1"),
        ("+1", "'+1"),
        ("-1", "'-1"),
        ("@x", "'@x"),
        (" =1", "' =1"),
        ("＝1", "'＝1"),
        ("'so", "''so"),
        ("a=b", "a=b"),
        ("a\r\nb", "a\u{FFFD}\u{FFFD}b"),
        ("a,\"b\"", "\"a,\"\"b\"\"\""),
    ] {
        let text = csv::render(&bill(vec![department(name, vec![])]), false).expect("csv");
        let start = format!("department,2026-11,2026-12-01T08:00:00Z,{written},1,0,0,EUR,");
        assert!(
            text.lines().nth(1).expect("a line").starts_with(&start),
            "{text}"
        );
    }
}

#[test]
fn an_amount_is_rounded_once_and_lines_add_up() {
    let mut bill = bill(vec![]);
    bill.prices.program = price(5_000);
    for name in ["a", "b"] {
        let plays = [1, 2].map(|number| play(number, "t", figures([1, 0, 0], [0; 4])));
        bill.departments.push(department(name, plays.to_vec()));
    }
    bill.departments[1].plays.pop();
    let sums = sums(&bill).expect("sums");
    let amounts = sums.lines.iter().map(|line| line.cost.amount.bare(6));
    assert_eq!(amounts.collect::<Vec<_>>(), ["0.010000", "0.010000"]);
    assert_eq!(sums.total.cost.amount.bare(6), "0.020000");
    let exact = sums.lines[0].plays.iter();
    let exact: Vec<String> = exact.map(|(_, cost)| cost.amount.bare(3)).collect();
    assert_eq!(exact, ["0.005", "0.005"]);
}

#[test]
fn what_was_sent_has_the_price_of_what_is_done() {
    let mut bill = bill(vec![department(
        "a",
        vec![play(1, "t", figures([1, 1, 1], [10, 10, 10, 10]))],
    )]);
    bill.prices.ignored = price(1_000_000);
    let told = |bill: &Bill| {
        let cost = sums(bill).expect("sums").total.cost;
        (cost.amount.bare(2), cost.sent.bare(2))
    };
    assert_eq!(told(&bill), ("40.42".to_string(), "14.62".to_string()));
    let text = table::render(&bill, false, 200).expect("a table");
    assert!(text.contains("would have cost 14.62 EUR, 25.80 EUR less than this bill."));
    bill.prices.ignored = price(0);
    assert_eq!(told(&bill), ("0.42".to_string(), "4.62".to_string()));
    bill.departments.clear();
    let text = table::render(&bill, false, 200).expect("a table");
    assert!(text.contains("would have cost the same."), "{text}");
}

/// What every way to show a bill says of it.
fn faults(bill: &Bill) -> Vec<Fault> {
    let shown = [
        table::render(bill, true, 80),
        csv::render(bill, true),
        json::render(bill, true),
        chart::render(bill),
        html::render(bill, true),
    ];
    shown.into_iter().filter_map(Result::err).collect()
}

#[test]
fn too_large_is_told_and_does_not_wrap() {
    let large = |of: &str| vec![Fault::TooLarge { of: of.to_string() }; 5];
    let count = |count| vec![play(1, "t", figures([0, 0, 0], [0, 0, 0, count]))];
    let amount = |count| vec![play(1, "t", figures([count, 0, 0], [0; 4]))];
    let mut bill = bill(vec![
        department("a", count(u64::MAX)),
        department("b", count(1)),
    ]);
    assert_eq!(faults(&bill), large("the total"));
    bill.departments[1].plays = amount(50_000_000_000_000);
    assert_eq!(faults(&bill), []);
    bill.departments[1].plays = amount(50_000_000_000_001);
    assert_eq!(faults(&bill), large("b"));
    bill.departments[0].plays = amount(25_000_000_000_001);
    bill.departments[1].plays = amount(25_000_000_000_000);
    assert_eq!(faults(&bill), large("the total"));
    assert_eq!(
        faults(&bill)[0].to_string(),
        "the total: too large for a bill: a count over 64 bits, or an amount over 1,000,000,000,000"
    );
}

#[test]
fn figures_that_cannot_be_bill_nobody() {
    let mut bill = four();
    bill.departments[1].plays[1].figures.ignored.by_verdict[0] += 1;
    assert_eq!(faults(&bill), vec![Fault::Verdicts { play: 4 }; 5]);
    let mut bill = four();
    bill.departments[0].plays[0].refusal = Some("refused 7".to_string());
    assert_eq!(faults(&bill), vec![Fault::Refused { play: 1 }; 5]);
    bill.departments[0].plays[0].figures = Figures::default();
    assert_eq!(faults(&bill), []);
}

#[test]
fn an_open_month_says_so() {
    let mut bill = four();
    bill.closed = None;
    let words = "open: what is played until it closes comes on top";
    for text in [
        table::render(&bill, false, 80),
        chart::render(&bill),
        html::render(&bill, false),
    ] {
        assert!(text.expect("a bill").contains(words));
    }
    assert!(
        csv::render(&bill, false)
            .expect("csv")
            .contains("department,2026-11,,archive,")
    );
    assert!(
        json::render(&bill, false)
            .expect("json")
            .contains("\"closed\": null")
    );
}
