//! The bill for programs. Counts are numbers; money is text, since it is exact.

use super::figures::{Bill, Figures, Play};
use super::notes;
use super::prices::Prices;
use super::sums::{Cost, Fault, Line, sums};
use serde_json::{Map, Value, json};
use tunebriar::Reason;

/// The bill as JSON; with `detail`, the plays of each department. The amount of
/// a play is exact.
///
/// # Errors
///
/// Where it cannot be added up.
pub fn render(bill: &Bill, detail: bool) -> Result<String, Fault> {
    let sums = sums(bill)?;
    let prices = &bill.prices;
    let departments = sums.lines.iter();
    let departments: Vec<Value> = departments
        .map(|line| department(line, prices, detail))
        .collect();
    let whole = json!({
        "month": bill.month,
        "closed": bill.closed,
        "prices": prices_of(prices),
        "rounding": notes::rounding(prices),
        "departments": departments,
        "total": Value::Object(line_of(&sums.total, prices)),
    });
    Ok(format!("{whole:#}\n"))
}

fn prices_of(prices: &Prices) -> Value {
    let price = |price: super::money::Money| price.bare(prices.exact());
    json!({
        "currency": prices.currency,
        "decimals": prices.decimals,
        "program": price(prices.program),
        "erase": price(prices.erase),
        "register_write": price(prices.register_write),
        "ignored": price(prices.ignored),
    })
}

fn department(line: &Line, prices: &Prices, detail: bool) -> Value {
    let mut object = Map::new();
    object.insert("name".to_string(), json!(line.name));
    object.append(&mut line_of(line, prices));
    if detail {
        let each = line.plays.iter();
        let each: Vec<Value> = each
            .map(|(play, cost)| play_of(play, *cost, prices))
            .collect();
        object.insert("each_play".to_string(), json!(each));
    }
    Value::Object(object)
}

fn line_of(line: &Line, prices: &Prices) -> Map<String, Value> {
    let mut object = Map::new();
    let counts = [
        ("boards", line.boards),
        ("plays", line.played),
        ("plays_refused", line.refused),
    ];
    for (key, count) in counts {
        object.insert(key.to_string(), json!(count));
    }
    put_figures(&mut object, &line.figures, line.cost, prices.decimals);
    object
}

fn play_of(play: &Play, cost: Cost, prices: &Prices) -> Value {
    let mut object = Map::new();
    let words = [
        ("board", &play.board),
        ("when", &play.when),
        ("tape", &play.tape),
        ("sha256", &play.sha256),
    ];
    object.insert("play".to_string(), json!(play.number));
    for (key, word) in words {
        object.insert(key.to_string(), json!(word));
    }
    object.insert("bytes".to_string(), json!(play.bytes));
    object.insert("records".to_string(), json!(play.records));
    object.insert("refusal".to_string(), json!(play.refusal));
    put_figures(&mut object, &play.figures, cost, prices.exact());
    Value::Object(object)
}

fn put_figures(object: &mut Map<String, Value>, figures: &Figures, cost: Cost, decimals: u32) {
    let ignored = &figures.ignored;
    // Sums do not come to more than 64 bits.
    let all = u64::try_from(ignored.all()).ok();
    let verdicts = Reason::ALL.into_iter().zip(ignored.by_verdict);
    let verdicts = verdicts.map(|(reason, count)| ((reason as u32).to_string(), json!(count)));
    let values = [
        ("programs", json!(figures.programs)),
        ("erases", json!(figures.erases)),
        ("register_writes", json!(figures.register_writes)),
        (
            "ignored",
            json!({
                "all": all,
                "programs": ignored.programs,
                "erases": ignored.erases,
                "register_writes": ignored.register_writes,
                "others": ignored.others,
                "by_verdict": Value::Object(verdicts.collect()),
            }),
        ),
        ("amount", json!(cost.amount.bare(decimals))),
        ("amount_as_sent", json!(cost.sent.bare(decimals))),
    ];
    for (key, value) in values {
        object.insert(key.to_string(), value);
    }
}
