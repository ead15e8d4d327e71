//! `tunebriar quote`: what a job will cost, before anything is played.

use crate::bill::Figures;
use crate::bill::prices::Prices;
use crate::error::Error;
use crate::numbers::grouped;
use crate::pool::Asked;
use crate::told::Told;
use crate::translate::{Start, Translated};
use clap::Args;
use serde_json::{Value, json};
use std::fmt::Write;
use std::path::PathBuf;
use tunebriar::Bill;

/// How it is called.
#[derive(Debug, Args)]
pub struct Quote {
    /// The job's records
    job: PathBuf,
    /// The job's payload
    payload: PathBuf,
    #[command(flatten)]
    start: Start,
    /// A text of prices; the amount is told as well
    #[arg(long, value_name = "FILE")]
    prices: Option<PathBuf>,
}

impl Quote {
    /// Tells the bill beforehand.
    ///
    /// # Errors
    ///
    /// Refusals 20 to 25; a start at which the job would not be done; files.
    pub fn run(&self, pool: &Asked) -> Result<Told, Error> {
        let prices = self.prices.as_deref().map(Prices::read).transpose()?;
        let Translated { bill, .. } = self.start.translated(pool, &self.job, &self.payload)?;
        told(&bill, prices.as_ref())
    }
}

/// A bill beforehand, in words and as JSON.
///
/// # Errors
///
/// Where the amount is too large.
pub fn told(bill: &Bill, prices: Option<&Prices>) -> Result<Told, Error> {
    let mut text = format!(
        "programs         {}\nerases           {}\nregister writes  {}\ntape             {} bytes\n",
        grouped(bill.programs),
        grouped(bill.erases),
        grouped(bill.register_writes),
        grouped(bill.tape),
    );
    let mut json = json!({
        "programs": bill.programs,
        "erases": bill.erases,
        "register_writes": bill.register_writes,
        "tape": bill.tape,
    });
    if let Some(prices) = prices {
        let figures = Figures {
            programs: bill.programs.into(),
            erases: bill.erases.into(),
            register_writes: bill.register_writes.into(),
            ..Figures::default()
        };
        let cost = prices.rounded(&figures);
        let amount = cost
            .ok_or_else(|| Error::wrong("the amount is too large"))?
            .amount;
        let _ = writeln!(text, "amount           {}", prices.in_currency(amount));
        json["amount"] = Value::from(amount.bare(prices.decimals));
        json["currency"] = Value::from(prices.currency.as_str());
    }
    Ok(Told::new(text, json))
}
