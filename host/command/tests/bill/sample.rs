//! Bills to show: the sample month, and months of any size.

use command::bill::money::Money;
use command::bill::prices::Prices;
use command::bill::{Bill, Department, Figures, Ignored, Play};

/// A price in millionths.
pub fn price(millionths: u64) -> Money {
    Money::new(millionths).expect("a price")
}

/// Two cents a program, 35 an erase, five a register write.
pub fn prices() -> Prices {
    Prices {
        currency: "EUR".to_string(),
        decimals: 2,
        program: price(20_000),
        erase: price(350_000),
        register_write: price(50_000),
        ignored: price(0),
    }
}

/// Carried out, and ignored by verdict 14: programs, erases, register writes,
/// and ignored ones of other kinds.
pub fn figures(carried_out: [u64; 3], ignored: [u64; 4]) -> Figures {
    let mut by_verdict = [0; 7];
    by_verdict[4] = ignored.iter().sum();
    Figures {
        programs: carried_out[0],
        erases: carried_out[1],
        register_writes: carried_out[2],
        ignored: Ignored {
            programs: ignored[0],
            erases: ignored[1],
            register_writes: ignored[2],
            others: ignored[3],
            by_verdict,
        },
    }
}

/// A play of a tape with these figures.
pub fn play(number: u64, tape: &str, figures: Figures) -> Play {
    Play {
        number,
        board: format!("b{}", number % 7),
        when: format!("2026-11-{:02}T09:30:00Z", number % 28 + 1),
        tape: tape.to_string(),
        sha256: format!("{number:064x}"),
        bytes: 264 * number,
        records: number,
        figures,
        refusal: None,
    }
}

/// A department with these plays on one board.
pub fn department(name: &str, plays: Vec<Play>) -> Department {
    Department {
        name: name.to_string(),
        boards: 1,
        plays,
    }
}

/// The bill of these departments.
pub fn bill(departments: Vec<Department>) -> Bill {
    Bill {
        month: "2026-11".to_string(),
        closed: Some("2026-12-01T08:00:00Z".to_string()),
        prices: prices(),
        departments,
    }
}

/// A month as the sample's: four departments, one of them with a torn tape.
pub fn four() -> Bill {
    let mut night = figures([16, 0, 0], [48, 16, 0, 6]);
    night.ignored.by_verdict = [16, 6, 0, 0, 48, 0, 0];
    let mut after = figures([1, 0, 0], [12, 2, 1, 0]);
    after.ignored.by_verdict = [0, 0, 0, 0, 0, 1, 14];
    let mut torn = play(8, "workshop-torn.tape", Figures::default());
    torn.refusal = Some("refused 31, record 2: a tape record outside the rules".to_string());
    let archive = vec![
        play(1, "firmware.tape", figures([65, 2, 1], [0; 4])),
        play(2, "patch.tape", figures([18, 1, 2], [0; 4])),
    ];
    let telemetry = vec![
        play(3, "setup.tape", figures([1, 2, 0], [0; 4])),
        play(4, "night.tape", night),
    ];
    let vault = vec![
        play(5, "seal.tape", figures([8, 1, 1], [0; 4])),
        play(6, "after.tape", after),
    ];
    let bench = play(7, "bench.tape", figures([36, 1, 0], [0; 4]));
    bill(vec![
        department("archive", archive),
        department("telemetry", telemetry),
        department("vault", vault),
        department("workshop", vec![bench, torn]),
    ])
}

/// A month of so many departments with names of many kinds; the same each time.
pub fn many(count: u64) -> Bill {
    let mut state = count.wrapping_mul(0x9E37_79B9_7F4A_7C15) | 1;
    let mut next = |most: u64| {
        state = state
            .wrapping_mul(6_364_136_223_846_793_005)
            .wrapping_add(1);
        (state >> 33) % most
    };
    let departments = (0..count).map(|place| {
        let plays = (0..=next(3)).map(|again| {
            let skew = 1 + 40 / (place % 37 + 1);
            let carried_out = [next(900) * skew, next(60), next(20)];
            let ignored = [next(150) * (place % 3), next(20), next(4), next(9)];
            play(
                place * 10 + again,
                "night.tape",
                figures(carried_out, ignored),
            )
        });
        department(&name(place), plays.collect())
    });
    bill(departments.collect())
}

fn name(place: u64) -> String {
    match place % 11 {
        0 => format!("研究開発部 {place}"),
        1 => format!("<R&D> \"{place}\" 'quoted'"),
        2 => format!("A very long name of a department that goes on and on, ward {place}"),
        3 => format!("=SUM(A{place})"),
        4 => format!("Zürich, Straße {place}"),
        5 => format!("WWWWWWWWWWWWWWWWWWWWWWWWW{place}"),
        _ => format!("department {place:04}"),
    }
}
