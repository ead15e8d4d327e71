//! The sample month, against the stored bill.

use crate::common::{Folder, NOW, TUNEBRIAR};
use std::path::PathBuf;
use std::process::Command;

fn example() -> PathBuf {
    PathBuf::from(env!("CARGO_MANIFEST_DIR")).join("../../examples/month")
}

#[test]
fn the_sample_month_is_the_stored_bill() {
    let folder = Folder::new("sample");
    let made = Command::new("sh")
        .arg(example().join("make"))
        .arg(folder.path.join("build"))
        .env("TUNEBRIAR", TUNEBRIAR)
        .env("TUNEBRIAR_NOW", NOW)
        .output()
        .expect("sh");
    assert!(made.status.success(), "{made:?}");
    for name in ["bill.csv", "bill.svg", "bill.html"] {
        let stored = std::fs::read_to_string(example().join(name)).expect("stored");
        assert!(folder.text(&format!("build/{name}")) == stored, "{name}");
    }
}
