//! The protection settings by the names of their areas (document 01's table).

use crate::numbers::number;

/// Sizes by BP 1 to 5: of 64 KB blocks where SEC is 0, of sectors where it is 1.
const BLOCKS: [&str; 5] = ["64k", "128k", "256k", "512k", "1024k"];
const SECTORS: [&str; 4] = ["4k", "8k", "16k", "32k"];

const TB: u8 = 8;
const SEC: u8 = 16;
/// Of the settings that protect everything, the one that the name `all` gives.
const ALL: u8 = 7;

/// The setting that these words name: a number 0 to 31, `none`, `all`, or an
/// area such as `top 64k` and `bottom-4k`.
///
/// # Errors
///
/// Words, where they name none.
pub fn setting(words: &str) -> Result<u8, String> {
    if words.starts_with(|first: char| first.is_ascii_digit()) {
        let setting = number(words)?;
        // A setting that no byte holds is none; 32 to 255 are the library's to refuse.
        return u8::try_from(setting).map_err(|_| format!("{words} is no setting 0 to 31"));
    }
    let name = words.to_ascii_lowercase().replace(['-', ' '], "");
    match name.as_str() {
        "none" => return Ok(0),
        "all" => return Ok(ALL),
        _ => {}
    }
    let side = |side: &str, bit: u8| Some((name.strip_prefix(side)?.to_string(), bit));
    let found = side("top", 0).or_else(|| side("bottom", TB));
    let found = found.and_then(|(size, bit)| Some(bit + sized(&size)?));
    found.ok_or_else(|| {
        format!("'{words}' is no setting: 0 to 31, none, all, or top or bottom with 4k to 1024k")
    })
}

fn sized(size: &str) -> Option<u8> {
    let place = |sizes: &[&str]| sizes.iter().position(|&known| known == size);
    let block = place(&BLOCKS).map(|place| place as u8 + 1);
    block.or_else(|| place(&SECTORS).map(|place| place as u8 + 1 + SEC))
}

/// The area's name, for a setting 0 to 31.
#[must_use]
pub fn name(setting: u8) -> String {
    let side = if setting & TB == 0 { "top" } else { "bottom" };
    let bp = usize::from(setting & 7);
    match (bp, setting & SEC == 0) {
        (0, _) => "none".to_string(),
        (6 | 7, _) => "all".to_string(),
        (_, true) => format!("{side} {}", BLOCKS[bp - 1]),
        (_, false) => format!("{side} {}", SECTORS[(bp - 1).min(3)]),
    }
}

#[cfg(test)]
mod tests {
    use super::*;
    use tunebriar::{Part, Step, quote};

    /// Whether the library lets a byte be laid under a setting.
    fn free(setting: u8, address: u32) -> bool {
        let lay = Step::Lay {
            address,
            length: 1,
            offset: 0,
        };
        quote(Part::Fm25q16, setting, &lay.record(), &[0]).is_ok()
    }

    /// How many bytes the name says are protected.
    fn size(name: &str) -> u32 {
        match name {
            "none" => 0,
            "all" => 2_097_152,
            _ => {
                let digits: String = name.chars().filter(char::is_ascii_digit).collect();
                1_024 * digits.parse::<u32>().expect("a size")
            }
        }
    }

    #[test]
    fn each_name_is_the_area_that_the_library_protects() {
        let end = 2_097_152;
        for setting in 0..32 {
            let name = name(setting);
            let size = size(&name);
            let bottom = name.starts_with("bottom");
            let area = if bottom { 0..size } else { end - size..end };
            for address in [0, area.start, area.end, end - 1] {
                for address in [address.saturating_sub(1), address.min(end - 1)] {
                    let protected = area.contains(&address);
                    assert_eq!(!free(setting, address), protected, "{setting} {address:x}");
                }
            }
        }
    }

    #[test]
    fn names_and_numbers_give_settings() {
        for given in 0..32 {
            assert_eq!(setting(&given.to_string()), Ok(given));
            let back = setting(&name(given)).expect("a name of ours");
            assert_eq!(name(back), name(given));
        }
        assert_eq!(setting("Top 4K"), Ok(17));
        assert_eq!(setting("bottom-1024k"), Ok(13));
        assert_eq!(setting("0x11"), Ok(17));
        for bad in ["", "top", "top 3k", "middle 4k", "256", "-1"] {
            assert!(setting(bad).is_err(), "{bad}");
        }
    }
}
