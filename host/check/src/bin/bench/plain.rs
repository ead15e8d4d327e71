//! The yardstick: a replay in ordinary Rust, as one would write it who knows
//! the paper and wants it quick, and proves nothing.
//!
//! It makes the same checks before its first record, plays the same records and
//! drops the outputs. It is neither the proved library nor the second emulator.

const SIZE: usize = 2_097_152;
const RECORD: usize = 264;
const PAGE: usize = 256;

const BUSY: u16 = 1;
const WEL: u16 = 1 << 1;
const SRP0: u16 = 1 << 7;
const SRP1: u16 = 1 << 8;
const QE: u16 = 1 << 9;

/// Registers and meter.
#[derive(Clone, Copy, Debug, Default, PartialEq, Eq)]
pub struct State {
    pub status: u16,
    pub awake: bool,
    pub programs: u32,
    pub erases: u32,
    pub register_writes: u32,
    pub ignored: u32,
}

/// A refusal: its number, and the record's index for 31.
pub type Refused = (u32, usize);

/// What a transaction that was carried out is billed as.
enum Billed {
    Program,
    Erase,
    Write,
    Nothing,
}

/// The chip ignored it.
struct Ignored;

/// Plays the whole tape, or refuses before its first record.
pub fn replay(state: &mut State, array: &mut [u8], tape: &[u8]) -> Result<(), Refused> {
    admit(state, array, tape)?;
    for record in tape.chunks_exact(RECORD) {
        match record[2] {
            0 => transact(state, array, record),
            1 => finish(state),
            _ => power_cycle(state),
        }
    }
    Ok(())
}

/// Refusals 2, 3, 30, 31, 7.
fn admit(state: &State, array: &[u8], tape: &[u8]) -> Result<(), Refused> {
    if array.len() != SIZE {
        return Err((2, 0));
    }
    let busy = state.status & BUSY != 0;
    if state.status >> 10 != 0 || busy && (state.status & WEL == 0 || !state.awake) {
        return Err((3, 0));
    }
    if !tape.len().is_multiple_of(RECORD) {
        return Err((30, 0));
    }
    if let Some(index) = tape.chunks_exact(RECORD).position(|record| !good(record)) {
        return Err((31, index));
    }
    let records = (tape.len() / RECORD) as u64;
    let counts = [
        state.programs,
        state.erases,
        state.register_writes,
        state.ignored,
    ];
    let full = |&count: &u32| u64::from(count) + records > u64::from(u32::MAX);
    if counts.iter().any(full) {
        return Err((7, 0));
    }
    Ok(())
}

fn good(record: &[u8]) -> bool {
    match record[2] {
        0 => length(record) <= 260 && record[3] <= 15 && zero(&record[4 + length(record)..]),
        1 | 2 => record[0] == 0 && record[1] == 0 && zero(&record[3..]),
        _ => false,
    }
}

fn length(record: &[u8]) -> usize {
    usize::from(u16::from_be_bytes([record[0], record[1]]))
}

/// By OR and not byte for byte with an early end, so that it is vectorised.
fn zero(bytes: &[u8]) -> bool {
    bytes.iter().fold(0, |all, &byte| all | byte) == 0
}

fn finish(state: &mut State) {
    if state.status & BUSY != 0 {
        state.status &= !(BUSY | WEL);
    }
}

fn power_cycle(state: &mut State) {
    state.awake = true;
    state.status &= !(BUSY | WEL);
    if state.status & SRP0 == 0 {
        state.status &= !SRP1;
    }
}

fn transact(state: &mut State, array: &mut [u8], record: &[u8]) {
    let bytes = &record[4..4 + length(record)];
    let (leftover, wp_high) = (record[3] & 7, record[3] & 8 != 0);
    match carry_out(state, array, bytes, leftover, wp_high) {
        Ok(Billed::Program) => state.programs += 1,
        Ok(Billed::Erase) => state.erases += 1,
        Ok(Billed::Write) => state.register_writes += 1,
        Ok(Billed::Nothing) => {}
        Err(Ignored) => state.ignored += 1,
    }
}

fn carry_out(
    state: &mut State,
    array: &mut [u8],
    bytes: &[u8],
    leftover: u8,
    wp_high: bool,
) -> Result<Billed, Ignored> {
    let &code = bytes.first().ok_or(Ignored)?;
    let busy = state.status & BUSY != 0;
    if !state.awake && code != 0xAB || busy && code != 0x05 && code != 0x35 {
        return Err(Ignored);
    }
    let (n, whole) = (bytes.len(), leftover == 0);
    let ready = whole && state.status & WEL != 0;
    match code {
        0x05 | 0x35 | 0x9F => {}
        0x03 | 0x90 if n >= 4 => {}
        0x0B if n >= 5 => {}
        0x06 if n == 1 && whole => state.status |= WEL,
        0x04 if n == 1 && whole => state.status &= !WEL,
        0xB9 if n == 1 && whole => state.awake = false,
        0xAB => state.awake = true,
        0x01 if (n == 2 || n == 3) && ready => return write_status(state, bytes, wp_high),
        0x02 if n >= 5 && ready => return program(state, array, bytes),
        0x20 if n == 4 && ready => return erase(state, array, address(bytes), 4_096),
        0x52 if n == 4 && ready => return erase(state, array, address(bytes), 32_768),
        0xD8 if n == 4 && ready => return erase(state, array, address(bytes), 65_536),
        0xC7 | 0x60 if n == 1 && ready => return erase(state, array, 0, SIZE),
        _ => return Err(Ignored),
    }
    Ok(Billed::Nothing)
}

fn address(bytes: &[u8]) -> usize {
    u32::from_be_bytes([0, bytes[1], bytes[2], bytes[3]]) as usize % SIZE
}

fn write_status(state: &mut State, bytes: &[u8], wp_high: bool) -> Result<Billed, Ignored> {
    let status = state.status;
    if status & SRP1 != 0 || status & SRP0 != 0 && !wp_high && status & QE == 0 {
        return Err(Ignored);
    }
    let low = u16::from(bytes[1] & 0xFC) | WEL | BUSY;
    let high = match bytes.get(2) {
        Some(&second) => u16::from(second & 3) << 8,
        None => status & (SRP1 | QE),
    };
    state.status = high | low;
    Ok(Billed::Write)
}

/// A record holds at most 256 bytes of data, so no place is sent twice.
fn program(state: &mut State, array: &mut [u8], bytes: &[u8]) -> Result<Billed, Ignored> {
    let (start, offset) = (address(bytes) / PAGE * PAGE, address(bytes) % PAGE);
    if protected(state.status, start, PAGE) {
        return Err(Ignored);
    }
    let page = &mut array[start..start + PAGE];
    let data = &bytes[4..];
    let (straight, wrapped) = data.split_at(data.len().min(PAGE - offset));
    and(&mut page[offset..], straight);
    and(page, wrapped);
    state.status |= BUSY;
    Ok(Billed::Program)
}

fn and(cells: &mut [u8], data: &[u8]) {
    for (cell, &byte) in cells.iter_mut().zip(data) {
        *cell &= byte;
    }
}

fn erase(state: &mut State, array: &mut [u8], at: usize, unit: usize) -> Result<Billed, Ignored> {
    let start = at / unit * unit;
    if protected(state.status, start, unit) {
        return Err(Ignored);
    }
    array[start..start + unit].fill(0xFF);
    state.status |= BUSY;
    Ok(Billed::Erase)
}

/// Whether some byte of the stretch lies in the protected area.
fn protected(status: u16, start: usize, length: usize) -> bool {
    let (from, to) = AREAS[usize::from(status >> 2 & 31)];
    start < to && from < start + length
}

/// From and to of the protected area, by setting.
const AREAS: [(usize, usize); 32] = {
    let mut areas = [(0, 0); 32];
    let mut setting = 0;
    while setting < 32 {
        let (sec, tb, bp) = (setting & 16 != 0, setting & 8 != 0, setting & 7);
        let bytes = match bp {
            0 => 0,
            6 | 7 => SIZE,
            5 if sec => 32 * 1_024,
            _ if sec => (2 * 1_024) << bp,
            _ => (32 * 1_024) << bp,
        };
        areas[setting] = if tb { (0, bytes) } else { (SIZE - bytes, SIZE) };
        setting += 1;
    }
    areas
};

#[cfg(test)]
mod tests {
    use super::*;
    use check::generate;
    use check::rng::Rng;

    /// The yardstick measures the same work: it agrees with the second.
    #[test]
    fn the_yardstick_does_what_the_paper_says() {
        let mut rng = Rng::new(1, "plain", 0);
        let mut array = rng.bytes(SIZE);
        let mut mirror = array.clone();
        for _ in 0..3_000 {
            let records = rng.below(30);
            let mut tape = generate::tape(&mut rng, records);
            if rng.one_in(4) {
                generate::damage(&mut rng, &mut tape);
            }
            let (regs, meter) = (generate::registers(&mut rng), generate::meter(&mut rng));
            let mut state = State {
                status: regs.status as u16,
                awake: regs.awake == 1,
                programs: meter.programs,
                erases: meter.erases,
                register_writes: meter.register_writes,
                ignored: meter.ignored,
            };
            let (regs, meter) = (check::calls::regs_of(regs), check::calls::meter_of(meter));
            let expected = second::replay(1, regs, meter, &mut mirror, &tape);
            let (number, index) = replay(&mut state, &mut array, &tape)
                .err()
                .unwrap_or((0, 0));
            assert_eq!((number, index as u64), (expected.number, expected.index));
            assert_eq!(u32::from(state.status), expected.regs.status);
            assert_eq!(u32::from(state.awake), expected.regs.awake);
            let counts = [
                state.programs,
                state.erases,
                state.register_writes,
                state.ignored,
            ];
            let meter = expected.meter;
            assert_eq!(
                counts,
                [
                    meter.programs,
                    meter.erases,
                    meter.register_writes,
                    meter.ignored
                ]
            );
            assert!(array == mirror);
        }
    }
}
