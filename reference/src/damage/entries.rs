//! Damages to a sheet or list, and to the fragment asked.

use super::{ill_route, mend_length, number, set};
use crate::form::{COUNT_AT, SHEET_LEAD};
use crate::input::Input;
use crate::random::Random;

/// The offset of some entry from this row on, where the record is as long as its count says.
fn some_entry(input: &Input, first: usize, random: &mut Random) -> Option<usize> {
    let count = usize::from(number(&input.second, COUNT_AT));
    let offset = |row| input.form.entries(input.lead, row);
    let whole = input.second.len() == offset(count);
    (whole && count > first).then(|| offset(random.within(first, count - 1)))
}

fn set_count(input: &mut Input, count: u16) {
    set(&mut input.second, COUNT_AT, &count.to_be_bytes());
}

pub fn count_over(input: &mut Input, random: &mut Random) {
    let over = input.form.most + 1;
    let far = random.within(over, 65_535);
    let count = *random.pick(&[over, far]) as u16;
    set_count(input, count);
}

pub fn count_off(input: &mut Input, random: &mut Random) {
    let count = number(&input.second, COUNT_AT) ^ random.within(1, 3) as u16;
    set_count(input, count);
}

/// Gives an entry the id of the one before it, or a lower one.
pub fn order(input: &mut Input, random: &mut Random) {
    if let Some(entry) = some_entry(input, 1, random) {
        let before = number(&input.second, entry - input.form.entry(input.lead));
        let id = before.saturating_sub(random.below(2) as u16);
        set(&mut input.second, entry, &id.to_be_bytes());
    }
}

pub fn route(input: &mut Input, random: &mut Random) {
    if let Some(entry) = some_entry(input, 0, random) {
        let route = ill_route(input.form, random);
        set(&mut input.second, entry + input.lead, &route);
    }
}

pub fn fragment(input: &mut Input, random: &mut Random) {
    if let (SHEET_LEAD, Some(entry)) = (input.lead, some_entry(input, 0, random)) {
        let far = random.within(64, 255);
        let fragment = *random.pick(&[64, far]) as u8;
        set(&mut input.second, entry + 2, &[fragment]);
    }
}

/// Takes an entry out.
pub fn missing(input: &mut Input, random: &mut Random) {
    if let Some(entry) = some_entry(input, 0, random) {
        let end = entry + input.form.entry(input.lead);
        input.second.drain(entry..end);
        let count = number(&input.second, COUNT_AT) - 1;
        set_count(input, count);
        mend_length(&mut input.second);
    }
}

/// Asks for a number that is likely nobody's.
pub fn asked_absent(input: &mut Input, random: &mut Random) {
    ask(input, random.below(64));
}

pub fn asked_high(input: &mut Input, random: &mut Random) {
    let far = random.within(64, 255);
    ask(input, *random.pick(&[64, 255, far]));
}

fn ask(input: &mut Input, fragment: usize) {
    if let [asked] = &mut input.between[..] {
        *asked = fragment as u8;
    }
}
