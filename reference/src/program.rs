//! What the calls read and write, from bytes to bytes.

use crate::census::{self, Census};
use crate::cut;
use crate::join;
use crate::judge::{self, Verdict};
use crate::refusal::Refusal;
use crate::route::{Route, TOP};
use crate::trail::{self, Step};
use std::fmt::{self, Write};

/// The judge: a network and then a list; one line back.
pub fn judge_bytes(input: &[u8]) -> Vec<u8> {
    let (network, list) = split(input);
    verdict_line(judge::judge(network, list, TOP))
}

/// The census: what the judge reads; the judge's line back, and behind a pass what it carried.
pub fn census_bytes(input: &[u8]) -> Vec<u8> {
    let (network, list) = split(input);
    let (verdict, census) = census::census(network, list, TOP);
    let mut text = verdict_line(verdict);
    if let Some(census) = census {
        text.extend(census_lines(&census).into_bytes());
    }
    text
}

/// The trail: a network, two bytes that name a box, and then a list; a line back for each box of the
/// trail, or the judge's line.
pub fn trail_bytes(input: &[u8]) -> Vec<u8> {
    let (network, rest) = split(input);
    let (id, list) = split_id(rest);
    match trail::trail(network, list, id, TOP) {
        Ok(steps) => trail_lines(&steps).into_bytes(),
        Err(verdict) => verdict_line(verdict),
    }
}

/// Parts the id that names a box from what follows. Of its two bytes those that are missing are 0.
fn split_id(rest: &[u8]) -> (u16, &[u8]) {
    match rest {
        [] => (0, rest),
        [high] => (u16::from_be_bytes([*high, 0]), &[]),
        [high, low, list @ ..] => (u16::from_be_bytes([*high, *low]), list),
    }
}

/// The cutter: a network, the fragment asked, and then a sheet; the fragment back, or a line.
pub fn cut_bytes(input: &[u8]) -> Vec<u8> {
    let (network, rest) = split(input);
    // A fragment is never larger than its network.
    cut_parts(network, rest, network.len())
}

/// The fragment, or a line. What follows the network is the fragment asked, and then the sheet.
fn cut_parts(network: &[u8], rest: &[u8], room: usize) -> Vec<u8> {
    let (asked, sheet) = match rest {
        [] => (0, rest),
        [asked, sheet @ ..] => (*asked, sheet),
    };
    record_or_line(room, |out| cut::cut(network, sheet, asked, out))
}

/// The record that is written into a buffer of this length, or a line.
fn record_or_line(room: usize, write: impl FnOnce(&mut [u8]) -> Result<usize, Refusal>) -> Vec<u8> {
    let mut out = vec![0; room];
    match write(&mut out) {
        Ok(length) => {
            out.truncate(length);
            out
        }
        Err(refusal) => refused_line(refusal),
    }
}

/// Cutting out of records that are handed over apart, into a buffer of a given length: the
/// numbers 5 and 20, which the program has no use for, can be met here.
pub fn lent_bytes(input: &[u8]) -> Vec<u8> {
    match split_lent(input) {
        Some((room, network, rest)) => cut_parts(network, rest, room),
        None => Vec::new(),
    }
}

/// How long the lent buffer is, the network, and what follows it. Two bytes say how long the buffer
/// is, two how long the network is; then comes the program's input.
fn split_lent(input: &[u8]) -> Option<(usize, &[u8], &[u8])> {
    let (&[r1, r0, n1, n0], plan) = input.split_first_chunk()?;
    let room = usize::from(u16::from_be_bytes([r1, r0]));
    let length = usize::from(u16::from_be_bytes([n1, n0])).min(plan.len());
    let (network, rest) = plan.split_at(length);
    Some((room, network, rest))
}

/// The join: a network and then another; the two as one back, or a line.
pub fn join_bytes(input: &[u8]) -> Vec<u8> {
    let (first, second) = split(input);
    // The joint network is never larger than the two together.
    record_or_line(input.len(), |out| join::join(first, second, out))
}

/// Joining records that are handed over apart, into a buffer of a given length: the number 5 of the
/// first network can be met here, and 20.
pub fn lent_join_bytes(input: &[u8]) -> Vec<u8> {
    match split_lent(input) {
        Some((room, first, second)) => record_or_line(room, |out| join::join(first, second, out)),
        None => Vec::new(),
    }
}

/// Parts the network from what follows. Where the length field is missing or points past the
/// end, all bytes are the network's and the check will say what is wrong with them.
pub fn split(input: &[u8]) -> (&[u8], &[u8]) {
    let Some(&field) = input.first_chunk() else {
        return (input, &[]);
    };
    let total = u64::from(u32::from_be_bytes(field)) + 4;
    match usize::try_from(total) {
        Ok(total) if total <= input.len() => input.split_at(total),
        _ => (input, &[]),
    }
}

fn verdict_line(verdict: Verdict) -> Vec<u8> {
    match verdict {
        Verdict::Pass { judged } => format!("pass {judged}\n").into_bytes(),
        Verdict::Refused(refusal) => refused_line(refusal),
        Verdict::Found {
            node,
            judged,
            fault,
        } => {
            let number = fault.number();
            let route = Words(fault.route());
            format!("found {number} {node} {judged} {route}\n").into_bytes()
        }
    }
}

fn census_lines(census: &Census) -> String {
    let Census {
        boxes,
        holding,
        inputs,
        assumed,
        promises,
        promised,
        asked,
        silent,
    } = census;
    let mut lines = format!("holding {holding} of {boxes}\n");
    lines += &format!("assumed {assumed} of {inputs}\n");
    lines += &format!("promised {promised} of {promises}\n");
    lines += &format!("asked {asked}\n");
    for id in silent {
        lines += &format!("silent {id}\n");
    }
    lines
}

fn trail_lines(steps: &[Step]) -> String {
    let mut lines = String::new();
    for step in steps {
        let (id, route) = (step.id, Words(step.route));
        writeln!(lines, "{id} {route}").expect("a string has room");
    }
    lines
}

pub fn refused_line(refusal: Refusal) -> Vec<u8> {
    let Refusal { number, place } = refusal;
    format!("refused {number} {place}\n").into_bytes()
}

/// A route as a line has it.
struct Words(Option<Route>);

impl fmt::Display for Words {
    fn fmt(&self, out: &mut fmt::Formatter) -> fmt::Result {
        let Some(route) = self.0 else {
            return out.write_str("none");
        };
        let (preference, cost) = (route.preference(), route.cost());
        let (origin, tags) = (route.origin(), route.tags());
        write!(out, "{preference} {cost} {origin} {tags}")
    }
}
