//! What several tests use.
#![allow(dead_code)]

use reference::call::{CUT, JOIN, JUDGE};
use reference::form::{FORMS, VERSION_1};
use reference::input::Input;
use reference::plan::{self, Listed, Noted, Plan};
use reference::refusal::Refusal;

/// A list of document 01's form.
pub fn list_record(entries: &[Listed]) -> Vec<u8> {
    plan::list_record(VERSION_1, entries)
}

/// A sheet of document 01's form.
pub fn sheet_record(entries: &[Noted]) -> Vec<u8> {
    plan::sheet_record(VERSION_1, entries)
}

/// What the judge writes.
pub fn judge_bytes(input: &[u8]) -> Vec<u8> {
    JUDGE.answer(input)
}

/// What the cutter writes.
pub fn cut_bytes(input: &[u8]) -> Vec<u8> {
    CUT.answer(input)
}

/// The judge's line for a plan and a list, without its line feed.
pub fn judge(plan: &Plan, list: &[Listed]) -> String {
    line(&Input::judge(plan, list).answer())
}

pub fn judge_records(network: &[u8], list: &[u8]) -> String {
    line(&judge_bytes(&[network, list].concat()))
}

/// The cutter's output for a plan, the fragment asked and a sheet.
pub fn cut(plan: &Plan, asked: u8, sheet: &[Noted]) -> Vec<u8> {
    Input::cut(plan, asked, sheet).answer()
}

/// The cutter's line, of a call that is refused.
pub fn cut_line(plan: &Plan, asked: u8, sheet: &[Noted]) -> String {
    line(&cut(plan, asked, sheet))
}

pub fn cut_records(network: &[u8], asked: u8, sheet: &[u8]) -> Vec<u8> {
    cut_bytes(&[network, &[asked], sheet].concat())
}

/// The lines of the census for a plan and a list.
pub fn census(plan: &Plan, list: &[Listed]) -> Vec<String> {
    lines(&Input::census(plan, list).answer())
}

/// The lines of a trail for a plan, the id that names a box, and a list.
pub fn trail(plan: &Plan, id: u16, list: &[Listed]) -> Vec<String> {
    lines(&Input::trail(plan, id, list).answer())
}

/// What the join answers to two plans.
pub fn joined([first, second]: &[Plan; 2]) -> Vec<u8> {
    Input::join(first, second).answer()
}

/// What the join answers to two records.
pub fn join_records(first: &[u8], second: &[u8]) -> Vec<u8> {
    JOIN.answer(&[first, second].concat())
}

/// A line is ASCII and ends in its only line feed.
pub fn line(output: &[u8]) -> String {
    let mut lines = lines(output);
    assert_eq!(lines.len(), 1, "one line only");
    lines.remove(0)
}

/// Each line ends in one line feed, the last one too.
pub fn lines(output: &[u8]) -> Vec<String> {
    let text = std::str::from_utf8(output).expect("lines of text");
    let ended = text.strip_suffix('\n').expect("a line feed at the end");
    ended.split('\n').map(str::to_string).collect()
}

/// The version bytes that no form has.
pub fn unknown_versions() -> impl Iterator<Item = u8> {
    let known = |version: &u8| FORMS.iter().any(|form| form.version == *version);
    (0..=u8::MAX).filter(move |version| !known(version))
}

/// A record with bytes written over it.
pub fn over(mut record: Vec<u8>, offset: usize, bytes: &[u8]) -> Vec<u8> {
    record[offset..offset + bytes.len()].copy_from_slice(bytes);
    record
}

pub fn refused(number: u8, place: usize) -> Result<(), Refusal> {
    Err(Refusal { number, place })
}
