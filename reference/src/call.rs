//! The calls: what a stored case, a word of the command line and an example's file name stand for.

use crate::form::{Form, FORMS, LIST_LEAD, SHEET_LEAD};
use crate::program;
use crate::refusal::Refusal;

pub struct Call {
    /// The byte that a stored case begins with.
    pub number: u8,
    pub name: &'static str,
    /// The most bytes that it reads, where an input may be over-size.
    bound: Option<fn() -> usize>,
    /// From an input that is not over-size to the output.
    run: fn(&[u8]) -> Vec<u8>,
}

pub const JUDGE: &Call = &Call {
    number: 0,
    name: "judge",
    bound: Some(|| two_records(LIST_LEAD)),
    run: program::judge_bytes,
};

/// The fragment asked is one byte more.
pub const CUT: &Call = &Call {
    number: 1,
    name: "cut",
    bound: Some(|| two_records(SHEET_LEAD) + 1),
    run: program::cut_bytes,
};

/// Cutting into a lent buffer, which is no program.
pub const LENT: &Call = &Call {
    number: 2,
    name: "lent",
    bound: None,
    run: program::lent_bytes,
};

/// It reads what the judge reads.
pub const CENSUS: &Call = &Call {
    number: 3,
    name: "census",
    bound: JUDGE.bound,
    run: program::census_bytes,
};

/// The id that names a box is two bytes more.
pub const TRAIL: &Call = &Call {
    number: 4,
    name: "trail",
    bound: Some(|| two_records(LIST_LEAD) + 2),
    run: program::trail_bytes,
};

pub const JOIN: &Call = &Call {
    number: 5,
    name: "join",
    bound: Some(two_networks),
    run: program::join_bytes,
};

/// Joining into a lent buffer, which is no program.
pub const LENT_JOIN: &Call = &Call {
    number: 6,
    name: "lent-join",
    bound: None,
    run: program::lent_join_bytes,
};

/// All calls by rising number.
pub const CALLS: [&Call; 7] = [JUDGE, CUT, LENT, CENSUS, TRAIL, JOIN, LENT_JOIN];

impl Call {
    pub fn numbered(number: u8) -> Option<&'static Call> {
        CALLS.into_iter().find(|call| call.number == number)
    }

    pub fn named(name: &str) -> Option<&'static Call> {
        CALLS.into_iter().find(|call| call.name == name)
    }

    pub fn bound(&self) -> Option<usize> {
        self.bound.map(|bound| bound())
    }

    /// The output. Over-size comes before all else.
    pub fn answer(&self, input: &[u8]) -> Vec<u8> {
        match self.bound() {
            Some(place) if input.len() > place => {
                program::refused_line(Refusal { number: 5, place })
            }
            _ => (self.run)(input),
        }
    }
}

/// The largest network and the largest record whose entries have this lead, together.
fn two_records(lead: usize) -> usize {
    largest(|form| form.largest_network() + form.largest_entries(lead))
}

/// The largest network, twice.
fn two_networks() -> usize {
    largest(|form| 2 * form.largest_network())
}

/// The largest size of any form.
fn largest(size: impl Fn(Form) -> usize) -> usize {
    FORMS.into_iter().map(size).max().expect("a form")
}
