//! The stored cases: a stream of inputs, always the same, and the answers to them.
//!
//! A case is one byte, the call's number, the input's length as u32 and the input; its answer is
//! the output's length as u32 and the output. All numbers are big-endian.

use crate::call::{Call, CALLS};
use crate::input::Input;
use crate::random::Random;
use std::collections::BTreeSet;
use std::fmt;
use std::io;

pub mod counted;
pub mod examples;
mod groups;
pub mod inputs;
pub mod joined;
pub mod traced;

const SEED: u64 = 0x6b69_7269_6761_6d69;

pub struct Case {
    pub call: &'static Call,
    pub input: Vec<u8>,
    pub answer: Vec<u8>,
    kind: String,
}

/// The cases so far.
#[derive(Default)]
pub struct Stream {
    pub cases: Vec<Case>,
}

impl Stream {
    fn add(&mut self, call: &'static Call, input: &[u8]) {
        let answer = call.answer(input);
        self.cases.push(Case {
            call,
            input: input.to_vec(),
            kind: kind_of(&answer),
            answer,
        });
    }

    fn add_parts(&mut self, input: &Input) {
        self.add(input.call, &input.bytes());
    }

    pub fn inputs(&self) -> Vec<u8> {
        let mut inputs = Vec::new();
        for case in &self.cases {
            inputs.push(case.call.number);
            lay(&mut inputs, &case.input);
        }
        inputs
    }

    pub fn answers(&self) -> Vec<u8> {
        let mut answers = Vec::new();
        for case in &self.cases {
            lay(&mut answers, &case.answer);
        }
        answers
    }

    /// How often a call gave an answer of this kind.
    pub fn given(&self, kind: &str, call: &Call) -> usize {
        let given = |case: &&Case| case.call.number == call.number && case.kind == kind;
        self.cases.iter().filter(given).count()
    }
}

/// Lays down a length and the bytes that it counts.
fn lay(stream: &mut Vec<u8>, bytes: &[u8]) {
    stream.extend((bytes.len() as u32).to_be_bytes());
    stream.extend(bytes);
}

/// What the answer says, without its places: "pass", "found 31", "refused 7", "trail" or "network".
/// A network begins with a zero byte, since it is shorter than 2 to the 24, and a trail with an id.
fn kind_of(answer: &[u8]) -> String {
    match answer.first() {
        Some(0) => return "network".to_string(),
        Some(byte) if byte.is_ascii_digit() => return "trail".to_string(),
        _ => {}
    }
    let line = String::from_utf8_lossy(answer);
    let mut words = line.split_whitespace();
    match (words.next(), words.next()) {
        (Some("pass"), _) => "pass".to_string(),
        (Some(word), Some(number)) => format!("{word} {number:>2}"),
        _ => line.to_string(),
    }
}

impl fmt::Display for Stream {
    /// How often each kind of answer was given to each of the calls.
    fn fmt(&self, out: &mut fmt::Formatter) -> fmt::Result {
        write!(out, "{:<10}", "answer")?;
        for call in CALLS {
            write!(out, " {:>9}", call.name)?;
        }
        let kinds: BTreeSet<&str> = self.cases.iter().map(|case| &case.kind[..]).collect();
        for kind in kinds {
            write!(out, "\n{kind:<10}")?;
            for call in CALLS {
                write!(out, " {:>9}", self.given(kind, call))?;
            }
        }
        let bytes = self.inputs().len() + self.answers().len();
        write!(out, "\n{} cases, {bytes} bytes", self.cases.len())
    }
}

/// All cases. Each group has numbers of its own, so that a change to one leaves the others as they
/// are.
pub fn make() -> Stream {
    let mut stream = Stream::default();
    for (number, (form, times, group)) in groups::ALL.iter().enumerate() {
        let mut random = Random::new(SEED + number as u64);
        (0..*times).for_each(|_| group(&mut stream, *form, &mut random));
    }
    stream
}

/// Answers a stream of cases. What is left of a case that is cut short has no answer; a number
/// that no call has is an error.
pub fn replay(mut stream: &[u8]) -> io::Result<Vec<u8>> {
    let mut answers = Vec::new();
    while let Some((&[number, l3, l2, l1, l0], rest)) = stream.split_first_chunk() {
        let length = u32::from_be_bytes([l3, l2, l1, l0]) as usize;
        let Some((input, rest)) = rest.split_at_checked(length) else {
            break;
        };
        let Some(call) = Call::numbered(number) else {
            return Err(io::Error::other(format!("no call has number {number}")));
        };
        lay(&mut answers, &call.answer(input));
        stream = rest;
    }
    Ok(answers)
}
