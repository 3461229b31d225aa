//! The rules once more, slowly and by quantifiers: "some", "all", "the first", with no table and
//! no walk side by side. On all stored cases the answers must be the same.

mod calls;
mod forms;

use forms::{long, word, Refused, FORMS};
use reference::call::{CENSUS, JUDGE, TRAIL};
use reference::cases::{self, Case};
use reference::program::split;

fn answer(case: &Case) -> Vec<u8> {
    let input = &case.input;
    line(match case.call.name {
        "judge" => program(input, with_entries(2, 0), judge),
        "cut" => program(input, with_entries(3, 1), cut),
        "lent" => lent(input, cut),
        "census" => program(input, with_entries(2, 0), census),
        "trail" => program(input, with_entries(2, 2), trail),
        "join" => program(input, two_networks(), calls::join),
        "lent-join" => lent(input, calls::join),
        other => panic!("{other} is not defined here"),
    })
}

/// What a call answers to a network and what follows it.
type Answer = Result<Vec<u8>, Refused>;

/// A network and what follows it, answered.
type Told = fn(&[u8], &[u8]) -> Answer;

/// The largest network and the largest record with this lead in its entries, and `more` bytes.
fn with_entries(lead: usize, more: usize) -> usize {
    let sizes = FORMS.map(|form| form.largest() + form.largest_entries(lead));
    sizes.into_iter().max().expect("a form") + more
}

fn two_networks() -> usize {
    let sizes = FORMS.map(|form| form.largest());
    2 * sizes.into_iter().max().expect("a form")
}

/// The answer of a program that reads so many bytes at most.
fn program(input: &[u8], bound: usize, call: Told) -> Answer {
    if input.len() > bound {
        return Err((5, bound));
    }
    let end = if input.len() < 4 {
        input.len()
    } else {
        (long(input) + 4).min(input.len() as u64) as usize
    };
    let (network, rest) = input.split_at(end);
    call(network, rest)
}

fn judge(network: &[u8], list: &[u8]) -> Answer {
    calls::judge(network, list).map(String::into_bytes)
}

fn census(network: &[u8], list: &[u8]) -> Answer {
    calls::census(network, list).map(String::into_bytes)
}

/// What follows the network is the id that names a box, its high byte first, and then the list.
fn trail(network: &[u8], rest: &[u8]) -> Answer {
    let byte = |at: usize| u16::from(*rest.get(at).unwrap_or(&0));
    let list = rest.get(2..).unwrap_or(&[]);
    calls::trail(network, list, byte(0) * 256 + byte(1)).map(String::into_bytes)
}

/// What follows the network is the fragment asked, and then the sheet.
fn cut(network: &[u8], rest: &[u8]) -> Answer {
    let (asked, sheet) = (*rest.first().unwrap_or(&0), rest.get(1..).unwrap_or(&[]));
    calls::cut(network, asked, sheet)
}

/// The lengths of the buffer and of the network come first.
fn lent(input: &[u8], call: Told) -> Answer {
    let (room, length) = (word(input, 0), word(input, 2));
    let plan = &input[4..];
    let (network, rest) = plan.split_at(plan.len().min(length.into()));
    match call(network, rest)? {
        bytes if bytes.len() > room.into() => Err((20, bytes.len())),
        bytes => Ok(bytes),
    }
}

fn line(answer: Answer) -> Vec<u8> {
    answer.unwrap_or_else(|(number, place)| format!("refused {number} {place}\n").into())
}

#[test]
fn stored_answers_are_those_of_the_definition() {
    for (number, case) in cases::make().cases.iter().enumerate() {
        assert!(answer(case) == case.answer, "case {number}");
    }
}

/// The census reads what the judge reads, so the judge's cases are counted too.
#[test]
fn cases_of_the_judge_counted() {
    for (number, case) in cases::make().cases.iter().enumerate() {
        if case.call.name == JUDGE.name {
            let counted = line(program(&case.input, with_entries(2, 0), census));
            assert!(counted == CENSUS.answer(&case.input), "case {number}");
        }
    }
}

/// With an id put between its records an input of the judge is one of the trail: its lists pass and
/// fail, and some of its ids are own boxes'.
#[test]
fn cases_of_the_judge_traced() {
    for (number, case) in cases::make().cases.iter().enumerate() {
        let (network, list) = split(&case.input);
        if case.call.name != JUDGE.name || list.len() < 9 {
            continue;
        }
        for id in [&list[7..9], &[0, 3]] {
            let input = [network, id, list].concat();
            let traced = line(program(&input, with_entries(2, 2), trail));
            assert!(traced == TRAIL.answer(&input), "case {number}");
        }
    }
}
