//! The version that is asked for: 0 means 4, 1 the lowest that the result can have, and one above 4 is refused.

#![deny(warnings)]

use harness::comparison::{Comparison, Reply};
use harness::inputs::requests::{self, Call, ABOVE};
use harness::inputs::{self, Input};
use harness::lent::{Edge, Place};
use harness::opponent;
use harness::random::Random;
use harness::replies::{WriteReply, WORKSPACE};
use harness::vectors::{self, words_of_written};

/// How many drawn inputs are tried beside the vectors.
const DRAWN: u64 = 2000;
/// Refusals: of the asked version, and of version 2 for an entry that needs the extended word.
const VERSION: u32 = 4;
const NEEDS_WORD: u32 = 21;

/// What both libraries answer to a call that writes, with the bytes that they wrote.
fn answer(comparison: &mut Comparison, input: &Input, call: &Call) -> (WriteReply, Vec<u8>) {
    comparison.lend_file(&input.bytes, Edge::End);
    comparison.lend_name(call.name(), Edge::End);
    let reply = comparison.both(input.kind.number(), call, WORKSPACE, input.room);
    match reply.unwrap() {
        Reply::Write(reply) => (reply, comparison.written(reply.length).to_vec()),
        reply => panic!("{call}: {reply:?}"),
    }
}

/// The vectors and some drawn inputs, each with calls that write.
fn questions() -> impl Iterator<Item = (Input, Vec<Call>)> {
    let drawn = (0..DRAWN).map(|number| inputs::input(41, number));
    let all = vectors::inputs().chain(drawn);
    all.zip(0..).map(|(input, number)| {
        let checked = opponent::check(input.kind.number(), &input.bytes, &mut vec![0; WORKSPACE]);
        let mut calls = requests::calls(&mut Random::of(42, number), &input, &checked);
        calls.retain(Call::writes);
        (input, calls)
    })
}

#[test]
fn stored_files_are_rewritten_as_stored() {
    let mut comparison = Comparison::new(Place::Pages);
    for row in vectors::rewritings() {
        let input = inputs::stored(row.kind, &row.file);
        let (reply, written) = answer(&mut comparison, &input, &Call::Rewrite(row.asked));
        let words = words_of_written(&reply, &written);
        assert_eq!(words, row.expected, "{}, asked {}", row.name, row.asked);
    }
}

/// 0 is answered as 4, and 1 as 2, or as 3 where 2 is refused for the extended word. None but 2 is.
#[test]
fn two_numbers_ask_for_the_same() {
    let mut comparison = Comparison::new(Place::Pages);
    let (mut plain, mut extended) = (0, 0);
    for (input, calls) in questions() {
        for call in &calls {
            let asked = [0, 1, 2, 3, 4].map(|asked| call.asking(asked));
            let [default, lowest, two, three, four] =
                asked.map(|call| answer(&mut comparison, &input, &call));
            assert!(default == four, "{call}: 0 is not as 4");
            let needs_word = two.0.refusal == NEEDS_WORD;
            let as_lowest = if needs_word { &three } else { &two };
            assert!(lowest == *as_lowest, "{call}: 1 is not the lowest");
            let refusals = [default, lowest, three, four].map(|(reply, _)| reply.refusal);
            assert!(!refusals.contains(&NEEDS_WORD), "{call}: {refusals:?}");
            plain += u32::from(two.0.refusal == 0);
            extended += u32::from(needs_word);
        }
    }
    assert!(plain > 1000 && extended > 300, "{plain}, {extended}");
}

/// Where the file is accepted, they are refused before all else of the request, and whatever the output's length.
#[test]
fn versions_above_4_are_refused() {
    let mut comparison = Comparison::new(Place::Pages);
    let powers = (3..32).map(|bit| 1 << bit);
    let above: Vec<u32> = (5..=20).chain(powers).chain(ABOVE).collect();
    let refused = WriteReply {
        refusal: VERSION,
        ..WriteReply::default()
    };
    let mut accepted = 0;
    for (mut input, calls) in questions().step_by(5) {
        let kind = input.kind.number();
        let checked = opponent::check(kind, &input.bytes, &mut vec![0; WORKSPACE]);
        let expected = match checked.refusal {
            0 => refused,
            refusal => WriteReply {
                refusal,
                place: checked.place,
                length: 0,
            },
        };
        accepted += u32::from(checked.refusal == 0);
        for (call, asked) in calls
            .iter()
            .flat_map(|call| above.iter().map(move |n| (call, n)))
        {
            input.room = *asked as usize % 100;
            let (reply, _) = answer(&mut comparison, &input, &call.asking(*asked));
            assert_eq!(reply, expected, "{call}, asked {asked}");
        }
    }
    assert!(accepted > 50, "{accepted}");
}
