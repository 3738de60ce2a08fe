//! Has made requests to rewrite and edit files answered by the proved library and by the independent one, and compares
//! the answers with the known ones, byte for byte. A file that was written must then be accepted, with a checksum, and
//! stay as it is when it is rewritten in its version.
//!
//!     edits [DRAWN [FIRST]]
//!
//! takes the cases without chance, those on large files, and those of DRAWN drawn files from number FIRST on: 200 and 0
//! where they are not told. Each kind of object names has all of them. The last line is 'N passed, M failed', and the exit
//! status is 0 only where M is 0.

#![deny(warnings)]

use harness::comparison::{Comparison, Reply};
use harness::edits::{drawn, Answer, Case, GROUPS, LARGE};
use harness::inputs::requests::Call;
use harness::kind::Kind;
use harness::lent::{Edge, Place};
use harness::replies::WORKSPACE;
use std::env;
use std::ops::Range;
use std::process::exit;
use std::time::Instant;

/// How many failures are told.
const TOLD: u64 = 20;
/// The answer to a put that would bring stage 0 together with another stage of its name.
const MIXING: Answer = Answer::Refused(11, 0);
/// Of the given number of drawn files, or more, there must be as many such puts.
const COVERING: u64 = 100;

fn main() {
    let words: Vec<String> = env::args().skip(1).collect();
    let numbers: Vec<u64> = words.iter().filter_map(|word| word.parse().ok()).collect();
    if numbers.len() < words.len() || words.len() > 2 {
        eprintln!("usage: edits [DRAWN [FIRST]]");
        exit(2);
    }
    let count = numbers.first().copied().unwrap_or(200);
    let first = numbers.get(1).copied().unwrap_or(0);
    let mut tests = Tests {
        comparison: Comparison::new(Place::Pages),
        passed: 0,
        failed: 0,
    };
    for kind in Kind::ALL {
        tests.kind(kind, first..first + count);
    }
    println!("{} passed, {} failed", tests.passed, tests.failed);
    exit(i32::from(tests.failed > 0));
}

struct Tests {
    comparison: Comparison,
    passed: u64,
    failed: u64,
}

impl Tests {
    /// The cases of a kind, those of the drawn files of these numbers included.
    fn kind(&mut self, kind: Kind, numbers: Range<u64>) {
        println!("{}", kind.name());
        for (name, group) in GROUPS {
            self.group(name, group(kind));
        }
        let (files, mut mixing) = (numbers.end - numbers.start, 0);
        let cases = numbers.flat_map(|number| drawn(kind, number));
        let counted = |case: &Case| mixing += u64::from(case.answer == MIXING);
        self.group("drawn", cases.inspect(counted));
        println!("drawn: {mixing} puts would mix stages");
        self.failed += u64::from(files >= COVERING && mixing < files);
        self.group("large", LARGE.iter().flat_map(|group| group(kind)));
    }

    fn group(&mut self, name: &str, cases: impl IntoIterator<Item = Case>) {
        let (before, start) = (self.passed + self.failed, Instant::now());
        for case in cases {
            self.case(&case);
        }
        let tests = self.passed + self.failed - before;
        let seconds = start.elapsed().as_secs_f64();
        println!("{name}: {tests} tests in {seconds:.1} s");
    }

    /// Makes a case's call with each length of the output, and looks at what was written.
    fn case(&mut self, case: &Case) {
        for (room, answer) in case.rooms() {
            self.lend(&case.file, &case.call);
            let asked = self.asked(case.kind, &case.call, case.work, room, &answer);
            let stay = self.comparison.inputs_stay(&case.file, case.call.name());
            self.count(case, asked.and(stay));
        }
        if let Answer::Written(result) = &case.answer {
            let checked = self.accepted(case.kind, result);
            self.count(case, checked);
            let version = u32::from_be_bytes([result[4], result[5], result[6], result[7]]);
            let again = self.asked(
                case.kind,
                &Call::Rewrite(version),
                WORKSPACE,
                result.len(),
                &case.answer,
            );
            self.count(
                case,
                again.map_err(|why| format!("its result again: {why}")),
            );
        }
    }

    fn lend(&mut self, file: &[u8], call: &Call) {
        let edge = match self.passed % 2 {
            0 => Edge::Start,
            _ => Edge::End,
        };
        self.comparison.lend_file(file, edge);
        self.comparison.lend_name(call.name(), edge);
    }

    fn asked(
        &mut self,
        kind: u32,
        call: &Call,
        work: usize,
        room: usize,
        answer: &Answer,
    ) -> Result<(), String> {
        let reply = self.comparison.both(kind, call, work, room)?;
        if reply != answer.reply() {
            let expected = answer.reply();
            return Err(format!("output {room}: {reply:?}, not {expected:?}"));
        }
        match answer {
            Answer::Written(bytes) if self.comparison.written(bytes.len()) != bytes => {
                let pairs = self.comparison.written(bytes.len()).iter().zip(bytes);
                let same = pairs.take_while(|(ours, known)| ours == known).count();
                Err(format!("output {room}: byte {same} is another"))
            }
            _ => Ok(()),
        }
    }

    /// Lends a result and sees that check accepts it and finds a checksum.
    fn accepted(&mut self, kind: u32, result: &[u8]) -> Result<(), String> {
        self.lend(result, &Call::Check);
        match self.comparison.both(kind, &Call::Check, WORKSPACE, 0)? {
            Reply::Check(reply) if reply.refusal == 0 && !reply.checksum_left_out => Ok(()),
            reply => Err(format!("its result: {reply:?}")),
        }
    }

    fn count(&mut self, case: &Case, result: Result<(), String>) {
        let why = match result {
            Ok(()) => return self.passed += 1,
            Err(why) => why,
        };
        self.failed += 1;
        if self.failed <= TOLD {
            println!("FAILED: {}: {}: {why}", case.name, case.call);
        }
    }
}
