//! Compares the proved library with an independent one: every call, with several requests for each input. Replies,
//! workspaces and outputs must be equal, byte for byte, and what was not lent must stay.
//!
//!     compare [--heap] [SEED [COUNT [FIRST]]]
//!     compare --files FOLDER [KIND]
//!
//! takes COUNT made inputs of a seed from number FIRST on: seed 1, 10,000 inputs and number 0 where they are not told.
//! With --heap everything is lent from the heap in its exact size, for valgrind. With --files it takes the files of a
//! folder that is laid out as `tests/vectors`, with check's answers for a kind of object names, which is 1 where it is
//! not told. A call that touches a page without access ends the
//! program by a signal; FIRST and COUNT then find the input. The last line is 'N passed, M failed', and the exit status
//! is 0 only where M is 0.

#![deny(warnings)]

use harness::comparison::{Comparison, Reply};
use harness::inputs::requests::{self, Call};
use harness::inputs::{self, Input, Known, Shape, ORDER, WRONG_CHECKSUM};
use harness::kind::{Kind, UNKNOWN};
use harness::lent::{Edge, Place};
use harness::random::Random;
use harness::replies::{CheckReply, WriteReply, WORKSPACE};
use harness::vectors::{self, Vector};
use std::collections::BTreeMap;
use std::env;
use std::fmt;
use std::fs;
use std::ops::Range;
use std::panic::{catch_unwind, AssertUnwindSafe};
use std::path::Path;
use std::process::exit;
use std::thread;
use std::time::Instant;

/// The numbers of refusals, after 0 for a success.
const REFUSALS: [u32; 23] = [
    0, 1, 2, 3, 4, 5, 6, 7, 8, 9, 10, 11, 12, 13, 14, 15, 16, 17, 18, 19, 20, 21, 29,
];
/// The versions that are asked for, with those that are then written: for 1 the lowest that the entries can have.
const WRITTEN: [(u32, u32); 6] = [(0, 4), (1, 2), (1, 3), (2, 2), (3, 3), (4, 4)];
/// A run of the given number of inputs or more must meet every refusal and every version.
const COVERING: u64 = 10_000;
/// How many failures of a thread are told in full.
const TOLD: u64 = 10;

fn main() {
    let run = match Run::new(&env::args().skip(1).collect::<Vec<_>>()) {
        Some(run) => run,
        None => {
            eprintln!(
                "usage: compare [--heap] [SEED [COUNT [FIRST]]], or compare --files FOLDER [KIND]"
            );
            exit(2);
        }
    };
    let start = Instant::now();
    let counts = run.counts();
    counts.print();
    println!("{run} in {:.1} s", start.elapsed().as_secs_f64());
    let missed = match run.count >= COVERING && run.files.is_empty() {
        true => counts.missed(),
        false => 0,
    };
    let failed = counts.failed + missed;
    println!("{} passed, {failed} failed", run.count - counts.failed);
    exit(i32::from(failed > 0));
}

// ---- a run

/// Which inputs are taken, and where everything is lent.
struct Run {
    place: Place,
    /// The inputs, where they are not made of a seed, and their kind.
    files: Vec<Vector>,
    kind: Kind,
    seed: u64,
    count: u64,
    first: u64,
}

impl Run {
    fn new(words: &[String]) -> Option<Self> {
        match words {
            [option, folder, kind @ ..] if option == "--files" => Self::stored(folder, kind),
            [option, words @ ..] if option == "--heap" => Self::seeded(Place::Heap, words),
            _ => Self::seeded(Place::Pages, words),
        }
    }

    fn stored(folder: &str, kind: &[String]) -> Option<Self> {
        let kind = match kind {
            [] => Kind::Sha1,
            [number] => Kind::of(number.parse().ok()?)?,
            _ => return None,
        };
        let files = vectors::of(Path::new(folder));
        let count = files.len() as u64;
        Some(Self {
            files,
            kind,
            ..Self::of(Place::Pages, [1, count, 0])
        })
    }

    fn seeded(place: Place, words: &[String]) -> Option<Self> {
        let numbers: Result<Vec<u64>, _> = words.iter().map(|word| word.parse()).collect();
        let numbers = match numbers.ok()?[..] {
            [] => [1, COVERING, 0],
            [seed] => [seed, COVERING, 0],
            [seed, count] => [seed, count, 0],
            [seed, count, first] => [seed, count, first],
            _ => return None,
        };
        numbers[1].checked_add(numbers[2])?;
        Some(Self::of(place, numbers))
    }

    fn of(place: Place, [seed, count, first]: [u64; 3]) -> Self {
        Self {
            place,
            files: Vec::new(),
            kind: Kind::Sha1,
            seed,
            count,
            first,
        }
    }

    /// Takes all inputs, with a thread for each processor. On the heap there is one: valgrind runs no two at a time.
    fn counts(&self) -> Counts {
        let threads = match self.place {
            Place::Heap => 1,
            Place::Pages => thread::available_parallelism().map_or(1, |n| n.get() as u64),
        };
        let end = |share: u64| self.first + self.count * share / threads;
        thread::scope(|scope| {
            let share = |k| scope.spawn(move || self.share(end(k)..end(k + 1)));
            let shares: Vec<_> = (0..threads).map(share).collect();
            let mut counts = Counts::default();
            for share in shares {
                counts.add(share.join().expect("the counts of a share"));
            }
            counts
        })
    }

    fn share(&self, numbers: Range<u64>) -> Counts {
        let mut questions = Questions {
            comparison: Comparison::new(self.place),
            kind: self.kind,
            counts: Counts::default(),
        };
        for number in numbers {
            let (input, expected) = self.input(number);
            let random = Random::of(self.seed, !number);
            let compared = AssertUnwindSafe(|| questions.input(&input, expected, random));
            let result = catch_unwind(compared);
            if let Err(why) = result.unwrap_or(Err("a panic".to_string())) {
                questions.counts.failed += 1;
                if questions.counts.failed <= TOLD {
                    self.tell(number, &input.bytes, &why);
                }
            }
        }
        questions.counts
    }

    /// An input, and check's answer in words where it is known.
    fn input(&self, number: u64) -> (Input, Option<&str>) {
        match self.files.get(number as usize) {
            None => (inputs::input(self.seed, number), None),
            Some(stored) => {
                let input = inputs::stored(self.kind, &stored.file);
                (input, Some(&stored.expected))
            }
        }
    }

    /// Tells a failure and keeps its input.
    fn tell(&self, number: u64, input: &[u8], why: &str) {
        if let Some(stored) = self.files.get(number as usize) {
            return println!("FAILED: {}: {why}", stored.name);
        }
        let seed = self.seed;
        let path = env::temp_dir().join(format!("compare-{seed}-{number}.index"));
        let kept = match fs::write(&path, input) {
            Ok(()) => path.display().to_string(),
            Err(error) => format!("not kept: {error}"),
        };
        println!("FAILED: seed {seed}, input {number} ({kept}): {why}");
    }
}

impl fmt::Display for Run {
    fn fmt(&self, f: &mut fmt::Formatter) -> fmt::Result {
        let (seed, count, first) = (self.seed, self.count, self.first);
        match self.files.is_empty() {
            true => write!(f, "{count} inputs of seed {seed} from number {first} on"),
            false => write!(f, "{count} files of kind {}", self.kind.number()),
        }
    }
}

// ---- the questions

/// What a thread asks both libraries, and what it met.
struct Questions {
    comparison: Comparison,
    /// The kind that is asked with.
    kind: Kind,
    counts: Counts,
}

impl Questions {
    /// Asks everything about an input.
    fn input(
        &mut self,
        input: &Input,
        expected: Option<&str>,
        mut random: Random,
    ) -> Result<(), String> {
        let random = &mut random;
        self.kind = input.kind;
        self.lend(random, &input.bytes, b"");
        let checked = self.check()?;
        self.counts.input(input, &checked);
        expected_of(input, &checked)?;
        let words = vectors::words(&checked);
        if expected.map_or(false, |expected| expected != words) {
            return Err(format!("{words}, not {expected:?}"));
        }
        let calls = requests::calls(random, input, &checked);
        for call in &calls {
            self.ask(random, call, input)?;
        }
        self.other_kinds(random, &calls, input)?;
        self.unknown_kind(random, &calls, input)?;
        self.lend(random, &input.bytes, b"");
        match checked.refusal {
            0 => self.walk()?,
            _ => self.refused_first(&checked)?,
        }
        self.comparison.inputs_stay(&input.bytes, b"")
    }

    fn lend(&mut self, random: &mut Random, file: &[u8], name: &[u8]) {
        let edges = [Edge::Start, Edge::End];
        self.comparison.lend_file(file, *random.pick(&edges));
        self.comparison.lend_name(name, *random.pick(&edges));
    }

    fn check(&mut self) -> Result<CheckReply, String> {
        match self.both(&Call::Check, WORKSPACE, 0)? {
            Reply::Check(checked) => Ok(checked),
            _ => Err("check has another reply".to_string()),
        }
    }

    /// Makes a call; one that writes with an ample output, and then with one that is exactly long enough, a byte short
    /// or empty.
    fn ask(&mut self, random: &mut Random, call: &Call, input: &Input) -> Result<(), String> {
        let work = requests::workspace(random);
        if !call.writes() {
            return self.both(call, work, 0).map(|_| ());
        }
        self.lend(random, &input.bytes, call.name());
        let reply = self.both(call, work, input.room)?;
        if let Reply::Write(WriteReply {
            refusal: 0, length, ..
        }) = reply
        {
            let result = self.comparison.written(length).to_vec();
            let room = *random.pick(&[length, length, length - 1, 0]);
            self.both(call, work, room)?;
            self.comparison.inputs_stay(&input.bytes, call.name())?;
            let again = self.again(random, &result);
            let version = again.map_err(|why| format!("{call}: {why}"))?;
            return self.counts.written(call, version);
        }
        self.comparison.inputs_stay(&input.bytes, call.name())
    }

    /// Makes one of the calls with each other kind of object names: no file has two, but where zeros are in place of the
    /// checksum.
    fn other_kinds(
        &mut self,
        random: &mut Random,
        calls: &[Call],
        input: &Input,
    ) -> Result<(), String> {
        for kind in Kind::ALL.into_iter().filter(|kind| *kind != input.kind) {
            let call = random.pick(calls);
            self.kind = kind;
            self.lend(random, &input.bytes, call.name());
            let reply = self.both(call, requests::workspace(random), input.room)?;
            let accepted = call.works() && reply.refusal() == 0;
            if accepted && !kind.is_left_out(&input.bytes) {
                return Err(format!("{call}, as {}: {reply:?}", kind.name()));
            }
            self.comparison.inputs_stay(&input.bytes, call.name())?;
        }
        self.kind = input.kind;
        Ok(())
    }

    /// Makes one of the calls with a number that no kind has.
    fn unknown_kind(
        &mut self,
        random: &mut Random,
        calls: &[Call],
        input: &Input,
    ) -> Result<(), String> {
        let (kind, call) = (*random.pick(&UNKNOWN), random.pick(calls));
        self.lend(random, &input.bytes, call.name());
        let (work, room) = (requests::workspace(random), random.below(100));
        if let Some(refusal) = self.comparison.unknown_kind(kind, call, work, room)? {
            self.counts.call(refusal)?;
        }
        self.comparison.inputs_stay(&input.bytes, call.name())
    }

    /// Sees that a file that was written is accepted, with a checksum, and stays as it is when it is rewritten in its
    /// version. Answers the version.
    fn again(&mut self, random: &mut Random, result: &[u8]) -> Result<u32, String> {
        self.lend(random, result, b"");
        let checked = self.check()?;
        if checked.refusal > 0 || checked.checksum_left_out {
            return Err(format!("the result: {checked:?}"));
        }
        let reply = self.both(&Call::Rewrite(checked.version), WORKSPACE, result.len())?;
        match reply.refusal() == 0 && self.comparison.written(result.len()) == result {
            true => Ok(checked.version),
            false => Err("the result is not rewritten as it is".to_string()),
        }
    }

    /// Sees that the refusals of a file come before those of a request in which all is wrong.
    fn refused_first(&mut self, checked: &CheckReply) -> Result<(), String> {
        let expected = WriteReply {
            refusal: checked.refusal,
            place: checked.place,
            length: 0,
        };
        let reply = self.both(&Call::Remove(5, Vec::new(), 9), WORKSPACE, 0)?;
        match reply == Reply::Write(expected) {
            true => Ok(()),
            false => Err(format!("a wrong request: {reply:?}")),
        }
    }

    /// Walks over all entries and one step further.
    fn walk(&mut self) -> Result<(), String> {
        let start = match self.both(&Call::WalkStart, WORKSPACE, 0)? {
            Reply::Start(start) => start,
            _ => return Err("walk_start has another reply".to_string()),
        };
        let (mut at, mut left) = (start.at, start.left);
        for _ in 0..=start.left {
            if let Reply::Step(step) = self.both(&Call::WalkNext(at, left), 0, 0)? {
                (at, left) = (step.at, step.left);
            }
        }
        Ok(())
    }

    fn both(&mut self, call: &Call, work: usize, room: usize) -> Result<Reply, String> {
        let reply = self.comparison.both(self.kind.number(), call, work, room)?;
        self.counts.call(reply.refusal())?;
        self.counts.mixing += u64::from(mixes(&reply));
        Ok(reply)
    }
}

/// Sees that check answers what is known of an input.
fn expected_of(input: &Input, checked: &CheckReply) -> Result<(), String> {
    let left_out = input.kind.is_left_out(&input.bytes);
    let right = match (input.known, checked.refusal) {
        (Known::Refused(number, place), _) => (checked.refusal, checked.place) == (number, place),
        (_, 0) => checked.checksum_left_out == left_out,
        (known, number) => known == Known::Nothing && !(number == WRONG_CHECKSUM && left_out),
    };
    match right {
        true => Ok(()),
        false => Err(format!(
            "{:?}, {:?}, checksum left out {left_out}: {checked:?}",
            input.shape, input.known
        )),
    }
}

/// Whether a put was refused since it would bring stage 0 together with another: 11 of a file has another place.
fn mixes(reply: &Reply) -> bool {
    matches!(reply, Reply::Write(reply) if (reply.refusal, reply.place) == (ORDER, 0))
}

// ---- what was met

#[derive(Default)]
struct Counts {
    failed: u64,
    /// How many inputs were accepted whose checksum was left out.
    left_out: u64,
    /// How many puts would have brought stage 0 together with another stage of a name.
    mixing: u64,
    /// How many inputs of each kind and shape there were, and how many of these were accepted.
    inputs: BTreeMap<(Kind, Shape), (u64, u64)>,
    refusals: BTreeMap<u32, u64>,
    /// How often each version was written, by the one that was asked for.
    versions: BTreeMap<(u32, u32), u64>,
}

impl Counts {
    fn input(&mut self, input: &Input, checked: &CheckReply) {
        let of_its_sort = self.inputs.entry((input.kind, input.shape));
        let (inputs, sound) = of_its_sort.or_default();
        *inputs += 1;
        *sound += u64::from(checked.refusal == 0);
        self.left_out += u64::from(checked.checksum_left_out);
    }

    fn add(&mut self, other: Self) {
        self.failed += other.failed;
        self.left_out += other.left_out;
        self.mixing += other.mixing;
        for (sort, (inputs, accepted)) in other.inputs {
            let (all, sound) = self.inputs.entry(sort).or_default();
            *all += inputs;
            *sound += accepted;
        }
        for (refusal, calls) in other.refusals {
            *self.refusals.entry(refusal).or_default() += calls;
        }
        for (versions, calls) in other.versions {
            *self.versions.entry(versions).or_default() += calls;
        }
    }

    fn call(&mut self, refusal: u32) -> Result<(), String> {
        if !REFUSALS.contains(&refusal) {
            return Err(format!("there is no refusal {refusal}"));
        }
        *self.refusals.entry(refusal).or_default() += 1;
        Ok(())
    }

    /// Sees that a result has a version that the call may give.
    fn written(&mut self, call: &Call, version: u32) -> Result<(), String> {
        let row = WRITTEN
            .into_iter()
            .find(|row| call.asked() == Some(row.0) && row.1 == version);
        let row = row.ok_or(format!("{call}: version {version}"))?;
        *self.versions.entry(row).or_default() += 1;
        Ok(())
    }

    /// How many calls were answered with a refusal.
    fn of(&self, refusal: u32) -> u64 {
        self.refusals.get(&refusal).copied().unwrap_or(0)
    }

    fn print(&self) {
        println!("{:>16}  {:>9}  {:>9}  kind", "shape", "inputs", "accepted");
        for ((kind, shape), (inputs, accepted)) in &self.inputs {
            let (shape, kind) = (format!("{shape:?}"), kind.name());
            println!("{shape:>16}  {inputs:>9}  {accepted:>9}  {kind}");
        }
        let left_out = self.left_out;
        println!("{:>16}  {:>9}  {left_out:>9}  checksum left out", "", "");
        println!("{:>16}  {:>9}  puts that mix stages", "", self.mixing);
        println!("{:>16}  {:>9}", "refusal", "calls");
        for refusal in REFUSALS {
            println!("{refusal:>16}  {:>9}", self.of(refusal));
        }
        let calls: u64 = self.refusals.values().sum();
        println!("{:>16}  {calls:>9}", "all");
        println!("{:>16}  {:>9}", "asked, written", "results");
        for ((asked, version), results) in &self.versions {
            println!("{:>16}  {results:>9}", format!("{asked}, {version}"));
        }
    }

    /// How many refusals were not met, or versions, or accepted files without a checksum, or puts that mix stages, and
    /// tells them.
    fn missed(&self) -> u64 {
        let missed = REFUSALS.iter().filter(|refusal| self.of(**refusal) == 0);
        let refusals = missed
            .inspect(|refusal| println!("FAILED: no call was answered with refusal {refusal}"))
            .count() as u64;
        let mut others = 0;
        for versions in WRITTEN {
            if !self.versions.contains_key(&versions) {
                println!("FAILED: no result for the version asked and written {versions:?}");
                others += 1;
            }
        }
        if self.left_out == 0 {
            println!("FAILED: no input was accepted with its checksum left out");
            others += 1;
        }
        if self.mixing == 0 {
            println!("FAILED: no put would bring stage 0 together with another");
            others += 1;
        }
        refusals + others
    }
}
