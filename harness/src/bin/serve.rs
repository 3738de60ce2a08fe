//! Answers requests to list, rewrite and edit index files; `tests/edit_requests.py` says how they are spelled. Each is
//! answered by the proved library and by the independent one: the program ends with status 1 where these differ or a
//! call did more than it may.

#![deny(warnings)]

use harness::comparison::{Comparison, Reply};
use harness::inputs::requests::Call;
use harness::kind::{Kind, Object, OBJECT};
use harness::lent::{Edge, Place};
use harness::listing;
use harness::replies::{Fields, WORKSPACE};
use std::fmt::Display;
use std::io::{self, BufRead, BufReader, BufWriter, Read, Write};
use std::process::exit;
use std::str::{FromStr, SplitWhitespace};

/// The length of a workspace, with bytes that stay untouched.
const WORK: usize = WORKSPACE + 100;

fn main() {
    let mut input = BufReader::new(io::stdin().lock());
    let mut output = BufWriter::new(io::stdout().lock());
    let mut server = Server {
        comparison: Comparison::new(Place::Pages),
    };
    while let Some(request) = Request::read(&mut input) {
        let sent = server.answer(&request, &mut output);
        if sent.and_then(|()| output.flush()).is_err() {
            die("an answer cannot be written");
        }
    }
}

fn die(why: impl Display) -> ! {
    eprintln!("serve: {why}");
    exit(1)
}

// ---- answers

struct Server {
    comparison: Comparison,
}

impl Server {
    fn answer(&mut self, request: &Request, output: &mut impl Write) -> io::Result<()> {
        self.comparison.lend_file(&request.file, Edge::End);
        let call = match &request.call {
            Some(call) => call,
            None => {
                let text = self.listing(request);
                return done(output, text.as_bytes());
            }
        };
        match self.reply(request, call) {
            Reply::Write(reply) if reply.refusal == 0 => {
                done(output, self.comparison.written(reply.length))
            }
            Reply::Write(reply) => writeln!(output, "refused {} {}", reply.refusal, reply.place),
            reply => die(format!("{call}: {reply:?}")),
        }
    }

    fn listing(&mut self, request: &Request) -> String {
        let checked = match self.reply(request, &Call::Check) {
            Reply::Check(checked) => checked,
            reply => die(format!("check: {reply:?}")),
        };
        if checked.refusal > 0 {
            return listing::refused(&checked);
        }
        for k in 0..checked.nodes {
            self.reply(request, &Call::TreeNode(k));
        }
        for k in 0..checked.records {
            self.reply(request, &Call::UndoRecord(k));
        }
        listing::listing(request.kind, &checked, |k| {
            match self.reply(request, &Call::Entry(k)) {
                Reply::Entry(entry) => (entry.fields, self.comparison.shown(entry.name).to_vec()),
                reply => die(format!("entry: {reply:?}")),
            }
        })
    }

    /// The reply of a call, by both libraries.
    fn reply(&mut self, request: &Request, call: &Call) -> Reply {
        let comparison = &mut self.comparison;
        comparison.lend_name(call.name(), Edge::End);
        let (kind, room) = (request.kind.number(), request.room);
        let asked = comparison.both(kind, call, WORK, room);
        let stay = comparison.inputs_stay(&request.file, call.name());
        match asked.and_then(|reply| stay.and(Ok(reply))) {
            Ok(reply) => reply,
            Err(why) => die(why),
        }
    }
}

fn done(output: &mut impl Write, bytes: &[u8]) -> io::Result<()> {
    writeln!(output, "done {}", bytes.len())?;
    output.write_all(bytes)
}

// ---- requests

struct Request {
    kind: Kind,
    file: Vec<u8>,
    room: usize,
    /// What is asked, where it is not the listing.
    call: Option<Call>,
}

impl Request {
    /// The next request, none at the end of the input.
    fn read(input: &mut impl BufRead) -> Option<Self> {
        let mut line = String::new();
        match input.read_line(&mut line) {
            Ok(0) => return None,
            Ok(_) => (),
            Err(error) => die(error),
        }
        let mut words = Words(line.split_whitespace());
        let call = words.text().to_string();
        let kind = words.kind();
        let file = bytes(input, words.number());
        let name = bytes(input, words.number());
        let (asked, room) = (words.number(), words.number());
        let call = match call.as_str() {
            "list" => None,
            "rewrite" => Some(Call::Rewrite(asked)),
            "put" => Some(Call::Put(asked, name, words.fields(kind))),
            "remove" => Some(Call::Remove(asked, name, words.number())),
            other => die(format!("{other} is no call")),
        };
        Some(Self {
            kind,
            file,
            room,
            call,
        })
    }
}

/// The words of a request's line.
struct Words<'a>(SplitWhitespace<'a>);

impl Words<'_> {
    fn text(&mut self) -> &str {
        match self.0.next() {
            Some(word) => word,
            None => die("a request has too few words"),
        }
    }

    fn number<T: FromStr>(&mut self) -> T {
        let word = self.text();
        match word.parse() {
            Ok(number) => number,
            Err(_) => die(format!("{word} is no number")),
        }
    }

    fn bit(&mut self) -> bool {
        self.number::<u8>() == 1
    }

    fn kind(&mut self) -> Kind {
        let number = self.number();
        match Kind::of(number) {
            Some(kind) => kind,
            None => die(format!("{number} is no kind")),
        }
    }

    fn fields(&mut self, kind: Kind) -> Fields {
        Fields {
            stage: self.number(),
            ctime_seconds: self.number(),
            ctime_nanoseconds: self.number(),
            mtime_seconds: self.number(),
            mtime_nanoseconds: self.number(),
            dev: self.number(),
            ino: self.number(),
            mode: self.number(),
            uid: self.number(),
            gid: self.number(),
            size: self.number(),
            object: object(kind, self.text()),
            assume_valid: self.bit(),
            skip_worktree: self.bit(),
            intent_to_add: self.bit(),
        }
    }
}

fn object(kind: Kind, hex: &str) -> Object {
    let mut object = [0; OBJECT];
    for (k, byte) in object[..kind.width()].iter_mut().enumerate() {
        let digits = hex.get(2 * k..2 * k + 2);
        match digits.map(|digits| u8::from_str_radix(digits, 16)) {
            Some(Ok(value)) => *byte = value,
            _ => die(format!("{hex} is no object name")),
        }
    }
    object
}

fn bytes(input: &mut impl Read, length: usize) -> Vec<u8> {
    let mut bytes = vec![0; length];
    if input.read_exact(&mut bytes).is_err() {
        die("a request is cut");
    }
    bytes
}
