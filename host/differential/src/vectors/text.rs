//! The stored text.

use super::{answers::Answers, cases::Case, readings::Reading};
use crate::{Call, Functions, Scratch};
use splitter::Kind;
use std::fmt::Write;

/// Lines are no longer than this, where the numbers allow it.
const WIDTH: usize = 100;

/// What stands in place of a lookup type where new tables are entered in lookups.
const IN_LOOKUPS: u32 = 3;

const HEAD: &str = "\
Stored answers, which the program vectors replays. Do not edit: host/differential writes them, and says
in src/vectors.rs what stands where.
";

/// Text in the making.
#[derive(Debug, Default)]
pub struct Text {
    cases: String,
    line: String,
}

impl Text {
    /// Adds a case.
    pub fn case(&mut self, case: &Case, answers: &Answers) {
        let name = &case.name;
        assert!(!name.contains(|letter: char| letter.is_ascii_digit()));
        self.end_line();
        self.word(&format!("case: {name}"));
        self.end_line();
        let call = &answers.split.before;
        let store = &call.store;
        match case.functions {
            Functions::Of(kind) => {
                self.word("lookup type");
                self.number(kind.lookup_type());
            }
            Functions::InLookups => {
                self.word("entered in lookups");
                self.number(IN_LOOKUPS);
                self.word("list");
                self.number(call.lookup_list);
            }
        }
        self.word("table");
        self.number(call.table);
        self.word("edition");
        self.number(call.edition);
        self.array("counts", &store.counts);
        self.array("data", &store.data);
        self.array("objects", &store.objects);
        self.array("links", &store.links);
        self.readings(case.functions.kind(), &answers.readings);
        self.call("cut plan", &call.to_plan());
        self.outcome(answers.plan_answer, answers.plan_digest);
        self.array("cut at", &answers.places);
        self.call("split", call);
        self.outcome(answers.split.answer, answers.split_digest);
        self.array("new tables", &answers.new_tables);
        self.end_line();
    }

    /// The whole text.
    pub fn finish(mut self, count: usize) -> String {
        self.end_line();
        let text = |length: usize| {
            let Self { cases, .. } = &self;
            format!("{HEAD}bytes {length:07}\ncases {count}\n{cases}")
        };
        text(text(0).len())
    }

    fn readings(&mut self, kind: Kind, readings: &[Reading]) {
        let (name, numbers) = match kind {
            Kind::Pairs => ("pairs", "values"),
            Kind::Marks => ("attachments", "anchors"),
        };
        self.end_line();
        self.word(name);
        self.number(readings.len() as u32);
        for reading in readings {
            let [first, second] = reading.glyphs;
            self.end_line();
            self.word("glyphs");
            self.number(first);
            self.number(second);
            self.word("answer");
            self.number(reading.answer);
            self.word("found");
            self.number(reading.found);
            self.array(numbers, &reading.numbers);
        }
    }

    fn call<N: Copy + Into<u32>>(&mut self, name: &str, call: &Call<N>) {
        let Scratch {
            walk,
            glyph_set,
            glyphs,
            classes,
            cuts,
        } = &call.scratch;
        self.end_line();
        self.word(name);
        self.array("list", &call.list);
        self.array("walk", walk);
        self.array("glyph set", glyph_set);
        self.array("glyphs", glyphs);
        self.array("classes", classes);
        self.array("cuts", cuts);
    }

    fn outcome(&mut self, answer: u32, digest: u32) {
        self.end_line();
        self.word("answer");
        self.number(answer);
        self.word("digest");
        self.number(digest);
    }

    /// Its length, and its runs.
    fn array<N: Copy + Into<u32>>(&mut self, name: &str, numbers: &[N]) {
        self.word(name);
        self.number(numbers.len() as u32);
        let numbers: Vec<u32> = numbers.iter().map(|&number| number.into()).collect();
        for run in numbers.chunk_by(|a, b| a == b) {
            match run {
                [number] => self.number(*number),
                _ => self.word(&format!("{}x{}", run.len(), run[0])),
            }
        }
    }

    fn number(&mut self, number: impl Into<u32>) {
        let number: u32 = number.into();
        self.word(&number.to_string());
    }

    fn word(&mut self, word: &str) {
        if !self.line.is_empty() && self.line.len() + word.len() >= WIDTH {
            self.end_line();
        }
        if !self.line.is_empty() {
            self.line.push(' ');
        }
        self.line.push_str(word);
    }

    fn end_line(&mut self) {
        if !self.line.is_empty() {
            writeln!(self.cases, "{}", self.line).expect("text takes lines");
            self.line.clear();
        }
    }
}
