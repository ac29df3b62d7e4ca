//! Lists of chosen questions, each with a name: what a replay that stops at a question was asked.
use super::lending::{Described, Lending};
use super::line;
use super::sampler::{answer, failing};
use crate::differ::lent::{pack, Lent};
use crate::differ::question::{self, Act, Question, Seen};
use crate::differ::run::Counts;
use crate::tables::Tables;

pub struct Lists<'a> {
    pub text: String,
    /// The names of all questions, by list and number.
    pub names: String,
    pub counts: Counts,
    lending: &'a mut Lending,
    list: &'static str,
    asked: usize,
}

impl Lists<'_> {
    pub fn over(lending: &mut Lending) -> Lists<'_> {
        Lists { text: String::new(), names: String::new(), counts: Counts::default(), lending, list: "", asked: 0 }
    }

    pub fn begin(&mut self, list: &'static str) {
        self.list = list;
        self.asked = 0;
    }

    /// A question on slices that may be damaged, with the original's answer or the model's refusal.
    pub fn ask(&mut self, name: &str, lent: &Lent, question: Question) -> Seen {
        let described = Described::plain(lent.clone());
        let seen = answer(&described, &question).remove(0);
        self.lending.lend(&described, &mut self.text);
        if failing(lent, &question, &seen) {
            self.counts.failing_list();
        }
        self.call(name, &question, false, &seen);
        seen
    }

    /// One line, and its name.
    fn call(&mut self, name: &str, question: &Question, goes_on: bool, seen: &Seen) {
        line::write(question, goes_on, seen, &mut self.text);
        self.counts.add(question.kind(), false, std::slice::from_ref(seen));
        self.asked += 1;
        self.names += &format!("{}, question {}: {name}\n", self.list, self.asked);
    }

    /// Acts, each with a name, of the index that the one before left; the first of what is lent.
    pub fn in_turn(&mut self, lent: &Lent, named: impl IntoIterator<Item = (&'static str, Act, question::Lists)>) {
        let (names, acts): (Vec<_>, Vec<_>) = named.into_iter().map(|(name, act, list)| (name, (act, list))).unzip();
        let (described, question) = (Described::plain(lent.clone()), Question::Acts(acts));
        let seen = answer(&described, &question);
        self.lending.lend(&described, &mut self.text);
        for (i, (call, one)) in question.calls().iter().zip(&seen).enumerate() {
            self.call(names[i], call, i != 0, one);
        }
    }

    /// Every cell of the index of a board and a roster; then the two are lent.
    pub fn built(&mut self, name: &str, tables: &Tables, roster: &[Option<usize>]) -> Lent {
        let lent = pack(tables, roster, 0);
        self.ask(name, &lent, Question::Build);
        lent
    }

    pub fn end(&mut self) {
        self.text += "0\r\n";
    }
}
