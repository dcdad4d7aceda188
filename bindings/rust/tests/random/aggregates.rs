//! Registers, asks and forgets aggregates.

use std::fmt::Debug;

use fullercoral::{Aggregate, Engine, Op};

use crate::common::plain::{Plain, PlainLine, PlainSpec, Test, What};
use crate::common::{AnySpec, Handle, spec_of};
use crate::{Reply, Run, schema};

impl<E: Engine> Run<E>
where
    E::Error: Debug,
{
    pub fn spec(&mut self) -> PlainSpec {
        let random = &mut self.random;
        let what = if random.one_in(2) {
            What::Totals
        } else {
            What::Extrema
        };
        let key = (!random.one_in(3)).then(|| random.below(5) as usize);
        let mut tests = Vec::new();
        while tests.len() < 4 && random.one_in(2) {
            let ops = [Op::Eq, Op::Ne, Op::Lt, Op::Le, Op::Gt, Op::Ge];
            let column = random.below(5) as usize;
            tests.push(match (column % 2, random.one_in(2)) {
                (0, _) => Test::Int(column, ops[random.below(6) as usize], random.value()),
                (_, true) => Test::Text(column, Op::Is, random.text()),
                _ => Test::Text(column, Op::Begins, random.text()[..1].to_owned()),
            });
        }
        PlainSpec {
            what,
            value: 2 * random.below(3) as usize,
            key,
            tests,
        }
    }

    pub fn watch(&mut self) {
        let free = self.watched.iter().position(Option::is_none);
        if free.is_none() && self.watched.len() == 6 {
            return self.unwatch();
        }
        let spec = self.spec();
        let handle = match spec_of(&schema(), &spec) {
            AnySpec::Totals(spec) => Handle::Totals(self.table.watch(spec).unwrap()),
            AnySpec::Extrema(spec) => Handle::Extrema(self.table.watch(spec).unwrap()),
        };
        let number = self.plain.watch(spec).unwrap();
        if number == self.watched.len() {
            self.watched.push(None);
        }
        self.watched[number] = Some(handle);
    }

    pub fn unwatch(&mut self) {
        let number = self.random.below(self.watched.len().max(1) as u32) as usize;
        if let Some(Some(handle)) = self.watched.get(number).copied() {
            self.plain.unwatch(number);
            self.watched[number] = None;
            match handle {
                Handle::Totals(totals) => self.table.unwatch(totals).unwrap(),
                Handle::Extrema(extrema) => self.table.unwatch(extrema).unwrap(),
            }
        }
    }

    pub fn some_watched(&mut self) -> Option<(usize, Handle)> {
        let number = self.random.below(self.watched.len().max(1) as u32) as usize;
        Some((number, (*self.watched.get(number)?)?))
    }

    pub fn ask(&mut self, anew: bool) {
        let Some((number, handle)) = self.some_watched() else {
            return;
        };
        let due = due_lines(&mut self.plain, number);
        let lines = match handle {
            Handle::Totals(totals) => self.lines(totals, anew, |line| {
                format!("{:?} {} {} 0 0", line.key, line.count, line.sum)
            }),
            Handle::Extrema(extrema) => self.lines(extrema, anew, |line| {
                format!("{:?} 0 0 {} {}", line.key, line.min, line.max)
            }),
        };
        match lines {
            Reply::Value(lines) => {
                assert_eq!(lines, due);
                if !anew {
                    self.ask_keys(number, handle);
                }
            }
            Reply::Fault => assert!(!self.manual()),
            Reply::Refused(number) => assert!(self.manual() && (15..17).contains(&number)),
        }
    }

    // Compares each line of the answer with the answer of `ask_key`.
    fn ask_keys(&mut self, number: usize, handle: Handle) {
        let table = &mut self.table;
        self.plain
            .answer(number, |due: PlainLine<'_>| match handle {
                Handle::Totals(totals) => {
                    let line = table.ask_key(totals, due.key).unwrap().unwrap();
                    assert_eq!((line.count, line.sum), (due.count, due.sum));
                }
                Handle::Extrema(extrema) => {
                    let line = table.ask_key(extrema, due.key).unwrap().unwrap();
                    assert_eq!((line.min, line.max), (due.min, due.max));
                }
            });
        // An aggregate by texts has no row with this key; any other aggregate refuses it.
        let absent = fullercoral::Key::Text("\u{1}no key");
        let found = match handle {
            Handle::Totals(it) => table.ask_key(it, absent).map(|line| line.is_some()),
            Handle::Extrema(it) => table.ask_key(it, absent).map(|line| line.is_some()),
        };
        match self.reply(found) {
            Reply::Value(is_found) => assert!(!is_found),
            reply => assert_eq!(reply, Reply::Refused(5)),
        }
    }

    pub fn lines<A: Aggregate>(
        &mut self,
        aggregate: A,
        anew: bool,
        print: impl FnMut(A::Line<'_>) -> String,
    ) -> Reply<Vec<String>> {
        let answer = if anew {
            self.table.recount(aggregate)
        } else {
            self.table.ask(aggregate)
        };
        let lines = answer.map(|lines| lines.map(print).collect());
        self.reply(lines)
    }

    pub fn scan_or_build(&mut self) {
        let Some((_, handle)) = self.some_watched() else {
            return;
        };
        let group = self.random.below(self.table.groups().max(1));
        let scans = self.random.one_in(2);
        let result = match (handle, scans) {
            (Handle::Totals(totals), true) => self.table.scan(totals, group),
            (Handle::Totals(totals), false) => self.table.build(totals, group),
            (Handle::Extrema(extrema), true) => self.table.scan(extrema, group),
            (Handle::Extrema(extrema), false) => self.table.build(extrema, group),
        };
        match self.reply(result) {
            Reply::Refused(number) => assert!([14, 16, 20].contains(&number)),
            Reply::Value(()) | Reply::Fault => {}
        }
    }
}

pub fn due_lines(plain: &mut Plain, number: usize) -> Vec<String> {
    let mut lines = Vec::new();
    plain.answer(number, |line: PlainLine<'_>| {
        let PlainLine {
            key,
            count,
            sum,
            min,
            max,
        } = line;
        lines.push(format!("{key:?} {count} {sum} {min} {max}"));
    });
    lines
}
