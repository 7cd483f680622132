// The same in plain safe Rust: the sheets' replies, closure, search and projection.
use crate::rattle::{ANSWERED, REFUSED};

#[derive(Clone, Copy, PartialEq, Eq)]
pub struct Assignment {
    pub yes: u64,
    pub no: u64,
}

pub const CONTRADICTION: Assignment = Assignment { yes: u64::MAX, no: u64::MAX };

impl Assignment {
    pub fn is_inconsistent(self) -> bool {
        self.yes & self.no != 0
    }

    pub fn is_total(self) -> bool {
        self.yes ^ self.no == u64::MAX
    }

    pub fn knows(self, option: u8, value: bool) -> bool {
        let mask = if value { self.yes } else { self.no };
        mask >> option & 1 == 1
    }

    pub fn with(self, option: u8, value: bool) -> Assignment {
        let bit = 1 << option;
        if value {
            Assignment { yes: self.yes | bit, ..self }
        } else {
            Assignment { no: self.no | bit, ..self }
        }
    }

    pub fn join(self, other: Assignment) -> Assignment {
        Assignment { yes: self.yes | other.yes, no: self.no | other.no }
    }

    pub fn meet(self, other: Assignment) -> Assignment {
        Assignment { yes: self.yes & other.yes, no: self.no & other.no }
    }

    /// Itself, or the contradiction where it is inconsistent.
    pub fn whole(self) -> Assignment {
        if self.is_inconsistent() { CONTRADICTION } else { self }
    }

    /// Both options get what is known of either.
    pub fn equate(self, left: u8, right: u8) -> Assignment {
        let mut equal = self;
        for value in [true, false] {
            if self.knows(left, value) || self.knows(right, value) {
                equal = equal.with(left, value).with(right, value);
            }
        }
        equal
    }

    fn only(self, mask: u64) -> Assignment {
        Assignment { yes: self.yes & mask, no: self.no & mask }
    }
}

pub trait Rule {
    fn reply(&self, question: Assignment) -> Assignment;
}

// Whether there may be so many options.
fn are_told(options: u32) -> bool {
    (1..=64).contains(&options)
}

pub struct Table<'a> {
    columns: &'a [u8],
    rows: &'a [u8],
}

impl<'a> Table<'a> {
    pub fn read(options: u32, body: &'a [u8]) -> Option<Table<'a>> {
        let (&count, rest) = body.split_first()?;
        let count = count as usize;
        if !are_told(options) || count == 0 || count > 16 || rest.len() < count {
            return None;
        }
        let (columns, rows) = rest.split_at(count);
        let even = rows.len() % 2 == 0 && rows.len() <= 512;
        let named = rising(columns.iter().map(|&c| c as u32), options);
        let fit = rows.chunks_exact(2).all(|r| (u16::from_le_bytes([r[0], r[1]]) as u32) < 1 << count);
        (even && named && fit).then_some(Table { columns, rows })
    }
}

impl Rule for Table<'_> {
    fn reply(&self, question: Assignment) -> Assignment {
        if question.is_inconsistent() {
            return CONTRADICTION;
        }
        let (mut yes, mut no) = (0u16, 0u16);
        for (i, &column) in self.columns.iter().enumerate() {
            yes |= (question.knows(column, true) as u16) << i;
            no |= (question.knows(column, false) as u16) << i;
        }
        let (mut every, mut some, mut any) = (u16::MAX, 0u16, false);
        for row in self.rows.chunks_exact(2) {
            let row = u16::from_le_bytes([row[0], row[1]]);
            if row & no == 0 && row & yes == yes {
                every &= row;
                some |= row;
                any = true;
            }
        }
        if !any {
            return CONTRADICTION;
        }
        let mut reply = question;
        for (i, &column) in self.columns.iter().enumerate() {
            if every >> i & 1 == 1 {
                reply = reply.with(column, true);
            }
            if some >> i & 1 == 0 {
                reply = reply.with(column, false);
            }
        }
        reply
    }
}

pub struct Clauses<'a> {
    body: &'a [u8],
}

impl<'a> Clauses<'a> {
    pub fn read(options: u32, body: &'a [u8]) -> Option<Clauses<'a>> {
        let (mut rest, mut clauses) = (body, 0);
        while let Some((&count, after)) = rest.split_first() {
            if count == 0 || count > 16 || after.len() < count as usize {
                return None;
            }
            let (values, next) = after.split_at(count as usize);
            if values.iter().any(|v| v & 64 != 0) || !rising(values.iter().map(|v| (v & 63) as u32), options) {
                return None;
            }
            rest = next;
            clauses += 1;
        }
        (are_told(options) && clauses <= 256).then_some(Clauses { body })
    }
}

impl Rule for Clauses<'_> {
    fn reply(&self, question: Assignment) -> Assignment {
        if question.is_inconsistent() {
            return CONTRADICTION;
        }
        let mut reply = question;
        let mut rest = self.body;
        while let Some((&count, after)) = rest.split_first() {
            let (values, next) = after.split_at(count as usize);
            rest = next;
            // A value is lost where its option is known to have the other one; two that are left end the clause.
            let mut left = values.iter().filter(|&&v| !question.knows(v & 63, v >= 128));
            let Some(&value) = left.next() else {
                return CONTRADICTION;
            };
            if left.next().is_none() {
                reply = reply.with(value & 63, value < 128);
            }
        }
        reply
    }
}

// Each below the bound and above the one before it.
fn rising(values: impl Iterator<Item = u32>, bound: u32) -> bool {
    let mut low = 0;
    for value in values {
        if value >= bound || value < low {
            return false;
        }
        low = value + 1;
    }
    true
}

pub fn closure<R: Rule>(rule: &R, known: Assignment) -> Assignment {
    let mut current = known;
    loop {
        let reply = rule.reply(current);
        if reply.is_inconsistent() {
            return CONTRADICTION;
        }
        if reply == current {
            return reply;
        }
        current = reply;
    }
}

// Depth first, in the order of the list, yes before no.
fn finds_build<R: Rule>(rule: &R, options: &[u8], settled: Assignment) -> bool {
    if settled.is_inconsistent() {
        return false;
    }
    let Some((&option, rest)) = options.split_first() else {
        return true;
    };
    if settled.knows(option, true) || settled.knows(option, false) {
        return finds_build(rule, rest, settled);
    }
    finds_build(rule, rest, closure(rule, settled.with(option, true)))
        || finds_build(rule, rest, closure(rule, settled.with(option, false)))
}

pub struct Hiding<R> {
    pub rule: R,
    pub hidden: u64,
}

impl<R> Hiding<R> {
    fn new(options: u32, rule: R, hidden: u64) -> Option<Hiding<R>> {
        let named = options == 64 || hidden >> options == 0;
        (named && hidden.count_ones() <= 16).then_some(Hiding { rule, hidden })
    }
}

impl<R: Rule> Rule for Hiding<R> {
    fn reply(&self, question: Assignment) -> Assignment {
        if question.is_inconsistent() {
            return CONTRADICTION;
        }
        let shown = question.only(!self.hidden);
        if question.yes | question.no | self.hidden == u64::MAX {
            let mut options = [0; 64];
            let mut count = 0;
            for option in 0..64u8 {
                if self.hidden >> option & 1 == 1 {
                    options[count] = option;
                    count += 1;
                }
            }
            if !finds_build(&self.rule, &options[..count], closure(&self.rule, shown)) {
                return CONTRADICTION;
            }
        }
        self.rule.reply(shown).only(!self.hidden).join(question.only(self.hidden))
    }
}

fn answer_all<R: Rule>(rule: Option<R>, masks: &mut [u64]) -> u32 {
    let Some(rule) = rule else {
        return REFUSED;
    };
    for pair in masks.chunks_exact_mut(2) {
        let reply = rule.reply(Assignment { yes: pair[0], no: pair[1] });
        pair[0] = reply.yes;
        pair[1] = reply.no;
    }
    ANSWERED
}

#[inline(never)]
pub fn table(options: u32, body: &[u8], masks: &mut [u64]) -> u32 {
    answer_all(Table::read(options, body), masks)
}

#[inline(never)]
pub fn clauses(options: u32, body: &[u8], masks: &mut [u64]) -> u32 {
    answer_all(Clauses::read(options, body), masks)
}

#[inline(never)]
pub fn table_hiding(options: u32, body: &[u8], hidden: u64, masks: &mut [u64]) -> u32 {
    answer_all(Table::read(options, body).and_then(|t| Hiding::new(options, t, hidden)), masks)
}

#[inline(never)]
pub fn clauses_hiding(options: u32, body: &[u8], hidden: u64, masks: &mut [u64]) -> u32 {
    answer_all(Clauses::read(options, body).and_then(|c| Hiding::new(options, c, hidden)), masks)
}
