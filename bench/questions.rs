// Questions to single sheets and to projections over them, in both languages.
use crate::inputs::{self, Random, options_in};
use crate::{allocations, clock, rattle, reference};

const OPTIONS: u32 = 64;

// The same call in both languages.
#[derive(Clone, Copy)]
enum Sheet<'a> {
    Table(&'a [u8]),
    Clauses(&'a [u8]),
}

impl Sheet<'_> {
    fn proved(self, options: u32, hidden: Option<u64>, masks: &mut [u64]) -> u32 {
        match (self, hidden) {
            (Sheet::Table(body), None) => rattle::table(options, body, masks),
            (Sheet::Clauses(body), None) => rattle::clauses(options, body, masks),
            (Sheet::Table(body), Some(hidden)) => rattle::table_hiding(options, body, hidden, masks),
            (Sheet::Clauses(body), Some(hidden)) => rattle::clauses_hiding(options, body, hidden, masks),
        }
    }

    fn plain(self, options: u32, hidden: Option<u64>, masks: &mut [u64]) -> u32 {
        match (self, hidden) {
            (Sheet::Table(body), None) => reference::table(options, body, masks),
            (Sheet::Clauses(body), None) => reference::clauses(options, body, masks),
            (Sheet::Table(body), Some(hidden)) => reference::table_hiding(options, body, hidden, masks),
            (Sheet::Clauses(body), Some(hidden)) => reference::clauses_hiding(options, body, hidden, masks),
        }
    }
}

// What the calls of a comparison came to.
#[derive(Default)]
struct Tally {
    calls: usize,
    refused: usize,
    replies: usize,
    contradictions: usize,
}

impl Tally {
    fn compare(&mut self, sheet: Sheet, options: u32, hidden: Option<u64>, questions: &[u64]) {
        let mut proved = questions.to_vec();
        let mut plain = questions.to_vec();
        let returned = sheet.proved(options, hidden, &mut proved);
        assert_eq!(returned, sheet.plain(options, hidden, &mut plain), "the same is refused");
        assert_eq!(proved, plain, "the replies are the same");
        self.calls += 1;
        if returned != rattle::ANSWERED {
            assert_eq!(proved, questions, "what is refused leaves the masks");
            self.refused += 1;
            return;
        }
        self.replies += questions.len() / 2;
        self.contradictions += proved.chunks_exact(2).filter(|q| q[0] & q[1] == u64::MAX).count();
    }
}

fn push(questions: &mut Vec<u64>, question: (u64, u64)) {
    questions.extend([question.0, question.1]);
}

// Sheets of all sizes, some damaged, with questions of all kinds and hidden options of all numbers.
fn compare_many(random: &mut Random) -> Tally {
    let mut tally = Tally::default();
    for turn in 0..3000usize {
        let options = if turn % 3 == 0 { 1 + random.below(64) } else { 64 };
        let most = options.min(16);
        let width = 1 + random.below(most) as u32;
        let columns = random.mask(width, options);
        let rows = if turn % 5 == 0 { 256 } else { random.below(40) as usize };
        let count = if turn % 5 == 0 { 256 } else { random.below(40) as usize };
        let values = 1 + random.below(most) as u32;
        let mut table = inputs::table(random, columns, rows);
        let mut clauses = inputs::clauses(random, count, values, options);
        let mut questions = some_questions(random, turn, &table, columns);
        damage(random, turn, &mut table, &mut clauses);
        let told = if turn % 100 == 1 { random.below(80) as u32 } else { options as u32 };
        let count = random.below(most + 1) as u32;
        let hidden = if turn % 40 == 0 { random.word() } else { random.mask(count, options) };
        // All shown options known, so that builds are searched.
        for _ in 0..4 {
            let value = random.word();
            let known = !hidden | random.word();
            push(&mut questions, (value & known, !value & known));
        }
        for sheet in [Sheet::Table(&table), Sheet::Clauses(&clauses)] {
            tally.compare(sheet, told, None, &questions);
            tally.compare(sheet, told, Some(hidden), &questions);
        }
    }
    tally
}

// Questions of all kinds, some of them near a row of a table; now and then with a last number alone.
fn some_questions(random: &mut Random, turn: usize, table: &[u8], columns: u64) -> Vec<u64> {
    let mut questions = Vec::new();
    for _ in 0..20 {
        push(&mut questions, inputs::question(random));
    }
    let rows = (table.len() as u64 - 1 - columns.count_ones() as u64) / 2;
    if rows > 0 {
        let (yes, no) = inputs::row_of(table, random.below(rows) as usize);
        let rest = random.word() & !columns;
        push(&mut questions, (yes | rest, no | !columns & !rest));
        push(&mut questions, (yes & rest.rotate_left(17), no));
    }
    if turn % 7 == 0 {
        questions.push(random.word());
    }
    questions
}

// A flipped bit or a byte too many, in some turns.
fn damage(random: &mut Random, turn: usize, table: &mut Vec<u8>, clauses: &mut Vec<u8>) {
    if turn % 10 == 0 {
        for body in [&mut *table, &mut *clauses] {
            let len = body.len() as u64;
            if len > 0 {
                body[random.below(len) as usize] ^= 1 << random.below(8);
            }
        }
    }
    if turn % 50 == 0 {
        table.push(0);
        clauses.push(1);
    }
}

struct Case<'a> {
    name: &'static str,
    sheet: Sheet<'a>,
    hidden: Option<u64>,
    questions: Vec<u64>,
    rounds: usize,
}

impl Case<'_> {
    // The best of some rounds, each with both languages in turn; the replies are compared in each.
    fn time(&self) {
        let count = self.questions.len() / 2;
        let (mut proved, mut plain) = (self.questions.clone(), self.questions.clone());
        let (mut best_proved, mut best_plain) = (f64::MAX, f64::MAX);
        for _ in 0..self.rounds {
            proved.copy_from_slice(&self.questions);
            plain.copy_from_slice(&self.questions);
            let start = clock::seconds();
            let returned = self.sheet.proved(OPTIONS, self.hidden, &mut proved);
            best_proved = best_proved.min(clock::seconds() - start);
            assert_eq!(returned, rattle::ANSWERED);
            let start = clock::seconds();
            let returned = self.sheet.plain(OPTIONS, self.hidden, &mut plain);
            best_plain = best_plain.min(clock::seconds() - start);
            assert_eq!(returned, rattle::ANSWERED);
            assert!(proved == plain, "{}: the replies are the same", self.name);
        }
        let dead = proved.chunks_exact(2).filter(|q| q[0] & q[1] == u64::MAX).count();
        let each = |seconds: f64| seconds * 1e9 / count as f64;
        println!(
            "{:<46} {:>6} {:>5.0}% {:>12.0} {:>12.0} {:>7.2}",
            self.name,
            count,
            100.0 * dead as f64 / count as f64,
            each(best_proved),
            each(best_plain),
            best_proved / best_plain
        );
    }

    // How often memory was asked for in a call with one question, and in one with all of them.
    fn allocations(&self) -> (usize, usize) {
        let mut masks = self.questions.clone();
        let before = allocations::count();
        self.sheet.proved(OPTIONS, self.hidden, &mut masks[..2]);
        let one = allocations::count();
        self.sheet.proved(OPTIONS, self.hidden, &mut masks[2..]);
        (one - before, allocations::count() - one)
    }
}

// Values for all options but the hidden ones.
fn all_shown(random: &mut Random, hidden: u64) -> (u64, u64) {
    let value = random.word();
    (value & !hidden, !value & !hidden)
}

/// Calls of all kinds: both languages answer or refuse them alike.
pub fn compare(random: &mut Random) {
    let tally = compare_many(random);
    println!(
        "compared: {} calls, {} of them refused; {} replies, {} of them the contradiction; no difference",
        tally.calls, tally.refused, tally.replies, tally.contradictions
    );
}

/// Times all cases, and counts how often each asks for memory.
pub fn time(random: &mut Random) {
    let bodies = Bodies::new(random);
    let mut cases = sheet_cases(random, &bodies);
    cases.extend(hiding_cases(random, &bodies));
    for case in &cases {
        let (one, rest) = case.allocations();
        assert_eq!(one, rest, "{}: no reply asks for memory", case.name);
        assert_eq!(one, if case.hidden.is_some() { 2 } else { 1 }, "{}: the rules ask for memory", case.name);
    }
    println!("memory: asked for once for the sheet and once for the folder of a projection, in calls of 1 and of many questions alike");
    println!();
    println!("{:<46} {:>6} {:>6} {:>12} {:>12} {:>7}", "ns for each question", "asked", "dead", "Rattle", "Rust", "ratio");
    for case in &cases {
        case.time();
    }
}

// The bodies of the largest sheets.
struct Bodies {
    columns: u64,
    table: Vec<u8>,
    clauses: Vec<u8>,
    long: Vec<u8>,
    hard: Vec<u8>,
}

// The options over which the hard clauses are, and eight more.
const HIGH: u64 = 0xffff << 48;

impl Bodies {
    fn new(random: &mut Random) -> Bodies {
        let columns = random.mask(16, 64);
        let table = inputs::table(random, columns, 256);
        let clauses = inputs::clauses(random, 256, 16, 64);

        // Clauses that are read to their ends: 14 values of options below 48, then 2 of those from 48 on.
        let mut long = Vec::new();
        for _ in 0..256 {
            let last = random.mask(2, 16) << 48;
            inputs::clause(&mut long, random.mask(14, 48) | last, 0);
        }

        // Over the options from 56 on each clause excludes one filling, the first the one with all yes. Their other eight
        // values, below 47, are lost where all those options are known no. Option 47 stands in the last clause alone: where
        // it is yes, the one build is the filling with all no.
        let mut hard = Vec::new();
        for filling in 0..256u64 {
            let lost = if filling == 255 { random.mask(7, 47) | 1 << 47 } else { random.mask(8, 47) };
            inputs::clause(&mut hard, filling << 56 | lost, !filling << 56);
        }
        Bodies { columns, table, clauses, long, hard }
    }

    fn names(&self) -> Vec<u8> {
        options_in(self.columns).collect()
    }
}

fn sheet_cases<'a>(random: &mut Random, bodies: &'a Bodies) -> Vec<Case<'a>> {
    let names = bodies.names();
    // Some columns as a row has them, and nothing else known; and all columns as a row has them.
    let (mut some_known, mut all_known) = (Vec::new(), Vec::new());
    for _ in 0..4096 {
        let row = inputs::row_of(&bodies.table, random.below(256) as usize);
        let mut kept = 0;
        for _ in 0..3 {
            kept |= 1 << names[random.below(16) as usize];
        }
        push(&mut some_known, (row.0 & kept, row.1 & kept));
        push(&mut all_known, row);
    }
    let nothing_known = vec![0; 8192];
    let mut half_known = Vec::new();
    for _ in 0..4096 {
        let (value, known) = (random.word(), random.word());
        push(&mut half_known, (value & known, !value & known));
    }
    let (table, clauses, long) = (Sheet::Table(&bodies.table), Sheet::Clauses(&bodies.clauses), Sheet::Clauses(&bodies.long));
    let case = |name, sheet, questions, rounds| Case { name, sheet, hidden: None, questions, rounds };
    vec![
        case("table, nothing known", table, nothing_known.clone(), 40),
        case("table, up to 3 columns known", table, some_known, 40),
        case("table, all columns known", table, all_known, 40),
        case("clauses, nothing known", clauses, nothing_known, 20),
        case("clauses, half of the options known", clauses, half_known, 20),
        case("clauses, every value of each is looked at", long, [0, !HIGH].repeat(1024), 20),
    ]
}

fn hiding_cases<'a>(random: &mut Random, bodies: &'a Bodies) -> Vec<Case<'a>> {
    let over_table = half_of_columns(random, bodies);
    let (fitting, unfitting) = with_and_without_build(random, bodies, over_table);
    let over_clauses = random.mask(16, 64);
    let mut shown_known = Vec::new();
    for _ in 0..1024 {
        push(&mut shown_known, all_shown(random, over_clauses));
    }
    let all_no = [0, !HIGH];
    let one_build = [1 << 47, !HIGH & !(1 << 47)];
    let (table, clauses, hard) = (Sheet::Table(&bodies.table), Sheet::Clauses(&bodies.clauses), Sheet::Clauses(&bodies.hard));
    let case = |name, sheet, hidden, questions, rounds| Case { name, sheet, hidden: Some(hidden), questions, rounds };
    vec![
        case("projection of the table, with a build", table, over_table, fitting, 20),
        case("projection of the table, without a build", table, over_table, unfitting, 40),
        case("projection of random clauses", clauses, over_clauses, shown_known, 20),
        case("projection of hard clauses, with a build", hard, HIGH, one_build.repeat(8), 20),
        case("projection of hard clauses, without a build", hard, HIGH, all_no.repeat(2), 5),
    ]
}

// Eight columns and eight other options.
fn half_of_columns(random: &mut Random, bodies: &Bodies) -> u64 {
    let mut hidden = bodies.names().iter().step_by(2).fold(0, |mask, o| mask | 1u64 << o);
    while hidden.count_ones() < 16 {
        hidden |= 1 << random.below(64) & !bodies.columns;
    }
    hidden
}

// Questions to the table with all shown options known, for which it has a build, and for which it has none.
fn with_and_without_build(random: &mut Random, bodies: &Bodies, hidden: u64) -> (Vec<u64>, Vec<u64>) {
    let (mut fitting, mut unfitting) = (Vec::new(), Vec::new());
    while fitting.len() < 2048 || unfitting.len() < 2048 {
        let question = all_shown(random, hidden);
        let mut reply = [question.0, question.1];
        reference::table_hiding(OPTIONS, &bodies.table, hidden, &mut reply);
        let list = if reply[0] & reply[1] == 0 { &mut fitting } else { &mut unfitting };
        if list.len() < 2048 {
            push(list, question);
        }
    }
    (fitting, unfitting)
}
