// Sheets, questions and rule files from a seeded generator.

/// A linear congruential generator; its high bits are used.
pub struct Random(u64);

impl Random {
    pub fn new(seed: u64) -> Random {
        Random(seed)
    }

    pub fn word(&mut self) -> u64 {
        let mut word = 0;
        for _ in 0..2 {
            self.0 = self.0.wrapping_mul(6364136223846793005).wrapping_add(1442695040888963407);
            word = word << 32 | self.0 >> 32;
        }
        word
    }

    pub fn below(&mut self, bound: u64) -> u64 {
        (self.word() >> 32) * bound >> 32
    }

    /// A mask with this many of the options below `bound`.
    pub fn mask(&mut self, count: u32, bound: u64) -> u64 {
        let mut mask = 0u64;
        while mask.count_ones() < count {
            mask |= 1 << self.below(bound);
        }
        mask
    }
}

pub fn options_in(mask: u64) -> impl Iterator<Item = u8> {
    (0..64).filter(move |option| mask >> option & 1 == 1)
}

/// A table over these columns, with so many random rows.
pub fn table(random: &mut Random, columns: u64, rows: usize) -> Vec<u8> {
    let count = columns.count_ones();
    let mut body = vec![count as u8];
    body.extend(options_in(columns));
    for _ in 0..rows {
        let row = random.word() as u16 & (u16::MAX >> (16 - count));
        body.extend(row.to_le_bytes());
    }
    body
}

/// The masks of the options that row `index` of a table has yes and no.
pub fn row_of(body: &[u8], index: usize) -> (u64, u64) {
    let count = body[0] as usize;
    let at = 1 + count + 2 * index;
    let row = u16::from_le_bytes([body[at], body[at + 1]]);
    let (mut yes, mut no) = (0, 0);
    for i in 0..count {
        let bit = 1u64 << body[1 + i];
        if row >> i & 1 == 1 {
            yes |= bit;
        } else {
            no |= bit;
        }
    }
    (yes, no)
}

/// A clause that wants yes of some options and no of others.
pub fn clause(body: &mut Vec<u8>, yes: u64, no: u64) {
    body.push((yes | no).count_ones() as u8);
    body.extend(options_in(yes | no).map(|o| if no >> o & 1 == 1 { 128 | o } else { o }));
}

/// Random clauses of so many values each.
pub fn clauses(random: &mut Random, clauses: usize, values: u32, options: u64) -> Vec<u8> {
    let mut body = Vec::new();
    for _ in 0..clauses {
        let wanted = random.mask(values, options);
        let no = random.word() & wanted;
        clause(&mut body, wanted & !no, no);
    }
    body
}

/// A question of a random kind: all of some density of what is known, and some of them inconsistent or total.
pub fn question(random: &mut Random) -> (u64, u64) {
    let value = random.word();
    let known = match random.below(8) {
        0 => 0,
        1 => u64::MAX,
        2 => random.word(),
        3 => random.word() | random.word() | random.word(),
        4 => random.word() & random.word() & random.word(),
        5 => random.mask(3, 64),
        6 => !random.mask(4, 64),
        _ => return (random.word() & random.word(), random.word() & random.word()),
    };
    (value & known, !value & known)
}

pub fn record(file: &mut Vec<u8>, kind: u16, body: &[u8]) {
    file.extend((body.len() as u16).to_le_bytes());
    file.extend(kind.to_le_bytes());
    file.extend(body);
}

/// A rule file with so many options, of which these are known at the start, and with these records and question.
pub fn rule_file(options: u64, start: (u64, u64), records: &[(u16, Vec<u8>)], asked: u8) -> Vec<u8> {
    let mut file = Vec::new();
    let mut body = vec![options as u8];
    body.extend(start.0.to_le_bytes());
    body.extend(start.1.to_le_bytes());
    record(&mut file, 1, &body);
    for (kind, body) in records {
        record(&mut file, *kind, body);
    }
    record(&mut file, 5, &[asked]);
    file
}

/// An entry of a folder: its op, its three small fields and its word.
pub fn entry(op: u8, fields: [u8; 3], word: u64) -> Vec<u8> {
    let mut entry = vec![op, fields[0], fields[1], fields[2]];
    entry.extend(word.to_le_bytes());
    entry
}

/// An entry of a random kind over so many rules.
pub fn random_entry(random: &mut Random, options: u64, below: u64) -> Vec<u8> {
    let mut rule = || random.below(below) as u8;
    let (first, second) = (rule(), rule());
    match random.below(12) {
        0 | 1 => entry(0, [first, 0, 0], 0),
        2..=5 => entry(1, [first, second, 0], 0),
        6 | 7 => entry(2, [first, second, 0], 0),
        8 if options > 1 => {
            let width = 1 + random.below(options / 2);
            let left = random.below(options - 2 * width + 1);
            let right = left + width + random.below(options - left - 2 * width + 1);
            let (left, right) = if random.below(2) == 0 { (left, right) } else { (right, left) };
            entry(3, [first, left as u8, right as u8], width)
        }
        8 | 9 => {
            let count = random.below(options.min(4) + 1) as u32;
            entry(4, [first, 0, 0], random.mask(count, options))
        }
        10 => entry(5, [first, 0, 0], 0),
        _ => entry(6, [0; 3], 0),
    }
}

/// A file with few options, some sheets and some folders of all kinds.
pub fn small_file(random: &mut Random) -> Vec<u8> {
    let options = 1 + random.below(10);
    let known = random.word() & random.word() & random.word() & ((1 << options) - 1);
    let yes = random.word() & known;
    let mut records = Vec::new();
    for _ in 0..random.below(3) {
        let width = 1 + random.below(options) as u32;
        let columns = random.mask(width, options);
        let rows = random.below(60) as usize;
        records.push((2, table(random, columns, rows)));
    }
    for _ in 0..1 + random.below(3) {
        let values = 1 + random.below(options.min(4)) as u32;
        let count = random.below(8) as usize;
        records.push((3, clauses(random, count, values, options)));
    }
    let mut below = records.len() as u64;
    for _ in 0..random.below(5) {
        let count = 1 + random.below(5);
        let entries = (0..count).flat_map(|_| random_entry(random, options, below));
        records.push((4, entries.collect()));
        below = count;
    }
    rule_file(options, (yes, known & !yes), &records, random.below(below) as u8)
}

/// A file with a sheet of random clauses, which a folder carries.
pub fn carried_clauses(random: &mut Random, options: u64, count: usize, values: u32) -> Vec<u8> {
    let sheet = clauses(random, count, values, options);
    rule_file(options, (0, 0), &[(3, sheet), (4, entry(0, [0; 3], 0))], 0)
}

/// A file with a table over the options from 0 on, and with no folder.
pub fn one_table(random: &mut Random, options: u64, rows: usize) -> Vec<u8> {
    let sheet = table(random, (1 << options) - 1, rows);
    rule_file(options, (0, 0), &[(2, sheet)], 0)
}

/// A file with a table, two clause sheets and four folders, of products, an either, a selection and a projection.
pub fn four_folders(random: &mut Random, options: u64) -> Vec<u8> {
    let sheets = [
        (2, table(random, every_second(options), 200)),
        (3, clauses(random, 8, 4, options)),
        (3, clauses(random, 8, 4, options)),
    ];
    let first = [entry(1, [0, 1, 0], 0), entry(2, [1, 2, 0], 0), entry(0, [2, 0, 0], 0)];
    let second = [entry(1, [0, 1, 0], 0), entry(3, [2, 0, options as u8 - 1], 1)];
    let third = [entry(4, [0, 0, 0], 0b1010_1000), entry(0, [1, 0, 0], 0)];
    let fourth = [entry(1, [0, 1, 0], 0)];
    let folders = [first.concat(), second.concat(), third.concat(), fourth.concat()];
    let records: Vec<_> = sheets.into_iter().chain(folders.map(|f| (4, f))).collect();
    rule_file(options, (0, 0), &records, 0)
}

// Every second option.
fn every_second(options: u64) -> u64 {
    0x5555_5555_5555_5555 & ((1 << options) - 1)
}
