// Listings of whole rule files, in both languages.
use crate::inputs::{self, Random};
use crate::{allocations, clock, listing, rattle};

/// The builds of a file, the choices, and the mix of the builds' words.
type Numbers = [u64; 3];

const KILN: &[u8] = include_bytes!("../crates/rulecheck/data/RULES");

fn list(bytes: &[u8], with: fn(&[u8], &mut [u64]) -> u32) -> Option<Numbers> {
    let mut numbers = [7; 3];
    match with(bytes, &mut numbers) {
        rattle::ANSWERED => Some(numbers),
        rattle::REFUSED => {
            assert_eq!(numbers, [7; 3], "what is refused leaves the numbers");
            None
        }
        other => panic!("returned {other}"),
    }
}

/// A file with few builds and one with many, of the same kind.
pub fn few_and_many() -> (Vec<u8>, Vec<u8>) {
    let random = &mut Random::new(7);
    (inputs::carried_clauses(random, 8, 4, 4), inputs::carried_clauses(random, 22, 12, 4))
}

/// Small files, some of them damaged behind their options: both languages list or refuse them alike.
pub fn compare(random: &mut Random) {
    let (mut files, mut refused, mut builds, mut choices) = (0, 0, 0, 0);
    for turn in 0..20_000 {
        let mut file = inputs::small_file(random);
        if turn % 4 == 0 {
            let at = 5 + random.below(file.len() as u64 - 5) as usize;
            file[at] ^= 1 << random.below(8);
        }
        if turn % 50 == 1 {
            file.truncate(random.below(file.len() as u64) as usize);
        }
        if turn % 50 == 2 {
            file.push(random.word() as u8);
        }
        let proved = list(&file, rattle::list);
        assert_eq!(proved, list(&file, listing::list), "the same list");
        files += 1;
        match proved {
            None => refused += 1,
            Some(numbers) => {
                builds += numbers[0];
                choices += numbers[1];
            }
        }
    }
    println!("compared: {files} rule files, {refused} of them refused; {builds} builds and {choices} choices; no difference");
}

struct Case {
    name: &'static str,
    file: Vec<u8>,
    times: u32,
    rounds: usize,
}

fn cases(random: &mut Random) -> Vec<Case> {
    let (few, many) = few_and_many();
    vec![
        Case { name: "the kiln, 4 folders", file: KILN.to_vec(), times: 50, rounds: 10 },
        Case { name: "loose clauses, few builds, 1 folder", file: few, times: 500, rounds: 10 },
        Case { name: "loose clauses, many builds, 1 folder", file: many, times: 1, rounds: 3 },
        Case { name: "tight clauses, 1 folder", file: inputs::carried_clauses(random, 64, 256, 3), times: 1, rounds: 5 },
        Case { name: "widest table, no folder", file: inputs::one_table(random, 16, 256), times: 50, rounds: 10 },
        Case { name: "product, either, projection, 4 folders", file: inputs::four_folders(random, 18), times: 1, rounds: 5 },
    ]
}

impl Case {
    // The best of some rounds, each with both languages in turn; what they list is compared in each.
    fn time(&self) {
        let (mut best_proved, mut best_plain) = (f64::MAX, f64::MAX);
        let mut numbers = [0; 3];
        for _ in 0..self.rounds {
            let (proved, seconds) = self.round(rattle::list);
            best_proved = best_proved.min(seconds);
            let (plain, seconds) = self.round(listing::list);
            best_plain = best_plain.min(seconds);
            assert_eq!(proved, plain, "{}: the lists are the same", self.name);
            numbers = proved;
        }
        let per_second = |count: u64, seconds: f64| count as f64 / seconds / 1e3;
        println!(
            "{:<40} {:>8} {:>8} {:>9.0} {:>9.0} {:>9.0} {:>9.0} {:>7.2}",
            self.name,
            numbers[0],
            numbers[1],
            per_second(numbers[0], best_proved),
            per_second(numbers[0], best_plain),
            per_second(numbers[1], best_proved),
            per_second(numbers[1], best_plain),
            best_proved / best_plain
        );
    }

    // What the file lists, and the seconds for each time.
    fn round(&self, with: fn(&[u8], &mut [u64]) -> u32) -> (Numbers, f64) {
        let mut numbers = None;
        let start = clock::seconds();
        for _ in 0..self.times {
            numbers = list(&self.file, with);
        }
        let seconds = (clock::seconds() - start) / self.times as f64;
        (numbers.expect("a good file"), seconds)
    }

    // How often memory was asked for in one listing.
    fn allocations(&self) -> usize {
        let before = allocations::count();
        list(&self.file, rattle::list);
        allocations::count() - before
    }
}

/// Times all cases, and counts how often each asks for memory.
pub fn time(random: &mut Random) {
    let cases = cases(random);
    assert_eq!(list(KILN, rattle::list).map(|n| (n[0], n[1])), Some((252, 305)), "what the kiln lists");
    let counts: Vec<_> = cases.iter().map(Case::allocations).collect();
    assert!(counts.iter().all(|&c| c == counts[0]), "the same for each file, whatever it lists: {counts:?}");
    println!("memory: asked for {} times by each listing, of few and of many builds alike", counts[0]);
    println!();
    println!("{:<40} {:>8} {:>8} {:>19} {:>19} {:>7}", "", "", "", "1000 builds/s", "1000 choices/s", "");
    println!(
        "{:<40} {:>8} {:>8} {:>9} {:>9} {:>9} {:>9} {:>7}",
        "all builds of a file", "builds", "choices", "Rattle", "Rust", "Rattle", "Rust", "ratio"
    );
    for case in &cases {
        case.time();
    }
}
