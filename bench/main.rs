// Asks the proved rules and plain Rust the same questions, and has both list the same files: first to compare what they
// say, then to time both. run.sh builds and runs it; README.md says what it prints. With the words `write FOLDER` it only
// writes two rule files, for memory.sh.
mod allocations;
mod clock;
mod inputs;
mod listing;
mod lists;
mod questions;
mod rattle;
mod reference;

use inputs::Random;
use std::path::Path;
use std::{env, fs, io};

fn main() -> io::Result<()> {
    let words: Vec<_> = env::args().skip(1).collect();
    if let [word, folder] = words.as_slice()
        && word == "write"
    {
        return write_files(Path::new(folder));
    }
    let random = &mut Random::new(20240607);
    questions::compare(random);
    questions::time(random);
    println!();
    let random = &mut Random::new(20241121);
    lists::compare(random);
    lists::time(random);
    Ok(())
}

// A file with few builds and one with many, each as RULES in a folder of its own.
fn write_files(folder: &Path) -> io::Result<()> {
    let (few, many) = lists::few_and_many();
    for (name, file) in [("few", few), ("many", many)] {
        let folder = folder.join(name);
        fs::create_dir_all(&folder)?;
        fs::write(folder.join("RULES"), file)?;
    }
    Ok(())
}
