//! Writes the files that `riveryear` is run on, its words and what it is to print, into
//! the folder of the program that is its one argument.

use river_tests::years::{listing, words, BASIN, BOOK};
use std::{env, fs, path::Path};

fn main() -> std::io::Result<()> {
    let folder = env::args().nth(1).expect("the folder of riveryear");
    let folder = Path::new(&folder);
    let samples = Path::new(env!("CARGO_MANIFEST_DIR")).join("../samples");
    let [basin, book] = [BASIN, BOOK].map(|name| fs::read(samples.join(name)));
    let (basin, book) = (basin?, book?);
    fs::create_dir_all(folder.join("data"))?;
    fs::write(folder.join("data").join(BASIN), &basin)?;
    fs::write(folder.join("data").join(BOOK), &book)?;
    fs::write(folder.join("args"), words())?;
    fs::write(folder.join("stdout"), listing(&basin, &book))
}
