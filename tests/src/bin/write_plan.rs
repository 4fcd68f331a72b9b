//! Writes the files that `riverplan` is run on and what it is to print, into the folder of
//! the program that is its one argument.

use river_tests::plan::{Plan, BASIN, YEAR};
use std::{env, fs, path::Path};

fn main() -> std::io::Result<()> {
    let folder = env::args().nth(1).expect("the folder of riverplan");
    let folder = Path::new(&folder);
    let samples = Path::new(env!("CARGO_MANIFEST_DIR")).join("../samples");
    let [basin, months] = [BASIN, YEAR].map(|name| fs::read(samples.join(name)));
    let plan = Plan::of_sample(&basin?, &months?);
    fs::create_dir_all(folder.join("data"))?;
    for (name, bytes) in plan.files() {
        fs::write(folder.join("data").join(name), bytes)?;
    }
    fs::write(folder.join("stdout"), plan.printed())
}
