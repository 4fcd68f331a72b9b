//! Writes the files that `riverrun` is run on, their names and what it is to
//! print, into the folder of the program that is its one argument.

use river_tests::runs::runs;
use std::{env, fs, path::Path};

fn main() -> std::io::Result<()> {
    let folder = env::args().nth(1).expect("the folder of riverrun");
    let folder = Path::new(&folder);
    let samples = Path::new(env!("CARGO_MANIFEST_DIR")).join("../samples");
    let all = runs([
        fs::read(samples.join("provo.basin.bin"))?,
        fs::read(samples.join("provo.months.bin"))?,
    ]);
    fs::create_dir_all(folder.join("data"))?;
    for run in &all {
        for (name, bytes) in run.files().iter().zip([&run.basin, &run.months]) {
            if let Some(bytes) = bytes {
                fs::write(folder.join("data").join(name), bytes)?;
            }
        }
    }
    let names: String = all.iter().flat_map(|run| run.files()).map(|name| name + "\n").collect();
    fs::write(folder.join("args"), names)?;
    let text: String = all.iter().map(|run| run.listing()).collect();
    fs::write(folder.join("stdout"), text)
}
