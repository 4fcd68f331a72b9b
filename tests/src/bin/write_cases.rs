//! Writes the files that `rivercheck` is run on, their names and what it is to
//! print, into the folder of the program that is its one argument.

use river_tests::cases::{cases, unread, A_FOLDER};
use std::{env, fs, path::Path};

fn main() -> std::io::Result<()> {
    let folder = env::args().nth(1).expect("the folder of rivercheck");
    let folder = Path::new(&folder);
    let here = Path::new(env!("CARGO_MANIFEST_DIR"));
    let all = cases(&fs::read(here.join("../samples/provo.basin.bin"))?);
    fs::create_dir_all(folder.join("data"))?;
    for case in &all {
        fs::write(folder.join("data").join(&case.name), &case.file)?;
    }
    fs::create_dir_all(folder.join("data").join(A_FOLDER))?;
    fs::write(folder.join("data").join(A_FOLDER).join("october.basin.bin"), &all[0].file)?;
    let named = all.iter().map(|case| (case.name.clone(), case.line()));
    let (names, lines): (Vec<_>, Vec<_>) = named.chain(unread()).unzip();
    fs::write(folder.join("args"), names.join("\n") + "\n")?;
    fs::write(folder.join("stdout"), lines.concat())
}
