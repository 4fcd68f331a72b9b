//! Files for the program `rivercheck`: one or more for every rule of the basin
//! file, legal files at the limits, and the samples, each with the number and
//! place that the rules give it.

use crate::damage::{not_packed, rich_base, BROKEN, LEGAL};
use crate::engine::Answer;
use crate::examples::october;
use crate::generate::{largest, Rng};

pub struct Case {
    pub name: String,
    pub file: Vec<u8>,
    /// Number and place; number 0 for an accepted file.
    pub answer: Answer,
}

impl Case {
    /// What `rivercheck` prints of it.
    pub fn line(&self) -> String {
        match self.answer {
            (0, _) => format!("{} accepted\n", self.name),
            (number, place) => format!("{} refused {number} {place}\n", self.name),
        }
    }
}

/// A folder that stands among the files; it opens as a file does, and no read of it succeeds.
pub const A_FOLDER: &str = "a_folder";

/// What is named but cannot be read, with what `rivercheck` prints of it.
pub fn unread() -> [(String, String); 2] {
    ["no_such_file", A_FOLDER].map(|name| (name.to_string(), format!("{name} cannot be read\n")))
}

/// Words of letters and digits, joined to a file's name.
fn file_name(words: &str) -> String {
    let plain = words.replace("2^", "two_to_").replace(',', "").replace('\'', "");
    let parts: Vec<_> = plain.split(|c: char| !c.is_ascii_alphanumeric()).collect();
    let parts: Vec<_> = parts.into_iter().filter(|part| !part.is_empty()).collect();
    format!("{}.basin.bin", parts.join("_").to_lowercase())
}

pub fn cases(provo: &[u8]) -> Vec<Case> {
    let rng = &mut Rng::new(1);
    let mut all = Vec::new();
    let mut add = |words: &str, file: Vec<u8>, answer| {
        all.push(Case { name: file_name(words), file, answer });
    };
    add("october", october().encode(), (0, 0));
    add("provo", provo.to_vec(), (0, 0));
    add("every kind of record", rich_base().encode(), (0, 0));
    add("largest", largest().encode(), (0, 0));
    for (name, file) in not_packed(&rich_base()) {
        // Of the files cut inside the contents the empty one and the longest stand for all.
        let cut = name.starts_with("cut to ");
        if !cut || name == "cut to 0 bytes" || name == "cut to 31 bytes" {
            add(&format!("layout {name}"), file, (1, 0));
        }
    }
    for &(name, number, edit) in BROKEN.iter() {
        let mut basin = rich_base();
        let place = edit(&mut basin, rng).expect(name);
        add(name, basin.encode(), (number, place as u64));
    }
    for &(name, edit) in LEGAL {
        let mut basin = rich_base();
        edit(&mut basin, rng).expect(name);
        add(&format!("legal {name}"), basin.encode(), (0, 0));
    }
    all
}
