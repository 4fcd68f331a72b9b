//! Writes a `basin.bin` of the largest size and a `months.bin` into a folder, for
//! `riverrun` and its plain counterpart. Arguments: the folder, the number of months.

use river_tests::examples::months_bytes;
use river_tests::generate::{largest, sheet, Rng};
use std::{env, fs, path::Path};

fn main() -> std::io::Result<()> {
    let mut arguments = env::args().skip(1);
    let folder = arguments.next().expect("a folder");
    let months: u64 = arguments.next().and_then(|n| n.parse().ok()).expect("a number of months");
    let basin = largest();
    let rng = &mut Rng::new(months);
    // Dry, middling and wet years in turn.
    let tenths = |month: u64| [3, 15, 100][(month / 12 % 3) as usize];
    let runoff: Vec<u32> =
        (0..months).flat_map(|month| sheet(rng, &basin, tenths(month))).collect();
    let folder = Path::new(&folder);
    fs::write(folder.join("basin.bin"), basin.encode())?;
    fs::write(folder.join("months.bin"), months_bytes(&runoff))
}
