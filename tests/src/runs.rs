//! The runs that program `riverrun` is put to under the gate: two files each, of
//! which either may be missing, and the listing that the rules give them.

use crate::engine::records::{Basin, MONTHS, MOST_RUNOFF, UNDATED};
use crate::examples::*;
use crate::generate::{river, Rng, Size, Volume, Water};
use crate::listing::listing;

pub struct Run {
    pub name: &'static str,
    pub basin: Option<Vec<u8>>,
    pub months: Option<Vec<u8>>,
    /// The refusal that ends it, as the rules give it.
    pub refusal: Option<&'static str>,
}

impl Run {
    fn refused(self, refusal: &'static str) -> Run {
        Run { refusal: Some(refusal), ..self }
    }

    /// The names of its two files.
    pub fn files(&self) -> [String; 2] {
        [format!("{}.basin.bin", self.name), format!("{}.months.bin", self.name)]
    }

    /// The bytes of both; a file that is not there counts as empty.
    pub fn bytes(&self) -> [&[u8]; 2] {
        [&self.basin, &self.months].map(|file| file.as_deref().unwrap_or(&[]))
    }

    /// What the plain engine lists, for the file of expected listings.
    pub fn listing(&self) -> String {
        let [basin, months] = self.bytes();
        listing(basin, months)
    }
}

/// The sample rivers are read by the caller.
pub fn runs(provo: [Vec<u8>; 2]) -> Vec<Run> {
    let sheet = months_bytes(&[2000, 700, 300]);
    let [provo_basin, provo_months] = provo;
    let file = || october().encode();
    let mut all = vec![
        run("october", Some(file()), Some(sheet.clone())),
        run("provo", Some(provo_basin), Some(provo_months)),
        dry_year("lake_drawn_down", drawn_down()),
        dry_year("lake_of_extreme_numbers", extreme()),
        run("no_month", Some(file()), Some(Vec::new())),
        run("no_months_file", Some(file()), None),
        run("no_basin_file", None, Some(sheet.clone())).refused("refused 1 0"),
        run("empty_basin", Some(Vec::new()), Some(sheet.clone())).refused("refused 1 0"),
        run("basin_with_a_byte_more", Some([file(), vec![0]].concat()), Some(sheet.clone()))
            .refused("refused 1 0"),
        run("basin_longer_than_any", Some(vec![1; 70_000]), Some(sheet.clone()))
            .refused("refused 1 0"),
        run("last_part_a_byte_short", Some(file()), Some([&sheet[..], &sheet[..11]].concat()))
            .refused("refused 6 0"),
        run("last_part_one_byte", Some(file()), Some([&sheet[..], &sheet[..1]].concat()))
            .refused("refused 6 0"),
        run("runoff_at_its_limit", Some(file()), Some(months_bytes(&[MOST_RUNOFF; 3]))),
        run(
            "runoff_over_its_limit",
            Some(file()),
            Some([sheet.clone(), months_bytes(&[5, MOST_RUNOFF + 1, u32::MAX])].concat()),
        )
        .refused("refused 8 1"),
        run("right_at_fault", Some(unpointed_below_100().encode()), Some(sheet))
            .refused("refused 5 3"),
    ];
    for (name, seed, water) in [
        ("years_of_tight_water", 11, Water::Tight),
        ("more_years_of_tight_water", 12, Water::Tight),
        ("years_of_loose_water", 13, Water::Loose),
    ] {
        all.push(years(name, seed, water));
    }
    let wet_and_dry = months_bytes(&[20, 0, 0, 0, 0, 9, 0, 4]);
    all.push(run("first_tight_spot", Some(tight_spots().encode()), Some(wet_and_dry)));
    let wet_and_dry = [[1500, 100, 50, 0], [200, 0, 30, 5], [0; 4], [40, 700, 0, 0], [0, 0, 9, 1]];
    let two_years: Vec<u32> = wet_and_dry.iter().flatten().copied().cycle().take(4 * 24).collect();
    all.push(run("deep_losses", Some(losing().encode()), Some(months_bytes(&two_years))));
    let wet_and_dry = months_bytes(&[2000, 700, 300, 0, 0, 300]);
    all.push(run("elder_with_younger", Some(file()), Some(wet_and_dry.clone())));
    all.push(run("elder_alone", Some(october_elder().encode()), Some(wet_and_dry)));
    all
}

fn run(name: &'static str, basin: Option<Vec<u8>>, months: Option<Vec<u8>>) -> Run {
    Run { name, basin, months, refusal: None }
}

/// Twelve months without runoff on a river of one row and one lake.
fn dry_year(name: &'static str, basin: Basin) -> Run {
    run(name, Some(basin.encode()), Some(months_bytes(&[0; 12])))
}

/// A lake that a project right draws down along its whole area-capacity table, from above
/// the last pair; its areas fall, stay and rise.
fn drawn_down() -> Basin {
    let mut lake = reservoir(0, 1200, 1200, [(0, 2), (300, 13), (500, 13), (900, 4)]);
    lake.depths = [1; MONTHS];
    Basin {
        stations: stations(&[(100, 1)]),
        reservoirs: vec![lake],
        rights: vec![project(1, 19000101, 0, 0, 100)],
        ..Basin::default()
    }
}

/// The largest lake and table: from 1,000,000 acres to none between 2 and 2^32 - 1 units.
fn extreme() -> Basin {
    let table = [(0, 1_000_000), (1, 0), (2, 1_000_000), (u32::MAX, 0)];
    let mut lake = reservoir(0, 2_000_000_000, 2_000_000_000, table);
    lake.depths = [300; MONTHS];
    Basin { stations: stations(&[(100, 1)]), reservoirs: vec![lake], ..Basin::default() }
}

/// Patterns that lose a fifth, all, nothing, and all but 3 percent that come last. The two
/// parts of the first right, 1 and 2, lose 1 each, where the whole 3 would lose 1.
fn losing() -> Basin {
    let late = [0, 0, 0, 0, 0, 0, 0, 0, 0, 0, 0, 3];
    Basin {
        stations: stations(&[(10, 2), (20, 1), (30, 1), (40, 1)]),
        reservoirs: vec![reservoir(0, 900, 300, [(0, 1), (300, 4), (600, 9), (900, 9)])],
        patterns: vec![pattern(&[50, 30]), pattern(&[]), pattern(&[50, 30, 20]), late],
        rights: vec![
            direct(1, 18900101, 0, 3).returning(0, 0, &[(1, 50), (2, 50)]),
            direct(2, 18910101, 0, 805).returning(0, 0, &[(2, 100)]),
            direct(3, 18920101, 1, 40).returning(25, 1, &[(2, 60), (3, 40)]),
            instream(4, 18930101, 2, 10),
            storage(5, 18940101, 0, 0, 100, 500),
            direct(6, 18950101, 1, 201).returning(33, 2, &[(2, 100)]),
            project(7, 18960101, 2, 0, 60).returning(10, 3, &[(2, 40), (3, 30), (3, 20), (3, 10)]),
            direct(8, UNDATED, 3, 99).returning(50, 0, &[(3, 97), (3, 3)]),
        ],
    }
}

/// A right without return points that would return part of its grant.
fn unpointed_below_100() -> Basin {
    let mut basin = october();
    basin.rights[3].efficiency = 99;
    basin
}

/// Four years of a river drawn at random.
fn years(name: &'static str, seed: u64, water: Water) -> Run {
    let mut rng = Rng::new(seed);
    let river = river(&mut rng, Size::Middle, Volume::Usual, water);
    let months = (0..48).flat_map(|_| months_bytes(&river.runoff(&mut rng))).collect();
    run(name, Some(river.basin.encode()), Some(months))
}
