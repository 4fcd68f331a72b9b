//! What the generator makes is valid, and covers what it should.

use river_tests::engine::book::{encode, WaterYear};
use river_tests::engine::records::*;
use river_tests::engine::store::{board_at, name_at, NO_NAME, STORE_BYTES};
use river_tests::engine::tally::{path, row_below};
use river_tests::engine::{board, check, find_year, fresh, stock};
use river_tests::generate::{any_river, any_store, kinds_of, largest, river_of, sheet, straight};
use river_tests::generate::{years_of, younger_rights, Rng, Size, NAMES};

#[test]
fn valid_basins_are_accepted() {
    for seed in 0..2000 {
        let river = any_river(&mut Rng::new(seed));
        assert_eq!(check(&river.file), (0, 0), "seed {seed}");
    }
}

#[test]
fn possible_boards_are_accepted() {
    for seed in 0..500 {
        let rng = &mut Rng::new(seed);
        let river = any_river(rng);
        let mut board = river.possible_board(rng);
        assert_eq!(stock(&river.file, &board)[..2], [0, 0], "seed {seed}");
        assert_eq!(fresh(&river.file, &mut board), (0, 0));
        let storages: u64 = river.basin.reservoirs.iter().map(|r| r.start as u64).sum();
        assert_eq!(stock(&river.file, &board), [0, 0, storages, 0], "seed {seed}");
        assert_eq!(board[board::STORAGES..board::MARKS].iter().sum::<u64>(), storages);
    }
}

/// Words of short months on possible boards: each bit set and clear, all of them and none,
/// months that are over and months that are still to be run.
#[test]
fn possible_boards_have_words_of_all_kinds() {
    let (mut words, mut none, mut all, mut ahead) = (0, 0, 0, 0);
    let mut set = [0; 12];
    for seed in 0..500 {
        let rng = &mut Rng::new(seed);
        let river = any_river(rng);
        let board = river.possible_board(rng);
        let (there, missing) = board[board::SHORT..].split_at(river.basin.rights.len());
        assert!(missing.iter().all(|&word| word == 0), "seed {seed}");
        for &word in there {
            words += 1;
            none += (word == 0) as usize;
            all += (word == 0xfff) as usize;
            ahead += (word >> board[board::NEXT_MONTH] != 0) as usize;
            set.iter_mut().enumerate().for_each(|(m, times)| *times += (word >> m & 1) as usize);
        }
    }
    assert!(none > 1000 && all > 1000 && ahead > 1000 && none + all < words / 2);
    assert!(set.iter().all(|times| (words / 3..words * 2 / 3).contains(times)), "{words} {set:?}");
}

/// Rights that follow the elder ones of any list, often up to 256 of them: on the same date, on
/// a later one, undated.
#[test]
fn younger_rights_may_follow() {
    let (mut full, mut same_date, mut later, mut undated) = (0, 0, 0, 0);
    for seed in 0..500 {
        let rng = &mut Rng::new(seed);
        let mut basin = any_river(rng).basin;
        basin.rights.truncate(rng.below(basin.rights.len() + 1));
        let elders = basin.rights.len();
        let kinds = kinds_of(&basin);
        let younger = younger_rights(rng, &basin, kinds, MOST_RIGHTS - elders, 5000);
        basin.rights.extend(younger);
        assert_eq!(check(&basin.encode()), (0, 0), "seed {seed}");
        full += (basin.rights.len() == MOST_RIGHTS) as usize;
        for two in basin.rights[elders.saturating_sub(1)..].windows(2) {
            same_date += (two[0].date == two[1].date) as usize;
            later += (two[0].date < two[1].date) as usize;
            undated += (two[1].date == UNDATED) as usize;
        }
    }
    assert!(full > 400 && full < 500, "{full}");
    assert!([same_date, later, undated].iter().all(|&times| times > 5000));
}

#[test]
fn books_are_sound_and_of_every_length() {
    let mut met = [0; 21];
    for seed in 0..400 {
        let rng = &mut Rng::new(seed);
        let river = any_river(rng);
        let years = river.any_book(rng);
        met[years.len()] += 1;
        assert!(years.windows(2).all(|two| two[0].year < two[1].year), "seed {seed}");
        assert!(years.iter().all(|year| (1800..=2200).contains(&year.year)), "seed {seed}");
        let numbers = 12 * river.basin.stations.len();
        for WaterYear { year, runoff } in &years {
            assert_eq!(runoff.len(), numbers);
            assert!(runoff.iter().all(|&number| number <= MOST_RUNOFF));
            assert_eq!(find_year(&river.file, &encode(&years), *year), (0, 0), "seed {seed}");
        }
        assert_eq!(encode(&years).len(), 4 + (8 + 4 * numbers) * years.len());
    }
    assert!([0, 1, 2, 3, 5, 8, 20].iter().all(|&count: &usize| met[count] > 10), "{met:?}");
    for (count, first, last) in [(20, 1800, 1819), (20, 2181, 2200)] {
        let lists = (0..200).map(|seed| years_of(&mut Rng::new(seed), count));
        let ends = |list: &Vec<u32>| (list[0], list[count - 1]) == (first, last);
        assert!(lists.filter(ends).count() > 5, "{first}");
    }
}

#[test]
fn largest_file_is_at_every_limit() {
    let basin = largest();
    assert_eq!(basin.encode().len(), 20_736);
    assert_eq!(check(&basin.encode()), (0, 0));
    for seed in 0..20 {
        let river = river_of(&mut Rng::new(seed), Size::Limit);
        assert_eq!(river.file.len(), 20_736);
    }
}

#[test]
fn straight_rivers_have_one_path() {
    for rows in 1..=64 {
        let basin = straight(rows);
        assert_eq!(check(&basin.encode()), (0, 0), "{rows} rows");
        assert_eq!(path(&basin.stations, 0), (0..rows).collect::<Vec<_>>());
        assert_eq!((basin.reservoirs.len(), basin.rights.len()), (8, 256));
    }
}

#[test]
fn sheets_hold_as_much_water_as_they_should() {
    let (basin, rng) = (largest(), &mut Rng::new(3));
    let demand: u64 =
        basin.rights.iter().map(|r| r.amounts.map(u64::from).iter().sum::<u64>()).sum();
    for tenths in [3, 15, 100] {
        let months = 120;
        let numbers: Vec<u32> = (0..months).flat_map(|_| sheet(rng, &basin, tenths)).collect();
        assert_eq!(numbers.len(), months * basin.stations.len());
        assert!(numbers.iter().all(|&number| number <= MOST_RUNOFF));
        // Half of the most at the middle.
        let middle = demand as f64 / 12.0 * tenths as f64 / 10.0 / 2.0;
        let water = numbers.iter().map(|&number| number as f64).sum::<f64>() / months as f64;
        assert!((0.95..1.05).contains(&(water / middle)), "{tenths}: {water} for {middle}");
    }
}

/// Where on the area-capacity table the starting storage stands, and extreme numbers of it.
fn see_table(lake: &Reservoir, see: &mut impl FnMut(String)) {
    let table = &lake.area_capacity;
    for pairs in table.windows(2) {
        if (pairs[0].storage + 1..pairs[1].storage).contains(&lake.start) {
            see(format!("start where the area goes {:?}", pairs[1].area.cmp(&pairs[0].area)));
        }
        if pairs[0].area.abs_diff(pairs[1].area) == 1_000_000 {
            see("areas 0 and 1,000,000".into());
        }
    }
    if table[1..].iter().any(|pair| pair.storage == lake.start) {
        see("start at a pair".into());
    }
    if table[3].storage < lake.start {
        see("start above the last pair".into());
    }
    if table[3].storage == u32::MAX {
        see("table up to 4,294,967,295".into());
    }
}

/// How much a pattern brings back, and when.
fn see_pattern(pattern: &Pattern, see: &mut impl FnMut(String)) {
    let sum: u32 = pattern.iter().map(|&percent| percent as u32).sum();
    see(format!("pattern summing to {sum}"));
    let brings = |percent: &u8| *percent > 0;
    let first = pattern.iter().position(brings);
    let Some((first, last)) = first.zip(pattern.iter().rposition(brings)) else { return };
    let losing = if sum < 100 { "losing pattern" } else { "whole pattern" };
    if first == 11 {
        see(format!("{losing} of its last month alone"));
    }
    if last < 11 {
        see(format!("{losing} that ends early"));
    }
    if !pattern[first..last].iter().all(brings) {
        see(format!("{losing} with a zero between"));
    }
}

/// What has to occur more than a few times.
fn wanted() -> Vec<String> {
    let mut wanted: Vec<String> = (1..=8).map(|order| format!("order {order}")).collect();
    wanted.extend([0, 1, 99, 100].map(|sum| format!("pattern summing to {sum}")));
    for points in 0..=4 {
        wanted.push(format!("kind 1 with {points} points"));
        wanted.push(format!("kind 2 with {points} points"));
    }
    for what in [
        "kind 3 with 0 points",
        "kind 4 with 0 points",
        "path leaves out a row",
        "two reservoirs on a row",
        "full at the start",
        "start where the area goes Less",
        "start where the area goes Equal",
        "start where the area goes Greater",
        "areas 0 and 1,000,000",
        "start at a pair",
        "start above the last pair",
        "table up to 4,294,967,295",
        "losing pattern of its last month alone",
        "whole pattern of its last month alone",
        "losing pattern that ends early",
        "losing pattern with a zero between",
        "undated",
        "equal dates",
        "return on another tributary",
    ] {
        wanted.push(what.into());
    }
    wanted
}

/// Each thing the generator is said to cover does occur.
#[test]
fn coverage() {
    let mut seen = std::collections::BTreeMap::new();
    for seed in 0..2000 {
        let basin = any_river(&mut Rng::new(seed)).basin;
        let mut see = |what: String| *seen.entry(what).or_insert(0) += 1;
        for (row, station) in basin.stations.iter().enumerate() {
            see(format!("order {}", station.order));
            if row_below(&basin.stations, row).is_some_and(|below| below > row + 1) {
                see("path leaves out a row".into());
            }
        }
        for (place, lake) in basin.reservoirs.iter().enumerate() {
            see_table(lake, &mut see);
            if basin.reservoirs[..place].iter().any(|other| other.row == lake.row) {
                see("two reservoirs on a row".into());
            }
            if lake.start == lake.capacity {
                see("full at the start".into());
            }
        }
        basin.patterns.iter().for_each(|pattern| see_pattern(pattern, &mut see));
        for (place, right) in basin.rights.iter().enumerate() {
            see(format!("kind {} with {} points", right.kind, right.points));
            if right.date == UNDATED {
                see("undated".into());
            }
            if place > 0 && basin.rights[place - 1].date == right.date {
                see("equal dates".into());
            }
            let downstream = path(&basin.stations, right.row as usize);
            for point in &right.returns[..right.points as usize] {
                if !downstream.contains(&(point.row as usize)) {
                    see("return on another tributary".into());
                }
            }
        }
    }
    let mut sums = (0..=100).map(|sum| format!("pattern summing to {sum}"));
    assert!(sums.all(|sum| seen.contains_key(&sum)), "a sum is left out");
    for what in wanted() {
        assert!(seen.get(&what).is_some_and(|&times| times > 20), "{what}: {:?}", seen.get(&what));
    }
}

/// Stores with every number of empty entries, names that stand once to four times, and a
/// number behind them that looks like one.
#[test]
fn stores_of_all_kinds() {
    let (mut empty, mut equal, mut like_a_name) = ([0; 5], [0; 5], 0);
    for seed in 0..1000 {
        let store = any_store(&mut Rng::new(seed));
        assert_eq!(store.len(), STORE_BYTES);
        let names = [0, 1, 2, 3].map(|entry| store[name_at(entry)].to_vec());
        let times = |name: &[u8]| names.iter().filter(|there| *there == name).count();
        empty[times(&NO_NAME)] += 1;
        equal[NAMES.iter().map(|name| times(name)).max().unwrap()] += 1;
        like_a_name += NAMES.iter().any(|name| store[board_at(0)].starts_with(name)) as usize;
    }
    assert!(empty.iter().chain(&equal).all(|&stores| stores > 20), "{empty:?}, {equal:?}");
    assert!(like_a_name > 100, "{like_a_name}");
}
