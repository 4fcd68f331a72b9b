//! What program `riverplan` is run on and what it is to print (02, No. 7): on the Provo River
//! a dry spring is tried, and March returned to; then what a store turns down.
//!
//! The lines of months are those of listings that no store has touched: of a year whose
//! spring is dry, and of 1967 as it was. So what follows the recall is asked for as if
//! nothing had been tried.

use crate::engine::board::{BOARD, NEXT_MONTH};
use crate::engine::report::LONGEST;
use crate::engine::store::{name_at, NO_NAME, STORE_BYTES};
use crate::engine::{drop_name, fresh, month, recall, save, stock, Answer};
use crate::listing::listing;

pub const BASIN: &str = "provo.basin.bin";
pub const YEAR: &str = "provo.months.bin";
pub const DRY: &str = "dry.months.bin";

/// The months before March.
const WINTER: usize = 5;

/// A basin with the sheets of a year and those of a dry spring, each as bytes.
pub struct Plan {
    pub basin: Vec<u8>,
    pub year: Vec<u8>,
    pub dry: Vec<u8>,
}

impl Plan {
    /// The second year of a sample of two. Its spring is dry with a tenth of each number.
    pub fn of_sample(basin: &[u8], months: &[u8]) -> Plan {
        let year = months[months.len() / 2..].to_vec();
        let spring = &year[WINTER * sheet_bytes(&year)..];
        let dry = numbers(spring).iter().flat_map(|number| (number / 10).to_le_bytes()).collect();
        Plan { basin: basin.to_vec(), dry, year }
    }

    pub fn files(&self) -> [(&str, &[u8]); 3] {
        [(BASIN, &self.basin), (YEAR, &self.year), (DRY, &self.dry)]
    }

    pub fn winter(&self) -> &[u8] {
        &self.year[..WINTER * sheet_bytes(&self.year)]
    }

    /// The year as it is run at first: after February the dry spring.
    pub fn dry_year(&self) -> Vec<u8> {
        [self.winter(), &self.dry].concat()
    }

    /// What the program is to print.
    pub fn printed(&self) -> String {
        let mut desk = Desk::new(self);
        desk.try_a_dry_spring();
        desk.be_turned_down();
        desk.fill_the_store();
        desk.name_two_alike();
        desk.run_from_a_thirteenth_month();
        desk.text
    }
}

/// A year has twelve sheets.
fn sheet_bytes(year: &[u8]) -> usize {
    year.len() / 12
}

fn numbers(sheets: &[u8]) -> Vec<u32> {
    sheets.as_chunks().0.iter().map(|&number| u32::from_le_bytes(number)).collect()
}

/// The lines of a listing up to March, with the header, and from March on.
fn at_march(listing: &str) -> (&str, &str) {
    listing.split_at(listing.find("\n5 ").unwrap() + 1)
}

/// What stands on the planner's desk, and what has been printed.
struct Desk<'a> {
    plan: &'a Plan,
    board: Vec<u64>,
    store: Vec<u8>,
    text: String,
}

impl Desk<'_> {
    fn new(plan: &Plan) -> Desk<'_> {
        let mut board = vec![0; BOARD];
        assert_eq!(fresh(&plan.basin, &mut board), (0, 0));
        Desk { plan, board, store: vec![0; STORE_BYTES], text: String::new() }
    }

    fn say(&mut self, what: &str, (number, place): Answer) {
        self.text += &format!("{what}: {number} {place}\n");
    }

    fn say_stock(&mut self) {
        let [number, place, storage, due] = stock(&self.plan.basin, &self.board);
        self.text += &format!("stock {number} {place} {storage} {due}\n");
    }

    fn save(&mut self, what: &str, name: &[u8]) {
        let answer = save(&mut self.store, name, &self.board);
        self.say(what, answer);
    }

    fn recall(&mut self, what: &str, name: &[u8]) {
        let answer = recall(&self.store, name, &mut self.board);
        self.say(what, answer);
    }

    fn drop_name(&mut self, what: &str, name: &[u8]) {
        let answer = drop_name(&mut self.store, name);
        self.say(what, answer);
    }

    /// All three calls with one name.
    fn ask(&mut self, what: &str, store: Option<&mut [u8]>, name: &[u8]) {
        let store = store.unwrap_or(&mut self.store);
        let answers = [
            save(store, name, &self.board),
            recall(store, name, &mut self.board),
            drop_name(store, name),
        ];
        let told: String =
            answers.iter().map(|(number, place)| format!(" {number} {place}")).collect();
        self.text += &format!("{what}, save, recall, drop:{told}\n");
    }

    fn month(&mut self, sheet: &[u8]) -> Answer {
        month(&self.plan.basin, &numbers(sheet), &mut self.board, &mut [0; LONGEST])
    }

    /// Months that are accepted; their lines come from a listing.
    fn run(&mut self, sheets: &[u8]) {
        for sheet in sheets.chunks(sheet_bytes(&self.plan.year)) {
            assert_eq!(self.month(sheet).0, 0);
        }
    }

    fn try_a_dry_spring(&mut self) {
        let plan = self.plan;
        let spring = &plan.year[plan.winter().len()..];
        let as_it_was = listing(&plan.basin, &plan.year);
        let (winter_lines, spring_lines) = at_march(&as_it_was);
        self.text += winter_lines;
        self.run(plan.winter());
        self.save("save MARCH", b"MARCH   ");
        self.text += at_march(&listing(&plan.basin, &plan.dry_year())).1;
        self.run(&plan.dry);
        self.save("save DRY", b"DRY     ");
        self.recall("recall MARCH", b"MARCH   ");
        self.text += spring_lines;
        self.run(spring);
        let bytes = spring_lines.len();
        self.text += &format!("as if nothing had been tried: {bytes} bytes, the same\n");
    }

    fn be_turned_down(&mut self) {
        self.ask("a store of 39263 bytes", Some(&mut vec![0; STORE_BYTES - 1]), b"MARCH   ");
        self.ask("a name of seven bytes", None, b"MARCH  ");
        self.ask("a name of zeros", None, &NO_NAME);
        let answer = save(&mut self.store, b"MARCH   ", &vec![0; BOARD - 1]);
        self.say("save, board of 1225", answer);
        self.say_stock();
    }

    fn fill_the_store(&mut self) {
        self.save("save APRIL", b"APRIL   ");
        self.save("save MAY", b"MAY     ");
        self.ask("JUNE, a fifth", None, b"JUNE    ");
        self.drop_name("drop DRY", b"DRY     ");
        self.recall("recall DRY", b"DRY     ");
        self.save("save JUNE", b"JUNE    ");
    }

    fn name_two_alike(&mut self) {
        self.store[name_at(1)].copy_from_slice(b"MARCH   ");
        self.recall("recall MARCH, its name twice", b"MARCH   ");
        self.say_stock();
    }

    fn run_from_a_thirteenth_month(&mut self) {
        let plan = self.plan;
        let march = &plan.year[plan.winter().len()..][..sheet_bytes(&plan.year)];
        let mut thirteenth = vec![0; BOARD];
        thirteenth[NEXT_MONTH] = 12;
        let answer = save(&mut self.store, b"MAY     ", &thirteenth);
        self.say("save MAY, a board of a thirteenth month", answer);
        for (what, name) in [("recall MAY", b"MAY     "), ("recall MARCH", b"MARCH   ")] {
            self.recall(what, name);
            let answer = self.month(march);
            self.say("month", answer);
        }
        self.say_stock();
    }
}
