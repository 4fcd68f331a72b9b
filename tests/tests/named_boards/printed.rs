//! What the example in C prints.

use river_tests::engine::tally::Tally;
use river_tests::examples::{october, OCTOBER_RUNOFF};

/// October's basin with an example's months, each with the line that is printed of it.
struct Told {
    tally: Tally,
    text: String,
}

impl Told {
    fn month(&mut self, what: &str, runoff: [u32; 3]) {
        let (number, short) = self.tally.call(&runoff, 28);
        assert_eq!(number, 0);
        let stored: i128 = self.tally.storages.iter().sum();
        let due: i128 = self.tally.pending_returns().iter().flatten().sum();
        self.text += &format!("{what}: {short} rights short, stored {stored}, due {due}\n");
    }

    /// October and the winter after it.
    fn winter() -> Told {
        let mut told = Told { tally: Tally::new(&october().encode()), text: String::new() };
        told.month("October", OCTOBER_RUNOFF);
        (1..5).for_each(|_| told.month("winter", [1700, 600, 200]));
        told
    }
}

/// The wet March of `examples/store.c` follows the winter, as if no dry one had been tried.
#[test]
fn the_example_in_c_prints_what_the_tally_has() {
    let mut dry = Told::winter();
    dry.text += "saved\n";
    dry.month("a dry March", [0; 3]);
    dry.month("a dry April", [100, 0, 0]);
    let mut wet = Told::winter();
    wet.text = "recalled\nthe board is as it was\n".to_string();
    wet.month("a wet March", [5000, 2500, 900]);
    let refused = "dropped\nrecalled again: refused 11 0\n";
    let text = dry.text + &wet.text + refused;
    assert_eq!(include_str!("../../../examples/store.expected"), text);
}
