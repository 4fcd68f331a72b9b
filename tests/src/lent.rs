//! A list as it is lent to the library, with numbers on either side that no call may
//! touch.

use std::fmt::Display;

/// What a list can hold, and what then lies on either side of it.
pub trait Number: Copy + PartialEq + Display + 'static {
    const BESIDE: &'static [Self];
}

impl Number for u64 {
    const BESIDE: &'static [u64] = &[0x5a5a_5a5a_5a5a_5a5a; 3];
}

/// Their number is odd, and so is the address of what is lent.
impl Number for u8 {
    const BESIDE: &'static [u8] = &[0x5a; 37];
}

pub struct Lent<N>(Vec<N>);

impl<N: Number> Lent<N> {
    pub fn of(list: &[N]) -> Lent<N> {
        Lent([N::BESIDE, list, N::BESIDE].concat())
    }

    pub fn list(&mut self) -> &mut [N] {
        let end = self.0.len() - N::BESIDE.len();
        &mut self.0[N::BESIDE.len()..end]
    }

    /// Asserts that the list is the expected one, and that what lies beside is as it was.
    #[track_caller]
    pub fn assert_is(&self, expected: &[N], list: &str, at: &dyn Display) {
        let expected = Lent::of(expected).0;
        assert_eq!(self.0.len(), expected.len());
        // As a whole, since a store has many bytes; the place only for the message.
        if self.0 != expected {
            let differs = |&place: &usize| self.0[place] != expected[place];
            let place = (0..expected.len()).find(differs).unwrap();
            let (native, expected) = (self.0[place], expected[place]);
            let place = place as isize - N::BESIDE.len() as isize;
            panic!("{at}: {list}, place {place} is {native}, not {expected}");
        }
    }
}
