//! The river of one month, as the tally follows it.

/// Flow and available flow of one month, with a sign.
pub struct River {
    pub flow: Vec<i128>,
    pub available: Vec<i128>,
}

impl River {
    /// What arises or returns in a row flows down its path, and all of it is available.
    pub fn start(paths: &[Vec<usize>], runoff: &[u32], due_now: &[i128]) -> River {
        let mut flow = vec![0; paths.len()];
        for (row, path) in paths.iter().enumerate() {
            for &holds in path {
                flow[holds] += runoff[row] as i128 + due_now[row];
            }
        }
        let river = River { available: flow.clone(), flow };
        river.assert_in_bounds("before the first right");
        river
    }

    pub fn change(&mut self, path: &[usize], amount: i128) {
        for &row in path {
            self.flow[row] += amount;
            self.available[row] += amount;
        }
    }

    /// What is left to later rights is never more than flows there, and never less than
    /// nothing.
    pub fn assert_in_bounds(&self, moment: &str) {
        for (row, (&flow, &available)) in self.flow.iter().zip(&self.available).enumerate() {
            assert!(
                0 <= available && available <= flow,
                "{moment}: available flow {available} of flow {flow} at row {row}"
            );
        }
    }
}
