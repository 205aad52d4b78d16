//! What kind of list is drawn.

use crate::random::Random;

/// One kind of list.
#[derive(Clone, Debug)]
pub struct Profile {
    pub name: &'static str,
    /// Calls of a list.
    pub calls: u64,
    /// How many different codes, members and shareholders the list knows.
    pub securities: usize,
    pub members: usize,
    pub shareholders: usize,
    /// Calls between opening and the evening, least and most.
    pub calls_a_day: (u64, u64),
    /// How often a form is drawn in the day, by its number from 0 on; not at
    /// all behind the last.
    pub weights: &'static [u64],
    /// Orders that are spoilt on purpose, in percent.
    pub faults: u64,
    /// Records that are damaged, in percent.
    pub damages: u64,
    /// Areas that are too short, in thousandths.
    pub short_areas: u64,
    /// Orders sent at an end of their window, in percent.
    pub edges: u64,
    /// Prepared groups of trades, begun this often, in thousandths.
    pub scenarios: u64,
    /// Of these, such as are begun only with an empty list and fill it, in
    /// percent.
    pub full_lists: u64,
    /// Instructions around a new rate, begun this often, in thousandths.
    pub moving_rates: u64,
    /// Orders around the trades of a cycle that is sent, in percent.
    pub around_sent: u64,
    /// Settlement days of instructions are at most this far ahead.
    pub days_ahead: u64,
    /// Quantities, amounts and rates near the fields' ends, in percent.
    pub large_values: u64,
    /// Days of kind 2, in percent.
    pub fridays: u64,
}

/// All forms: 2 admit, 3 deposit, 4 withdrawal, 5 transfer, 6 to 9 pledge to
/// unblock, 10 and 11 cash, 12 to 14 trades, 15 cancel, 16 cycle, 18 rate, 19
/// and 20 paper, 21 answer.
const BUSY: &[u64] = &[0, 0, 4, 12, 12, 10, 5, 5, 5, 5, 14, 4, 16, 16, 10, 5, 8, 0, 2, 6, 4, 10];

const USUAL: Profile = Profile {
    name: "busy trading",
    calls: 5_000,
    securities: 4,
    members: 8,
    shareholders: 2,
    calls_a_day: (20, 160),
    weights: BUSY,
    faults: 8,
    damages: 1,
    short_areas: 5,
    edges: 3,
    scenarios: 15,
    full_lists: 10,
    moving_rates: 3,
    around_sent: 15,
    days_ahead: 4,
    large_values: 3,
    fridays: 40,
};

const FULL_ACCOUNTS: Profile = Profile {
    name: "full accounts",
    securities: 4,
    members: 64,
    shareholders: 60,
    calls_a_day: (60, 300),
    weights: &[0, 0, 2, 40, 3, 14, 8, 6, 8, 6, 4, 1, 5, 5, 3, 1, 2, 0, 1, 6, 2, 5],
    faults: 15,
    ..USUAL
};

const FULL_ITEMS: Profile = Profile {
    name: "full items",
    members: 12,
    calls_a_day: (20, 120),
    weights: &[0, 0, 3, 8, 2, 3, 1, 1, 1, 1, 4, 1, 30, 30, 12, 4, 1, 0, 1, 2, 1, 6],
    faults: 12,
    scenarios: 40,
    days_ahead: 20,
    ..USUAL
};

const FULL_SECURITIES: Profile = Profile {
    name: "full securities",
    securities: 40,
    weights: &[0, 0, 30, 14, 6, 10, 5, 4, 5, 4, 6, 4, 8, 8, 6, 3, 3, 0, 1, 2, 2, 6],
    faults: 12,
    ..USUAL
};

const DAMAGED_RECORDS: Profile = Profile { name: "damaged records", damages: 30, short_areas: 60, faults: 10, ..USUAL };

const CASH: Profile = Profile {
    name: "cash",
    // A currency's ceiling is some 910 of the largest pay-ins away.
    calls: 9_000,
    members: 64,
    calls_a_day: (20, 200),
    weights: &[0, 0, 1, 3, 1, 1, 1, 1, 1, 1, 70, 3, 4, 4, 3, 1, 1, 0, 1, 1, 1, 25],
    faults: 16,
    large_values: 85,
    ..USUAL
};

const CANCEL_AND_CLOSE: Profile = Profile {
    name: "cancel and close",
    members: 4,
    shareholders: 2,
    calls_a_day: (4, 30),
    weights: &[0, 0, 2, 6, 2, 2, 1, 1, 1, 1, 4, 3, 20, 20, 8, 16, 5, 0, 1, 2, 2, 12],
    days_ahead: 3,
    ..USUAL
};

const EDGES_OF_WINDOWS: Profile = Profile {
    name: "edges of windows",
    securities: 40,
    calls_a_day: (6, 40),
    weights: &[0, 0, 10, 12, 12, 10, 5, 5, 5, 5, 14, 4, 16, 16, 10, 5, 8, 0, 2, 6, 5, 12],
    faults: 2,
    edges: 70,
    scenarios: 5,
    ..USUAL
};

const FULL_CYCLES: Profile = Profile {
    name: "full cycles",
    calls_a_day: (2, 10),
    weights: &[0, 0, 2, 6, 4, 3, 1, 1, 1, 1, 6, 4, 0, 0, 0, 0, 4, 0, 0, 0, 0, 6],
    faults: 2,
    scenarios: 300,
    full_lists: 50,
    moving_rates: 0,
    ..USUAL
};

const NETTING: Profile = Profile {
    name: "netting",
    securities: 2,
    members: 5,
    shareholders: 1,
    calls_a_day: (10, 60),
    weights: &[0, 0, 2, 5, 2, 2, 1, 1, 1, 1, 6, 4, 12, 12, 20, 2, 6, 0, 1, 0, 0, 8],
    faults: 3,
    scenarios: 60,
    days_ahead: 2,
    ..USUAL
};

const MOVING_RATE: Profile = Profile {
    name: "moving rate",
    calls: 1_500,
    securities: 2,
    members: 4,
    shareholders: 1,
    calls_a_day: (4, 30),
    weights: &[0, 0, 1, 3, 1, 1, 1, 1, 1, 1, 6, 1, 24, 24, 2, 4, 3, 0, 6, 0, 0, 8],
    faults: 3,
    scenarios: 0,
    moving_rates: 120,
    days_ahead: 5,
    large_values: 30,
    ..USUAL
};

const PAPER: Profile = Profile {
    name: "requests for paper",
    calls: 2_500,
    securities: 3,
    members: 4,
    shareholders: 1,
    calls_a_day: (6, 40),
    weights: &[0, 0, 2, 20, 2, 4, 1, 1, 1, 1, 2, 1, 3, 3, 1, 2, 2, 0, 1, 26, 14, 5],
    faults: 20,
    short_areas: 20,
    scenarios: 0,
    moving_rates: 0,
    large_values: 30,
    ..USUAL
};

/// Few members and accounts, so that the trades of a cycle take from one
/// account and bring to it, while the counter moves what it offers.
const SENT_CYCLES: Profile = Profile {
    name: "sent cycles",
    calls: 3_000,
    securities: 1,
    members: 4,
    shareholders: 1,
    calls_a_day: (20, 90),
    weights: &[0, 0, 2, 10, 3, 4, 3, 3, 3, 3, 8, 1, 18, 18, 10, 14, 12, 0, 1, 3, 2, 5],
    faults: 6,
    short_areas: 15,
    scenarios: 40,
    moving_rates: 0,
    around_sent: 45,
    days_ahead: 2,
    ..USUAL
};

/// The profiles of the comparison, in the order of their lists.
pub fn profiles() -> Vec<Profile> {
    vec![
        USUAL,
        FULL_ACCOUNTS,
        FULL_ITEMS,
        FULL_SECURITIES,
        DAMAGED_RECORDS,
        CASH,
        CANCEL_AND_CLOSE,
        EDGES_OF_WINDOWS,
        FULL_CYCLES,
        NETTING,
        MOVING_RATE,
        PAPER,
        SENT_CYCLES,
    ]
}

/// The list that runs to day 60,000 and ends a little after it.
pub fn fast_days() -> Profile {
    Profile {
        name: "fast days",
        calls: 1_000_000,
        calls_a_day: (0, 3),
        faults: 3,
        scenarios: 1,
        days_ahead: 20,
        fridays: 80,
        ..USUAL
    }
}

impl Profile {
    /// A form of the day, by weight.
    pub fn draw_form(&self, random: &mut Random) -> u64 {
        let mut rest = random.below(self.weights.iter().sum());
        for (form, weight) in self.weights.iter().enumerate() {
            if rest < *weight {
                return form as u64;
            }
            rest -= weight;
        }
        unreachable!("the weights are used up")
    }
}
