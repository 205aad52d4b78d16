//! Rates, and LBP instructions that meet while the rate moves.

use std::collections::VecDeque;

use reference::book::{FIRST_RATE, Item};
use reference::matching::{tolerance, waiting_item};
use reference::record::Order;

use super::draft::{Desk, MOST};

const LBP: u64 = 2;
/// 20 times these are the last below 2^32 and 2^40.
const LAST_OF_32_BITS: u64 = (1 << 32) / 20;
const LAST_OF_40_BITS: u64 = (1 << 40) / 20;

impl Desk<'_> {
    pub fn new_rate(&mut self) -> Order {
        Order { form: 18, quantity: self.rate(), ..Order::default() }
    }

    /// Mostly near the first rate, or small.
    fn rate(&mut self) -> u64 {
        if self.random.percent(self.profile.large_values) {
            return self.wide_rate();
        }
        match self.random.below(4) {
            0 => FIRST_RATE,
            1 => self.random.between(FIRST_RATE - 2, FIRST_RATE + 2),
            2 => self.random.between(1, 2),
            _ => self.random.between(1, 100),
        }
    }

    /// At such a rate instructions pair whose amounts no member has.
    fn wide_rate(&mut self) -> u64 {
        match self.random.below(4) {
            0 => LAST_OF_32_BITS + self.random.below(3),
            1 => LAST_OF_40_BITS + self.random.below(3),
            2 => MOST,
            _ => self.random.sized(40).max(1),
        }
    }

    /// Orders around a moving rate, in the order in which they are sent.
    pub fn moving_rate(&mut self) -> VecDeque<Order> {
        let orders = if self.random.percent(30) { self.answer_in_pounds() } else { self.couple_around_rate() };
        orders.unwrap_or_default().into()
    }

    /// Two LBP instructions that differ in their amounts alone, and a rate that
    /// is set before, between or behind them; behind it one of them comes
    /// again.
    fn couple_around_rate(&mut self) -> Option<Vec<Order>> {
        let set = self.new_rate();
        let [first, second] = self.couple_in_pounds(set.quantity)?;
        let again = Order { reference: self.reference(), ..self.random.pick(&[first, second]) };
        Some(match self.random.below(4) {
            0 => vec![set, first, second],
            1 | 2 => vec![first, set, second],
            _ => vec![first, second, set, again],
        })
    }

    fn couple_in_pounds(&mut self, rate: u64) -> Option<[Order; 2]> {
        let difference = self.difference(rate);
        let amount = self.random.sized(20).clamp(1, MOST - difference.max(0) as u64);
        let deliver = Order { form: 12, currency: LBP, amount, ..self.new_instruction(12)? };
        let mut couple = [deliver, self.answer(&waiting_item(&deliver), difference)];
        self.random.shuffle(&mut couple);
        Some(couple)
    }

    /// The other instruction of an LBP single, which may have come at another
    /// rate.
    fn answer_in_pounds(&mut self) -> Option<Vec<Order>> {
        let in_pounds = |item: &&Item| item.currency == LBP && item.is_single();
        let singles: Vec<Item> = self.book.waiting.iter().filter(in_pounds).copied().collect();
        let single = self.random.maybe_pick(&singles)?;
        let difference = self.difference(self.book.rate);
        Some(vec![self.answer(&single, difference)])
    }

    /// Receive amount less deliver amount: an end of the tolerance at the rate
    /// of now or at another one, or a step past it.
    fn difference(&mut self, other_rate: u64) -> i64 {
        let most = tolerance(self.random.pick(&[self.book.rate, other_rate]), LBP);
        let difference = match self.random.below(8) {
            0 => return -1,
            1 => 0,
            2 | 3 => most,
            4 | 5 => most + 1,
            6 => MOST,
            _ => self.random.between(0, most),
        };
        difference.min(MOST - 1) as i64
    }
}
