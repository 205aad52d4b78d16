//! Draws the calls of a list. It looks at the reference book, so that most
//! calls are accepted.

mod counterpart;
pub mod damage;
pub mod draft;
mod passes;
pub mod profile;
mod rates;
mod requests;
mod scenario;
mod sent;
mod spoil;

use std::collections::VecDeque;

use reference::book::{Book, LAST_DAY};
use reference::record::{Order, pack};
use reference::windows::{end_of_work, next_cycle_minute, window};
use reference::{forms, refusals};

use crate::random::Random;
use crate::record_alone::any_order;
use draft::{Desk, World};
use profile::Profile;

/// One call: a record and the lent area's contents.
pub struct Call {
    pub record: Vec<u8>,
    pub area: Vec<u8>,
}

pub struct Generator {
    profile: Profile,
    world: World,
    random: Random,
    /// Orders of a prepared group that are still to be sent today.
    prepared: VecDeque<Order>,
    sent_today: u64,
    planned_today: u64,
    /// Contents for areas; each takes a piece from a drawn place.
    contents: Vec<u8>,
}

impl Generator {
    pub fn new(profile: Profile, seed: u64) -> Generator {
        let mut random = Random::new(seed);
        let world = World::draw(&profile, &mut random);
        let mut contents = vec![0; 16_384];
        random.fill(&mut contents);
        Generator { profile, world, random, prepared: VecDeque::new(), sent_today: 0, planned_today: 0, contents }
    }

    pub fn next_call(&mut self, book: &Book) -> Call {
        let order = self.next_order(book);
        // A prepared group is worth nothing if one of its orders is lost.
        let whole = !self.prepared.is_empty();
        let damage = !whole && self.random.percent(self.profile.damages);
        let record = if damage { self.damaged(&order) } else { pack(&order.fields(), 0).to_vec() };
        let short_areas = if whole { 0 } else { self.profile.short_areas };
        let length = damage::area_length(short_areas, &mut self.random);
        let start = self.random.place(self.contents.len() - length + 1);
        Call { record, area: self.contents[start..start + length].to_vec() }
    }

    /// Damage comes to the order that is due and to any other form alike.
    fn damaged(&mut self, order: &Order) -> Vec<u8> {
        let other = any_order(self.random.pick(forms::TABLE), &mut self.random);
        let order = if self.random.percent(50) { *order } else { other };
        damage::damaged(&order, &mut self.random)
    }

    fn next_order(&mut self, book: &Book) -> Order {
        if !book.day.open {
            return self.night(book);
        }
        self.sent_today += 1;
        if let Some(order) = self.next_prepared(book) {
            return order;
        }
        if self.sent_today > self.planned_today {
            return self.evening(book);
        }
        self.daytime(book)
    }

    fn desk<'a>(&'a mut self, book: &'a Book) -> Desk<'a> {
        Desk { book, world: &self.world, profile: &self.profile, random: &mut self.random }
    }

    /// No day is open: the next one opens, now and then after a fault.
    fn night(&mut self, book: &Book) -> Order {
        self.prepared.clear();
        if book.day.number == LAST_DAY || self.random.percent(2 * self.profile.faults) {
            let form = self.random.pick(forms::TABLE).number;
            let minute = self.random.below(1440);
            let draft = self.desk(book).draft(form).unwrap_or(Order { form, ..Order::default() });
            return self.with_faults(book, Order { minute, ..draft });
        }
        let (least, most) = self.profile.calls_a_day;
        self.sent_today = 0;
        self.planned_today = self.random.between(least, most);
        let minute = match self.random.below(10) {
            0 => 0,
            1 => 480,
            2 => 481,
            _ => self.random.between(0, 480),
        };
        Order { minute, ..self.desk(book).draft(1).expect("a day can open") }
    }

    /// What cycles are left, each with its answer, then the close.
    fn evening(&mut self, book: &Book) -> Order {
        if let Some(order) = self.around_sent(book) {
            return order;
        }
        if self.random.percent(self.profile.faults) {
            let form = self.random.pick(&[1, 16, 16, 17, 17, 21]);
            let draft = self.desk(book).draft(form).expect("these forms need nothing");
            let order = self.at_usual_minute(book, draft);
            return self.with_faults(book, order);
        }
        let form = match next_cycle_minute(&book.day) {
            _ if book.day.sent => 21,
            Some(_) => 16,
            None => 17,
        };
        let order = self.desk(book).draft(form).expect("these forms need nothing");
        let (first, last) = window(&book.day, &order).expect("a cycle is sent or left, or it is the close");
        let first = first.max(book.day.last_minute);
        let minute = match self.random.below(12) {
            0 => last,
            1 if self.profile.edges > 10 => (last + 1).min(1439),
            2 if self.profile.edges > 10 => first.saturating_sub(1),
            3 => self.random.between(first, last),
            _ => first,
        };
        Order { minute, ..order }
    }

    fn daytime(&mut self, book: &Book) -> Order {
        self.prepared = self.group(book);
        if let Some(order) = self.next_prepared(book) {
            return order;
        }
        if let Some(order) = self.around_sent(book) {
            return order;
        }
        if self.random.percent(self.profile.faults) {
            return self.faulty(book);
        }
        if self.random.percent(self.profile.edges)
            && let Some(order) = self.at_edge(book)
        {
            return order;
        }
        self.acceptable(book)
    }

    /// Now and then, while a cycle is sent, an order around its trades.
    fn around_sent(&mut self, book: &Book) -> Option<Order> {
        if !book.day.sent || !self.random.percent(self.profile.around_sent) {
            return None;
        }
        let draft = self.desk(book).around_sent()?;
        Some(self.at_usual_minute(book, draft))
    }

    /// Now and then orders that belong together.
    fn group(&mut self, book: &Book) -> VecDeque<Order> {
        if self.random.permille(self.profile.scenarios) {
            return self.desk(book).scenario();
        }
        if self.random.permille(self.profile.moving_rates) {
            return self.desk(book).moving_rate();
        }
        VecDeque::new()
    }

    /// The next order of a prepared group; the group ends where it is refused.
    fn next_prepared(&mut self, book: &Book) -> Option<Order> {
        let order = self.prepared.pop_front()?;
        let order = self.at_usual_minute(book, order);
        if refusals::of_order(book, &order).is_err() {
            self.prepared.clear();
            return None;
        }
        Some(order)
    }

    /// An order that the reference would accept, if a few tries find one.
    fn acceptable(&mut self, book: &Book) -> Order {
        let mut order = Order { form: 16, ..Order::default() };
        for _ in 0..8 {
            let form = self.profile.draw_form(&mut self.random);
            let early = next_cycle_minute(&book.day).is_none_or(|minute| minute > book.day.last_minute);
            if form == 16 && early {
                continue;
            }
            if let Some(draft) = self.desk(book).draft(form) {
                order = self.at_usual_minute(book, draft);
                if refusals::of_order(book, &order).is_ok() {
                    return order;
                }
            }
        }
        order
    }

    /// Sets a minute inside the window where one is left, at a pace that
    /// spreads the day's calls over the day.
    fn at_usual_minute(&mut self, book: &Book, order: Order) -> Order {
        let last_minute = book.day.last_minute;
        let left_calls = self.planned_today.saturating_sub(self.sent_today) + 1;
        let left_minutes = end_of_work(book.day.kind).saturating_sub(last_minute);
        let step = self.random.below(2 * left_minutes / left_calls + 1);
        let (first, last) = window(&book.day, &order).unwrap_or((0, 1439));
        let minute = (last_minute + step).clamp(first, last.max(first)).max(last_minute);
        Order { minute: minute.min(1439), ..order }
    }

    /// An order at an end of its window or one minute past it; mostly the
    /// earliest of a few, so that the day goes on.
    fn at_edge(&mut self, book: &Book) -> Option<Order> {
        let in_the_day: Vec<u64> = forms::TABLE.iter().map(|form| form.number).filter(|form| *form != 1).collect();
        let mut found: Vec<Order> = Vec::new();
        for _ in 0..6 {
            // The minutes of cycles move with those that have run.
            let form = if self.random.percent(10) { 16 } else { self.random.pick(&in_the_day) };
            let Some(draft) = self.desk(book).draft(form) else { continue };
            let Some((first, last)) = window(&book.day, &draft) else { continue };
            let inside = self.random.percent(65);
            let edges = if inside { [first, last] } else { [first.saturating_sub(1), last + 1] };
            let ahead: Vec<u64> =
                edges.into_iter().filter(|edge| (book.day.last_minute..1440).contains(edge)).collect();
            let Some(minute) = self.random.maybe_pick(&ahead) else { continue };
            let order = Order { minute, ..draft };
            if matches!(refusals::of_order(book, &order), Ok(()) | Err(9)) {
                found.push(order);
            }
        }
        found.sort_by_key(|order| order.minute);
        if self.random.percent(80) { found.first().copied() } else { self.random.maybe_pick(&found) }
    }

    /// Any form with one fault or two.
    fn faulty(&mut self, book: &Book) -> Order {
        let form = self.random.pick(forms::TABLE).number;
        let Some(draft) = self.desk(book).draft(form) else {
            return self.acceptable(book);
        };
        let order = self.at_usual_minute(book, draft);
        self.with_faults(book, order)
    }

    fn with_faults(&mut self, book: &Book, order: Order) -> Order {
        // Now and then a fault that the form should not have, so that a form
        // which is missing from a refusal's row is found.
        let any = self.random.percent(10);
        let possible = spoil::aims(|refusal| any || (refusal.forms)(order.form));
        let times = if self.random.percent(30) { 2 } else { 1 };
        (0..times).fold(order, |order, _| {
            let refusal = self.random.pick(&possible);
            self.desk(book).spoil(order, refusal)
        })
    }
}
