//! What the calls of a run have reached. A wanted cell that stays empty
//! fails the run.

mod arrivals;
pub mod couples;
mod cycles;
pub mod damages;
mod edges;
mod endings;
mod passes;
mod rates;
mod requests;
mod sent;
pub mod table;

use std::collections::BTreeMap;

use reference::book::{Book, CASH_CEILING, LAST_DAY};
use reference::call::AREA_BYTES;
use reference::forms;
use reference::record::{self, Field, Order, RECORD_BYTES, unpack, usual_range};
use reference::refusals::{self, Refusal};

use damages::Damage;
use edges::Edge;

#[derive(Clone, Copy, Debug, PartialEq, Eq, PartialOrd, Ord)]
pub enum Cell {
    Accepted {
        form: u64,
        kind: u64,
    },
    Refused {
        form: u64,
        refusal: u64,
    },
    /// A call with two faults, answered with the first.
    Both {
        first: u64,
        second: u64,
    },
    /// The same of one form alone, of what is asked of its orders.
    BothInForm {
        form: u64,
        first: u64,
        second: u64,
    },
    /// A minute at an end of a window or one past it; the part tells the
    /// windows of a form apart.
    Edge {
        form: u64,
        kind: u64,
        part: u64,
        edge: Edge,
    },
    /// Receive amount less deliver amount, with all other terms equal.
    Difference {
        currency: u64,
        arriving: u64,
        step: arrivals::Step,
    },
    /// The same in LBP, by the rate at which the two meet.
    AtRate {
        rate: rates::Rate,
        arriving: u64,
        step: arrivals::Step,
    },
    /// A request for paper, by the type that its shares come from.
    Requested {
        from: u64,
    },
    /// Its ending, by both types.
    Ended {
        from: u64,
        to: u64,
    },
    /// A call between a cycle and its answer: 0 if it is accepted, else its
    /// refusal.
    Between {
        form: u64,
        answer: u64,
    },
    /// All that an account of a sent trade offers, or one share more, by what
    /// the sent trades do to it.
    Offer {
        form: u64,
        net: sent::Net,
        more: bool,
    },
    /// A single that fits but for one term.
    NearMiss {
        term: arrivals::Term,
        arriving: u64,
    },
    Damage(Damage),
    Event(&'static str),
}

const EVENTS: &[&[&str]] = &[
    SIZES,
    arrivals::EVENTS,
    rates::EVENTS,
    requests::EVENTS,
    cycles::EVENTS,
    passes::EVENTS,
    sent::EVENTS,
    endings::EVENTS,
];

const SIZES: &[&str] = &[
    "area of 0 bytes",
    "area one byte short",
    "area of 4,096 bytes",
    "longer area",
    "32 securities",
    "256 accounts and no item",
    "64 items",
    "accounts and items together 256",
    "USD total exactly at the ceiling",
    "LBP total exactly at the ceiling",
    "largest quantity accepted",
    "largest amount accepted",
    "largest security code, member and shareholder accepted",
    "day 60,000 open",
    "day 60,000 closed",
    "form 1 refused on day 60,000",
    "another form refused after day 60,000",
];

#[derive(Default)]
pub struct Coverage {
    reached: BTreeMap<Cell, u64>,
    /// Of the list that runs.
    rates: rates::History,
    requests: requests::History,
    sent: sent::History,
    pub calls: u64,
    pub accepted: u64,
}

impl Coverage {
    pub fn reach(&mut self, cell: Cell) {
        *self.reached.entry(cell).or_insert(0) += 1;
    }

    pub fn event(&mut self, name: &'static str) {
        self.reach(Cell::Event(name));
    }

    fn named(&mut self, events: &[(bool, &'static str)]) {
        events.iter().filter(|(holds, _)| *holds).for_each(|(_, name)| self.event(name));
    }

    /// The next calls are those of another list.
    pub fn new_list(&mut self) {
        self.rates = rates::History::default();
        self.requests = requests::History::default();
        self.sent = sent::History::default();
    }

    pub fn count(&self, cell: &Cell) -> u64 {
        self.reached.get(cell).copied().unwrap_or(0)
    }

    /// Looks at a call before it is made.
    pub fn before_call(&mut self, book: &Book, bytes: &[u8], area: usize) {
        self.calls += 1;
        self.area(area);
        let faults = faults(book, bytes, area);
        let form = bytes.first().map_or(0, |byte| u64::from(byte >> 3));
        let Some((first, later)) = faults.split_first() else {
            self.accepted += 1;
            return self.accepted_call(book, &Order::from_fields(unpack(bytes)));
        };
        self.reach(Cell::Refused { form, refusal: *first });
        for second in later.iter().copied() {
            self.reach(Cell::Both { first: *first, second });
            self.reach(Cell::BothInForm { form, first: *first, second });
        }
        match first {
            1 => {}
            2..=5 => self.damaged(bytes),
            _ => self.refused_order(book, &Order::from_fields(unpack(bytes)), *first),
        }
    }

    fn area(&mut self, length: usize) {
        match length {
            0 => self.event("area of 0 bytes"),
            AREA_BYTES => self.event("area of 4,096 bytes"),
            _ if length == AREA_BYTES - 1 => self.event("area one byte short"),
            _ if length > AREA_BYTES => self.event("longer area"),
            _ => {}
        }
    }

    fn accepted_call(&mut self, book: &Book, order: &Order) {
        let kind = if order.form == 1 { order.quantity } else { book.day.kind };
        self.reach(Cell::Accepted { form: order.form, kind });
        if book.day.sent {
            self.between(book, order);
        }
        self.edge(book, order, true);
        self.extremes(order);
        match order.form {
            1 => {
                self.opening(book);
                self.sent.new_day();
            }
            5..=9 => self.movement(book, order),
            12 | 13 => self.arrival(book, order),
            15 => self.cancellation(book, order),
            16 => self.cycle(book),
            17 => {
                self.close(book);
                self.close_after_answers(book, order);
            }
            18 => self.new_rate(book, order),
            19 => self.request(book, order),
            20 => self.ending(book, order),
            21 => self.answer(book, order),
            _ => {}
        }
    }

    fn extremes(&mut self, order: &Order) {
        let at_most = |field: Field| order.fields()[field as usize] == usual_range(field).1;
        // A rate is no quantity of shares.
        if at_most(Field::Quantity) && order.form != 18 {
            self.event("largest quantity accepted");
        }
        if at_most(Field::Amount) {
            self.event("largest amount accepted");
        }
        if [Field::Security, Field::CreditedMember, Field::CreditedShareholder].into_iter().all(at_most) {
            self.event("largest security code, member and shareholder accepted");
        }
    }

    fn refused_order(&mut self, book: &Book, order: &Order, refusal: u64) {
        if book.day.sent {
            self.refused_between(book, order, refusal);
        }
        match order.form {
            15 if refusal == 14 => self.cancel_beside_request(book, order),
            19 => self.refused_request(book, order, refusal),
            20 => self.refused_ending(book, order, refusal),
            _ => {}
        }
        match refusal {
            6 if book.day.number == LAST_DAY && !book.day.open => match order.form {
                1 => self.event("form 1 refused on day 60,000"),
                _ => self.event("another form refused after day 60,000"),
            },
            8 => self.refused_after_late_answer(book),
            9 => self.edge(book, order, false),
            14 | 15 if order.form == 15 => self.refused_cancellation(book, order),
            18 => self.refused_for_room(book, order),
            _ => {}
        }
    }

    /// Looks at the book after a call.
    pub fn after_call(&mut self, book: &Book) {
        let (accounts, items) = (book.accounts.len(), book.waiting.len());
        let states = [
            (book.securities.len() == 32, "32 securities"),
            (accounts == 256, "256 accounts and no item"),
            (items == 64, "64 items"),
            (accounts + items == 256 && items > 0, "accounts and items together 256"),
            (accounts + items == 256 && !book.requests.is_empty(), "a full book has requests besides"),
            (book.cash_total(1) == CASH_CEILING, "USD total exactly at the ceiling"),
            (book.cash_total(2) == CASH_CEILING, "LBP total exactly at the ceiling"),
            (book.day.number == LAST_DAY && book.day.open, "day 60,000 open"),
            (book.day.number == LAST_DAY && !book.day.open, "day 60,000 closed"),
        ];
        self.named(&states);
    }
}

/// All refusals that a call deserves, in checking order. Of a record that does
/// not read only what can still be said of it.
fn faults(book: &Book, bytes: &[u8], area: usize) -> Vec<u64> {
    let mut faults: Vec<u64> = refusals::of_area(area, AREA_BYTES).err().into_iter().collect();
    let read = record::read(bytes);
    faults.extend(read.err());
    if bytes.len() != RECORD_BYTES {
        return faults;
    }
    let order = Order::from_fields(unpack(bytes));
    if read == Err(4) && order.minute > usual_range(Field::Minute).1 {
        faults.push(5);
    }
    let asked = |refusal: &&Refusal| match read {
        Ok(_) => true,
        Err(3) => false,
        Err(_) => couples::ASKED_OF_DAMAGED.contains(&refusal.number),
    };
    let refusing = refusals::TABLE.iter().filter(asked).filter(|refusal| refusal.refuses(book, &order));
    faults.extend(refusing.map(|refusal| refusal.number));
    faults
}

/// The cells that a whole run must reach.
pub fn wanted() -> Vec<Cell> {
    let mut cells = Vec::new();
    for form in forms::TABLE.iter().map(|form| form.number) {
        cells.extend([1, 2].map(|kind| Cell::Accepted { form, kind }));
        let possible = refusals::TABLE.iter().filter(|refusal| (refusal.forms)(form));
        cells.extend(possible.map(|refusal| Cell::Refused { form, refusal: refusal.number }));
    }
    cells.extend(couples::wanted());
    cells.extend(couples::wanted_by_form());
    cells.extend(edges::wanted());
    cells.extend(arrivals::wanted());
    cells.extend(rates::wanted());
    cells.extend(requests::wanted());
    cells.extend(sent::wanted());
    cells.extend(damages::wanted().into_iter().map(Cell::Damage));
    cells.extend(EVENTS.iter().flat_map(|names| names.iter()).map(|name| Cell::Event(name)));
    cells
}

/// What was reached although the rules exclude it: faults that cannot stand in
/// one call, or in this order.
pub fn ruled_out(coverage: &Coverage) -> Vec<Cell> {
    let wanted = couples::wanted();
    let pair = |cell: &&Cell| matches!(cell, Cell::Both { .. }) && !wanted.contains(cell);
    coverage.reached.keys().filter(pair).copied().collect()
}
