//! What comes between a cycle and its answer.

use std::cmp::Ordering;
use std::collections::BTreeSet;

use reference::book::{Account, Book, Item, MOST_ITEMS, State};
use reference::forms;
use reference::record::Order;
use reference::refusals::{self, Refusal, Test, debited_account, sender};
use reference::sent::{CONFIRMED, brought, offered, taken, trades};
use reference::windows::{end_of_work, next_cycle_minute};

use super::arrivals::is_full;
use super::{Cell, Coverage};

/// What the sent trades do to an account.
#[derive(Clone, Copy, Debug, PartialEq, Eq, PartialOrd, Ord)]
pub enum Net {
    /// They take more than they bring.
    Takes,
    BringsAsMuch,
    BringsMore,
    /// They take nothing.
    OnlyBrings,
}

/// Cash, cycle and close wait for the answer.
const WAITING_FORMS: [u64; 4] = [10, 11, 16, 17];
/// Forms that debit an account of a free type, as trades do.
const TAKING_FORMS: [u64; 5] = [4, 5, 6, 8, 19];

pub const EVENTS: &[&str] = &[
    "confirmed with no trade",
    "confirmed with one trade",
    "confirmed with several trades",
    "confirmed with 64 trades",
    "declined with no trade",
    "declined with trades",
    "declined with 64 trades",
    "Friday: both cycles confirmed",
    "Friday: confirmed, then declined",
    "Friday: declined, then confirmed",
    "Friday: both cycles declined",
    "a declined trade is sent again by the next cycle",
    "a declined trade is left by the next cycle",
    "a declined trade is confirmed by the next cycle",
    "a declined pair is sent again on a later day",
    "a declined exchange trade is suspended",
    "an answer in the cycle's own minute",
    "confirmed after the end of work",
    "declined after the end of work",
    "an order of the day refused after a late answer",
    "close after a late answer",
    "close at 1439, where the answer came",
    "before a confirmation a single before a sent trade pairs",
    "before a confirmation a single behind a sent trade pairs",
    "before a confirmation a pair before a sent trade is cancelled",
    "before a confirmation a pair behind a sent trade is cancelled",
    "before a confirmation an item comes that is due",
    "before a confirmation an item comes that is not due",
    "before a confirmation an account is emptied",
    "before a confirmation an account is opened",
    "before a confirmation a left trade would fit after all",
    "before a confirmation a new trade would be taken",
    "before a confirmation another choice would be made",
    "confirmation opens again an account that both gives and gets",
    "confirmation leaves gone an account that both gives and gets",
    "confirmation opens again an account that only gets",
    "confirmation credits an account that was opened in between",
    "confirmation opens accounts in a book that was filled in between",
    "an arrival refused at 64 items of which some are sent",
    "cancel of a sent pair refused, the first half",
    "cancel of a sent pair refused, the second half",
    "cancel of a sent pair refused by 15, marked before",
    "a left pair cancelled, the first half",
    "a left pair cancelled, the second half",
    "a pair that is not due cancelled while a cycle is sent",
    "a pair that came in between cancelled",
    "an exchange trade's reference taken while it is sent, refused",
    "a sent pair's reference taken again, refused",
];

/// The members and references of an item, which no other has while it waits.
type Name = (u64, u64, u64, u64);

fn name(item: &Item) -> Name {
    let (first, second) = match item.state {
        State::Deliver { reference } => (reference, 0),
        State::Receive { reference } => (0, reference),
        State::Pair { deliver, receive } => (deliver.reference, receive.reference),
        State::ExchangeTrade { reference } => (reference, u64::MAX),
    };
    (item.deliverer.member, item.receiver.member, first, second)
}

/// What a list has shown of its cycles.
#[derive(Default)]
pub struct History {
    /// The book before the cycle that is sent, and the places of its trades.
    before: Option<(Book, Vec<usize>)>,
    /// The trades that were declined last, and the day.
    declined: BTreeSet<Name>,
    declined_on: u64,
    /// Those of them that the cycle has sent again.
    sent_again: BTreeSet<Name>,
    /// The answers of the day.
    answers: Vec<u64>,
}

impl History {
    pub(super) fn new_day(&mut self) {
        self.answers.clear();
    }
}

pub fn wanted() -> Vec<Cell> {
    let mut cells = Vec::new();
    for form in forms::TABLE.iter().map(|form| form.number) {
        if form != 1 && !WAITING_FORMS.contains(&form) {
            cells.push(Cell::Between { form, answer: 0 });
        }
        let met = refusals::TABLE.iter().filter(|refusal| met_between(form, refusal));
        cells.extend(met.map(|refusal| Cell::Between { form, answer: refusal.number }));
    }
    for form in TAKING_FORMS {
        for net in [Net::Takes, Net::BringsAsMuch, Net::BringsMore, Net::OnlyBrings] {
            cells.extend([false, true].map(|more| Cell::Offer { form, net, more }));
        }
    }
    cells
}

/// Whether an order of a form can be refused like this while a cycle is sent.
fn met_between(form: u64, refusal: &Refusal) -> bool {
    let possible = match (form, refusal.number) {
        (1, number) => number == 6,
        (_, 6 | 23) => false,
        (form, number) if WAITING_FORMS.contains(&form) => matches!(number, 7 | 22),
        _ => true,
    };
    possible && matches!(refusal.test, Test::Order(_)) && (refusal.forms)(form)
}

impl Coverage {
    /// A cycle that is about to be sent.
    pub(super) fn sending(&mut self, book: &Book, fixed: &[usize]) {
        let names = |wanted: &dyn Fn(usize) -> bool| -> BTreeSet<Name> {
            let places = (0..book.waiting.len()).filter(|place| wanted(*place));
            places.map(|place| name(&book.waiting[place])).collect()
        };
        let again: BTreeSet<Name> = &names(&|place| fixed.contains(&place)) & &self.sent.declined;
        let left = &names(&|place| !fixed.contains(&place)) & &self.sent.declined;
        let later = self.sent.declined_on < book.day.number;
        self.named(&[
            (!again.is_empty() && !later, "a declined trade is sent again by the next cycle"),
            (!left.is_empty() && !later, "a declined trade is left by the next cycle"),
            (!again.is_empty() && later, "a declined pair is sent again on a later day"),
        ]);
        self.sent.sent_again = again;
        self.sent.declined.clear();
        self.sent.before = Some((book.clone(), fixed.to_vec()));
    }

    /// An accepted call between a cycle and its answer, which may be the answer.
    pub(super) fn between(&mut self, book: &Book, order: &Order) {
        self.reach(Cell::Between { form: order.form, answer: 0 });
        match order.form {
            4..=9 | 19 => self.offer(book, order, false),
            15 => self.cancellation_between(book, order),
            _ => {}
        }
    }

    pub(super) fn refused_between(&mut self, book: &Book, order: &Order, refusal: u64) {
        self.reach(Cell::Between { form: order.form, answer: refusal });
        match (order.form, refusal) {
            (4..=9 | 19, 16) => self.offer(book, order, true),
            (15, 15 | 24) => self.refused_cancellation_between(book, order, refusal),
            (12..=14, 14) => self.refused_reference(book, order),
            (12..=14, 18) if book.waiting.len() == MOST_ITEMS && !trades(book).is_empty() => {
                self.event("an arrival refused at 64 items of which some are sent");
            }
            _ => {}
        }
    }

    /// A taking of all that an account of a sent trade offers, or of one more.
    fn offer(&mut self, book: &Book, order: &Order, refused: bool) {
        let account = debited_account(order);
        let net = match (taken(book, &account), brought(book, &account)) {
            (0, 0) => return,
            (0, _) => Net::OnlyBrings,
            (taken, brought) => match taken.cmp(&brought) {
                Ordering::Greater => Net::Takes,
                Ordering::Equal => Net::BringsAsMuch,
                Ordering::Less => Net::BringsMore,
            },
        };
        if order.quantity == offered(book, &account) + u64::from(refused) {
            self.reach(Cell::Offer { form: order.form, net, more: refused });
        }
    }

    fn cancellation_between(&mut self, book: &Book, order: &Order) {
        let place = book.find_waiting(sender(order), order.reference).expect("an accepted cancel finds its item");
        let item = &book.waiting[place];
        let State::Pair { deliver, receive } = item.state else { unreachable!("only pairs are cancelled") };
        let second = deliver.marked || receive.marked;
        let was_there = self.sent.before.as_ref().is_some_and(|(before, _)| find(before, item).is_some());
        self.event(match (was_there, item.settlement_day <= book.day.number) {
            (false, _) => "a pair that came in between cancelled",
            (true, false) => "a pair that is not due cancelled while a cycle is sent",
            (true, true) if second => "a left pair cancelled, the second half",
            (true, true) => "a left pair cancelled, the first half",
        });
    }

    fn refused_cancellation_between(&mut self, book: &Book, order: &Order, refusal: u64) {
        let place = book.find_waiting(sender(order), order.reference).expect("15 and 24 look at an item");
        let item = &book.waiting[place];
        let State::Pair { deliver, receive } = item.state else { return };
        if item.sent {
            self.event(match refusal {
                15 => "cancel of a sent pair refused by 15, marked before",
                _ if deliver.marked || receive.marked => "cancel of a sent pair refused, the second half",
                _ => "cancel of a sent pair refused, the first half",
            });
        }
    }

    /// What is sent still waits under its references.
    fn refused_reference(&mut self, book: &Book, order: &Order) {
        let place = book.find_waiting(sender(order), order.reference).expect("14 looks at an item");
        if book.waiting[place].sent {
            self.event(match order.form {
                14 => "an exchange trade's reference taken while it is sent, refused",
                _ => "a sent pair's reference taken again, refused",
            });
        }
    }

    /// An accepted order of form 21.
    pub(super) fn answer(&mut self, book: &Book, order: &Order) {
        let confirmed = order.quantity == CONFIRMED;
        let sent: Vec<&Item> = trades(book).into_iter().map(|place| &book.waiting[place]).collect();
        self.event(match (confirmed, sent.len()) {
            (true, 0) => "confirmed with no trade",
            (true, 1) => "confirmed with one trade",
            (true, MOST_ITEMS) => "confirmed with 64 trades",
            (true, _) => "confirmed with several trades",
            (false, 0) => "declined with no trade",
            (false, MOST_ITEMS) => "declined with 64 trades",
            (false, _) => "declined with trades",
        });
        let late = order.minute > end_of_work(book.day.kind);
        self.named(&[
            (order.minute == book.day.last_minute, "an answer in the cycle's own minute"),
            (late && confirmed, "confirmed after the end of work"),
            (late && !confirmed, "declined after the end of work"),
        ]);
        self.answers_of_friday(book, order.quantity);
        if confirmed {
            self.booking(book, &sent);
            self.confirmation(book, &sent);
        } else {
            self.sent.declined = sent.iter().map(|item| name(item)).collect();
            self.sent.declined_on = book.day.number;
        }
        self.sent.before = None;
    }

    fn answers_of_friday(&mut self, book: &Book, quantity: u64) {
        self.sent.answers.push(quantity);
        if book.day.kind == 2 && next_cycle_minute(&book.day).is_none() {
            self.event(match self.sent.answers[..] {
                [1, 1] => "Friday: both cycles confirmed",
                [1, 2] => "Friday: confirmed, then declined",
                [2, 1] => "Friday: declined, then confirmed",
                _ => "Friday: both cycles declined",
            });
        }
    }

    /// What has changed since the cycle was sent, and is confirmed all the same.
    fn confirmation(&mut self, book: &Book, sent: &[&Item]) {
        let again = sent.iter().any(|item| self.sent.sent_again.contains(&name(item)));
        let Some((before, fixed)) = self.sent.before.take() else { return };
        self.named(&[(again, "a declined trade is confirmed by the next cycle")]);
        if sent.is_empty() {
            return;
        }
        self.moved_items(book, &before, &fixed);
        self.moved_accounts(book, &before, sent);
        self.another_choice(book, &before, sent);
    }

    fn moved_items(&mut self, book: &Book, before: &Book, fixed: &[usize]) {
        let (first, last) = (fixed[0], fixed[fixed.len() - 1]);
        for (place, item) in before.waiting.iter().enumerate() {
            if find(book, item).is_none() {
                let (single, pair) = (item.is_single(), !item.is_single());
                self.named(&[
                    (single && place < last, "before a confirmation a single before a sent trade pairs"),
                    (single && place > first, "before a confirmation a single behind a sent trade pairs"),
                    (pair && place < last, "before a confirmation a pair before a sent trade is cancelled"),
                    (pair && place > first, "before a confirmation a pair behind a sent trade is cancelled"),
                ]);
            }
        }
        for item in book.waiting.iter().filter(|item| find(before, item).is_none()) {
            let due = item.settlement_day <= book.day.number && !item.is_single();
            self.named(&[
                (due, "before a confirmation an item comes that is due"),
                (!due, "before a confirmation an item comes that is not due"),
            ]);
        }
    }

    fn moved_accounts(&mut self, book: &Book, before: &Book, sent: &[&Item]) {
        let emptied = |account: &Account| before.balance(account) > 0 && book.balance(account) == 0;
        let opened = |account: &Account| before.balance(account) == 0 && book.balance(account) > 0;
        self.named(&[
            (before.accounts.keys().any(emptied), "before a confirmation an account is emptied"),
            (book.accounts.keys().any(opened), "before a confirmation an account is opened"),
        ]);
        let mut opens = false;
        for account in sent.iter().map(|trade| trade.credited_account()) {
            let (taken, brought) = (taken(book, &account), brought(book, &account));
            let (gone, both) = (emptied(&account), taken > 0);
            opens |= book.balance(&account) == 0 && brought > taken;
            self.named(&[
                (gone && both && brought > taken, "confirmation opens again an account that both gives and gets"),
                (gone && both && brought == taken, "confirmation leaves gone an account that both gives and gets"),
                (gone && !both, "confirmation opens again an account that only gets"),
                (opened(&account), "confirmation credits an account that was opened in between"),
            ]);
        }
        if opens && is_full(book) && !is_full(before) {
            self.event("confirmation opens accounts in a book that was filled in between");
        }
    }

    /// A cycle that was chosen now would take other trades.
    fn another_choice(&mut self, book: &Book, before: &Book, sent: &[&Item]) {
        let names: BTreeSet<Name> = sent.iter().map(|item| name(item)).collect();
        let now = reference::cycle::settling(book);
        let mut others = now.iter().map(|place| &book.waiting[*place]).filter(|item| !names.contains(&name(item)));
        let fits = others.clone().any(|item| find(before, item).is_some());
        let new = others.any(|item| find(before, item).is_none());
        let chosen: BTreeSet<Name> = now.iter().map(|place| name(&book.waiting[*place])).collect();
        self.named(&[
            (fits, "before a confirmation a left trade would fit after all"),
            (new, "before a confirmation a new trade would be taken"),
            (!chosen.is_superset(&names), "before a confirmation another choice would be made"),
        ]);
    }

    /// An accepted close.
    pub(super) fn close_after_answers(&mut self, book: &Book, order: &Order) {
        let late = book.day.last_minute > end_of_work(book.day.kind);
        let suspended = |item: &Item| {
            let trade = matches!(item.state, State::ExchangeTrade { .. });
            trade && self.sent.declined_on == book.day.number && self.sent.declined.contains(&name(item))
        };
        let declined = book.waiting.iter().any(suspended);
        self.named(&[
            (late, "close after a late answer"),
            (book.day.last_minute == 1439 && order.minute == 1439, "close at 1439, where the answer came"),
            (declined, "a declined exchange trade is suspended"),
        ]);
    }

    /// An order that is refused for its minute.
    pub(super) fn refused_after_late_answer(&mut self, book: &Book) {
        if book.day.open && book.day.last_minute > end_of_work(book.day.kind) {
            self.event("an order of the day refused after a late answer");
        }
    }
}

/// The place of an item in another book's list.
fn find(book: &Book, item: &Item) -> Option<usize> {
    book.waiting.iter().position(|other| name(other) == name(item))
}
