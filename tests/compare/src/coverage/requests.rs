//! What requests for paper and their endings come upon (RULES 6.19, 6.20,
//! 7.19 to 7.21).

use std::collections::{BTreeMap, BTreeSet};

use reference::account_types::OUTSIDE;
use reference::book::{Account, Book, MOST_REQUESTS, Request, RequestName, Sender};
use reference::record::{Field, Order, usual_range};
use reference::refusals::debited_account;
use reference::requests::{Ending, ending, name, requested_account};

use super::arrivals::is_full;
use super::{Cell, Coverage};

/// An ending so many days after its request is a late one.
const LATE: u64 = 10;

pub const EVENTS: &[&str] = &[
    "the sixteenth request is made",
    "a request by a member that has fewer open is refused for sixteen",
    "a reference is used again after its ending",
    "a reference is used again for another security",
    "a reference is used again for another quantity",
    "two members have one reference open",
    "a request takes a reference under which its member has an item waiting",
    "an instruction takes a reference that its member has open",
    "cancel of an open request's reference refused",
    "requests from 10 and from 20 in one account",
    "an ending leaves a rest in type 50",
    "an ending leaves a rest that came from the other type",
    "an ending empties type 50",
    "an ending on the day after its request",
    "an ending many days after its request",
    "shares leave by a reference that had another security or quantity",
    "an early ending into paper is refused",
    "an early ending to the outside is refused",
    "a request in a full book credits an account that is there",
    "a request in a full book moves a whole balance to a new account",
    "an ending in a full book credits an account that is there",
    "an ending in a full book moves a whole balance to a new account",
    "an ending in a full book to the outside leaves a rest",
    "a request refused for its reference asks for too much",
    "a request refused for sixteen asks for too much",
    "an ending into a type that ends no request has one open",
    "an ending into a type that ends no request has none open",
    "an ending of an unknown reference refused",
    "an ending of another member's request refused",
    "an ending of a request from 10 into 120 refused",
    "an ending of a request from 20 into 110 refused",
    "an ending to the outside of an unknown reference refused",
    "request of more than 32 bits of shares",
    "largest security code, member, shareholder and reference in one request",
    "close with sixteen requests",
    "a full book has requests besides",
];

/// The requests of a list that have ended last under their names.
#[derive(Default)]
pub struct History {
    ended: BTreeMap<RequestName, Request>,
    /// The open ones whose names had another security or quantity before.
    renewed: BTreeSet<RequestName>,
}

/// Where requests come from, and where they lead.
pub fn wanted() -> Vec<Cell> {
    let endings = [(10, 110), (10, 91), (20, 120), (20, 91)];
    let mut cells: Vec<Cell> = [10, 20].map(|from| Cell::Requested { from }).to_vec();
    cells.extend(endings.map(|(from, to)| Cell::Ended { from, to }));
    cells
}

impl Coverage {
    /// An accepted order of form 19.
    pub(super) fn request(&mut self, book: &Book, order: &Order) {
        let (name, to) = (name(order), requested_account(order));
        let waiting = book.find_waiting(Sender::Member(name.member), name.reference).is_some();
        let at_most = |field: Field| order.fields()[field as usize] == usual_range(field).1;
        let widest = [Field::Security, Field::DebitedMember, Field::DebitedShareholder, Field::Reference];
        self.reach(Cell::Requested { from: order.debited_type });
        self.named(&[
            (book.requests.len() + 1 == MOST_REQUESTS, "the sixteenth request is made"),
            (
                book.requests.keys().any(|other| other.reference == name.reference),
                "two members have one reference open",
            ),
            (waiting, "a request takes a reference under which its member has an item waiting"),
            (of_other_type(book, &to, order.debited_type), "requests from 10 and from 20 in one account"),
            (order.quantity > u64::from(u32::MAX), "request of more than 32 bits of shares"),
            (
                widest.into_iter().all(at_most),
                "largest security code, member, shareholder and reference in one request",
            ),
        ]);
        self.request_in_full_book(book, order, &to);
        self.reuse(name, order);
    }

    fn request_in_full_book(&mut self, book: &Book, order: &Order, to: &Account) {
        if !is_full(book) {
            return;
        }
        let kept = book.balance(to) > 0;
        let empties = book.balance(&debited_account(order)) == order.quantity;
        self.named(&[
            (kept, "a request in a full book credits an account that is there"),
            (!kept && empties, "a request in a full book moves a whole balance to a new account"),
        ]);
    }

    /// Looks at the name of a new request.
    fn reuse(&mut self, name: RequestName, order: &Order) {
        let Some(earlier) = self.requests.ended.get(&name).copied() else {
            return;
        };
        let (security, quantity) = (earlier.security != order.security, earlier.quantity != order.quantity);
        self.named(&[
            (true, "a reference is used again after its ending"),
            (security, "a reference is used again for another security"),
            (quantity, "a reference is used again for another quantity"),
        ]);
        if security || quantity {
            self.requests.renewed.insert(name);
        }
    }

    /// An accepted order of form 20.
    pub(super) fn ending(&mut self, book: &Book, order: &Order) {
        let (name, ending) = (name(order), ending(book, order).expect("an accepted ending has its request"));
        let request = book.requests[&name];
        let days = book.day.number - request.day;
        let rest = book.balance(&ending.from) > ending.quantity;
        let renewed = self.requests.renewed.remove(&name);
        self.reach(Cell::Ended { from: request.account_type, to: order.credited_type });
        self.named(&[
            (rest, "an ending leaves a rest in type 50"),
            (
                of_other_type(book, &ending.from, request.account_type),
                "an ending leaves a rest that came from the other type",
            ),
            (!rest, "an ending empties type 50"),
            (days == 1, "an ending on the day after its request"),
            (days >= LATE, "an ending many days after its request"),
            (renewed && ending.to.is_none(), "shares leave by a reference that had another security or quantity"),
        ]);
        self.ending_in_full_book(book, &ending, rest);
        self.requests.ended.insert(name, request);
    }

    fn ending_in_full_book(&mut self, book: &Book, ending: &Ending, rest: bool) {
        if !is_full(book) {
            return;
        }
        let kept = ending.to.map(|to| book.balance(&to) > 0);
        self.named(&[
            (kept == Some(true), "an ending in a full book credits an account that is there"),
            (kept == Some(false) && !rest, "an ending in a full book moves a whole balance to a new account"),
            (kept.is_none() && rest, "an ending in a full book to the outside leaves a rest"),
        ]);
    }

    /// An order of form 19 that is refused.
    pub(super) fn refused_request(&mut self, book: &Book, order: &Order, refusal: u64) {
        let too_much = book.balance(&debited_account(order)) < order.quantity;
        let own = book.requests.keys().filter(|name| name.member == order.debited_member).count();
        self.named(&[
            (refusal == 19 && too_much, "a request refused for its reference asks for too much"),
            (refusal == 21 && too_much, "a request refused for sixteen asks for too much"),
            (refusal == 21 && own < MOST_REQUESTS, "a request by a member that has fewer open is refused for sixteen"),
        ]);
    }

    /// An order of form 20 that is refused.
    pub(super) fn refused_ending(&mut self, book: &Book, order: &Order, refusal: u64) {
        let out = order.credited_type == OUTSIDE;
        match (refusal, book.requests.get(&name(order))) {
            (11, Some(_)) => self.event("an ending into a type that ends no request has one open"),
            (11, None) => self.event("an ending into a type that ends no request has none open"),
            (20, Some(_)) if out => self.event("an early ending to the outside is refused"),
            (20, Some(_)) => self.event("an early ending into paper is refused"),
            (19, Some(request)) if request.account_type == 10 => {
                self.event("an ending of a request from 10 into 120 refused");
            }
            (19, Some(_)) => self.event("an ending of a request from 20 into 110 refused"),
            (19, None) => {
                let others = book.requests.keys().any(|other| other.reference == order.reference);
                self.named(&[
                    (others, "an ending of another member's request refused"),
                    (!others, "an ending of an unknown reference refused"),
                    (out, "an ending to the outside of an unknown reference refused"),
                ]);
            }
            _ => {}
        }
    }

    /// An accepted order of form 12 or 13.
    pub(super) fn instruction_beside_request(&mut self, book: &Book, order: &Order) {
        let member = if order.form == 12 { order.debited_member } else { order.credited_member };
        if book.requests.contains_key(&RequestName { member, reference: order.reference }) {
            self.event("an instruction takes a reference that its member has open");
        }
    }

    /// A cancel that is refused with 14.
    pub(super) fn cancel_beside_request(&mut self, book: &Book, order: &Order) {
        if book.requests.contains_key(&name(order)) {
            self.event("cancel of an open request's reference refused");
        }
    }
}

/// Whether an account of type 50 has a request that came from another type.
fn of_other_type(book: &Book, account: &Account, account_type: u64) -> bool {
    let other = |(name, request): (&RequestName, &Request)| {
        request.account(name.member) == *account && request.account_type != account_type
    };
    book.requests.iter().any(other)
}
