//! Requests for paper and their endings, good ones and ones with a fault.

use reference::account_types::{OUTSIDE, PAPER, REQUESTED};
use reference::book::{Account, Request, RequestName, Sender};
use reference::record::Order;
use reference::sent::offered;

use super::draft::{Desk, debit};

/// The types that a request can come from.
const BOOK_ENTRY: [u64; 2] = [PAPER[0].0, PAPER[1].0];

type Open = (RequestName, Request);

/// The physical type to which a request leads, or the one that it does not.
fn paper(request: &Request, own: bool) -> u64 {
    let types = PAPER.into_iter().filter(|(from, _)| (*from == request.account_type) == own);
    types.map(|(_, to)| to).next().unwrap_or(OUTSIDE)
}

fn end(order: Order, name: &RequestName, credited_type: u64) -> Order {
    Order { debited_member: name.member, credited_type, reference: name.reference, ..order }
}

impl Desk<'_> {
    /// Often of an account beside which others are requested already.
    pub fn request(&mut self) -> Option<Order> {
        let beside = if self.random.percent(50) { self.account_where(Self::is_beside_request) } else { None };
        let from = match beside {
            Some(account) => account,
            None => self.kept_account(&BOOK_ENTRY)?,
        };
        let modest = self.random.percent(50);
        let balance = offered(self.book, &from);
        let quantity = self.part(if modest { balance.div_ceil(8) } else { balance });
        let reference = self.request_reference(from.member);
        Some(debit(Order { quantity, reference, ..Order::default() }, &from))
    }

    /// A kept account of book entry for which something holds.
    fn account_where(&mut self, wanted: impl Fn(&Self, &Account) -> bool) -> Option<Account> {
        let fits = |account: &&Account| BOOK_ENTRY.contains(&account.account_type) && wanted(self, account);
        let accounts: Vec<Account> = self.book.accounts.keys().filter(fits).copied().collect();
        self.random.maybe_pick(&accounts)
    }

    fn is_beside_request(&self, account: &Account) -> bool {
        self.book.balance(&Account { account_type: REQUESTED, ..*account }) > 0
    }

    /// Mostly one of few, so that it comes again; now and then one under which
    /// the member has an item waiting.
    pub fn request_reference(&mut self, member: u64) -> u64 {
        let few = self.random.between(1, 5);
        match self.random.below(10) {
            0..=5 => few,
            6 => (1..=30).find(|one| self.book.find_waiting(Sender::Member(member), *one).is_some()).unwrap_or(few),
            _ => self.reference(),
        }
    }

    /// The open requests for which something holds.
    fn open_where(&self, wanted: impl Fn(&Open) -> bool) -> Vec<Open> {
        self.book.requests.iter().map(|(name, request)| (*name, *request)).filter(wanted).collect()
    }

    /// Of an earlier day where there is one.
    pub fn ending(&mut self) -> Option<Order> {
        let today = self.book.day.number;
        let earlier = self.open_where(|(_, request)| request.day < today);
        let all = if earlier.is_empty() { self.open_where(|_| true) } else { earlier };
        let (name, request) = self.random.maybe_pick(&all)?;
        let credited_type = if self.random.percent(40) { OUTSIDE } else { paper(&request, true) };
        Some(end(Order::default(), &name, credited_type))
    }

    /// A reference that is open already, or an ending for which there is no
    /// request: unknown, another member's, or from another type.
    pub fn wrong_request(&mut self, order: Order) -> Order {
        let Some((name, request)) = self.random.maybe_pick(&self.open_where(|_| true)) else {
            return order;
        };
        let RequestName { member, reference } = name;
        match (order.form, self.random.below(4)) {
            (19, 0) => Order { debited_member: member, reference, ..order },
            (19, _) => match self.account_where(|_, account| account.member == member) {
                Some(from) => debit(Order { quantity: 1, reference, ..order }, &from),
                None => Order { debited_member: member, reference, ..order },
            },
            (20, 0) => Order { reference: self.reference(), ..order },
            (20, 1) => Order { debited_member: self.member(), reference, ..order },
            (20, _) => end(order, &name, paper(&request, false)),
            (15, _) => Order { debited_member: member, reference, ..order },
            _ => order,
        }
    }

    /// An ending on the day of its request.
    pub fn early_ending(&mut self, order: Order) -> Order {
        let today = self.book.day.number;
        let of_today = self.open_where(|(_, request)| request.day == today);
        match self.random.maybe_pick(&of_today) {
            Some((name, request)) if order.form == 20 => {
                let credited_type = if self.random.percent(50) { paper(&request, true) } else { order.credited_type };
                end(order, &name, credited_type)
            }
            _ => order,
        }
    }

    /// A request with a reference of its own, for a book that has sixteen.
    pub fn one_more_request(&mut self, order: Order) -> Order {
        if order.form != 19 {
            return order;
        }
        Order { reference: self.random.between(1, u64::from(u32::MAX)), ..order }
    }

    /// A request that leaves a rest and opens an account of type 50.
    pub fn request_that_grows(&mut self, order: Order) -> Order {
        let wanted =
            |desk: &Self, account: &Account| desk.book.balance(account) > 1 && !desk.is_beside_request(account);
        match self.account_where(wanted) {
            Some(from) => debit(Order { quantity: 1, ..order }, &from),
            None => order,
        }
    }

    /// An ending that leaves a rest of type 50 and opens an account.
    pub fn ending_that_grows(&mut self, order: Order) -> Order {
        let grows = |(name, request): &Open| {
            let from = request.account(name.member);
            let to = Account { account_type: paper(request, true), ..from };
            self.book.balance(&from) > request.quantity && self.book.balance(&to) == 0
        };
        match self.random.maybe_pick(&self.open_where(grows)) {
            Some((name, request)) => end(order, &name, paper(&request, true)),
            None => order,
        }
    }
}
