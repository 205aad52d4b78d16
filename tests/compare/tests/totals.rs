//! The totals of a list hold for the right book, and each of them is broken
//! by a book that differs in what it is about.

use compare::coverage::Coverage;
use compare::generator::Generator;
use compare::generator::profile::profiles;
use compare::run::{lists, run_list};
use compare::totals::Totals;
use reference::book::{Account, Book};
use reference::call::{Answer, Counts};
use reference::record::{Order, pack};

/// A busy list that ends with shares, cash, pledges and waiting items.
fn busy_list() -> (Totals, Book) {
    let mut generator = Generator::new(profiles().swap_remove(0), 5);
    let mut book = Book::fresh();
    let mut totals = Totals::default();
    for _ in 0..3_000 {
        let mut call = generator.next_call(&book);
        let answer = book.call(&call.record, &mut call.area);
        totals.take(&call.record, &answer, &call.area);
    }
    (totals, book)
}

/// What the totals say of a book.
fn check(totals: &Totals, book: &Book) -> Result<(), String> {
    totals.check(book, |security| book.held(security))
}

/// What the totals say of a changed book.
fn complaint(change: impl Fn(&mut Book)) -> String {
    let (totals, right) = busy_list();
    assert_eq!(check(&totals, &right), Ok(()));
    let mut wrong = right.clone();
    change(&mut wrong);
    assert_ne!(right, wrong, "the change changes something");
    check(&totals, &wrong).expect_err("a wrong book")
}

fn account_where(book: &Book, wanted: impl Fn(&Account) -> bool) -> Account {
    *book.accounts.keys().find(|account| wanted(account)).expect("a list of all forms has such an account")
}

#[test]
fn a_share_from_nowhere_is_seen() {
    let text = complaint(|book| {
        let account = account_where(book, |account| account.account_type == 20);
        book.set_balance(account, book.balance(&account) + 1);
        book.admitted(account.security).held += 1;
    });
    assert!(text.starts_with("held = deposits - withdrawals"), "{text}");
}

#[test]
fn a_held_figure_that_is_not_the_sum_of_accounts_is_seen() {
    let changes: [fn(&mut Book); 5] = [
        |book| book.securities[0].held += 1,
        |book| book.securities[1].held -= 1,
        |book| book.securities[0].held = 0,
        |book| {
            let security = &mut book.securities[0];
            std::mem::swap(&mut security.held, &mut security.outside);
        },
        |book| {
            let account = account_where(book, |account| account.account_type == 20);
            book.set_balance(account, book.balance(&account) + 1);
        },
    ];
    for (place, change) in changes.into_iter().enumerate() {
        let text = complaint(change);
        assert!(text.starts_with("held = sum of accounts"), "change {place}: {text}");
    }
}

#[test]
fn an_account_of_a_security_that_is_not_admitted_is_seen() {
    let text = complaint(|book| {
        let admitted = account_where(book, |account| account.account_type == 20);
        book.set_balance(Account { security: 16_000, ..admitted }, 3);
    });
    assert_eq!(text, "held = sum of accounts: 16000 has 0 and 3");
}

#[test]
fn a_held_figure_that_the_library_does_not_tell_is_seen() {
    let (totals, book) = busy_list();
    let (first, second) = (&book.securities[0], &book.securities[1]);
    assert!(first.held != first.outside && first.held != second.held, "else nothing would be seen");
    let outside = |code| book.security(code).map_or(0, |security| security.outside);
    let others = |code| if code == first.code { second.held } else { book.held(code) };
    for text in [totals.check(&book, outside), totals.check(&book, others), totals.check(&book, |_| 0)] {
        assert!(text.as_ref().is_err_and(|text| text.starts_with("held = held by the library")), "{text:?}");
    }
}

#[test]
fn a_share_in_another_account_is_seen() {
    let text = complaint(|book| {
        let from = account_where(book, |account| account.account_type == 20);
        let to = Account { shareholder: from.shareholder % 7 + 1, ..from };
        book.set_balance(from, book.balance(&from) - 1);
        book.set_balance(to, book.balance(&to) + 1);
    });
    assert!(text.starts_with("balance = posted rows"), "{text}");
}

#[test]
fn an_outside_count_or_issue_is_seen() {
    let text = complaint(|book| book.securities[0].outside += 1);
    assert!(text.starts_with("issued = held + outside"), "{text}");
    let text = complaint(|book| book.securities[0].issued += 1);
    assert!(text.starts_with("issued = quantity of form 2"), "{text}");
}

#[test]
fn cash_is_seen() {
    let text = complaint(|book| *book.cash.values_mut().next().expect("a member has cash") += 1);
    assert!(text.starts_with("cash = pay-ins - pay-outs"), "{text}");
    let text = complaint(|book| {
        let purse = *book.cash.keys().find(|purse| purse.currency == 1).expect("a member has dollars");
        let other = reference::book::Purse { member: purse.member % 64 + 1, ..purse };
        book.set_cash(purse, book.cash_of(&purse) - 1);
        book.set_cash(other, book.cash_of(&other) + 1);
    });
    assert!(text.starts_with("cash = posted rows"), "{text}");
}

#[test]
fn a_waiting_side_is_seen() {
    let text = complaint(|book| book.waiting.truncate(book.waiting.len() - 1));
    assert!(text.starts_with("sides taken in = gone + waiting"), "{text}");
}

/// A pair of 10 shares for 5, and a single; a Friday of which the cycle is sent
/// at 600, but not answered.
fn sent_cycle() -> Vec<Order> {
    let admit = Order { security: 101, quantity: 1_000, ..form(2, 500) };
    let pay_in = Order { currency: 1, credited_member: 8, amount: 50, ..form(10, 540) };
    let terms = Order {
        security: 101,
        currency: 1,
        debited_member: 7,
        credited_member: 8,
        debited_shareholder: 5,
        credited_shareholder: 5,
        quantity: 10,
        amount: 5,
        trade_day: 1,
        settlement_day: 1,
        reference: 1,
        ..form(12, 540)
    };
    let deliver = Order { debited_type: 10, ..terms };
    let receive = Order { form: 13, credited_type: 10, ..terms };
    let single = Order { reference: 2, ..deliver };
    let day = [Order { quantity: 2, ..form(1, 0) }, admit, deposit(101, 400), pay_in];
    [&day[..], &[deliver, receive, single, form(16, 600)]].concat()
}

fn answer(quantity: u64) -> Order {
    Order { quantity, ..form(21, 600) }
}

/// Until it is confirmed, both sides of the pair wait, and nothing is posted.
#[test]
fn what_is_sent_waits_until_it_is_confirmed() {
    for (answers, sides, delivered) in [(&[][..], 3, 0), (&[answer(2)], 3, 0), (&[answer(1)], 1, 10)] {
        let (totals, book) = list_of(&[&sent_cycle()[..], answers].concat(), None);
        assert_eq!(check(&totals, &book), Ok(()));
        assert_eq!(book.waiting.iter().map(|item| item.sides()).sum::<u64>(), sides);
        let buyer = Account { security: 101, member: 8, account_type: 10, shareholder: 5 };
        assert_eq!(book.balance(&buyer), delivered);
    }
}

/// A book that loses what is sent before it is confirmed, or keeps it after.
#[test]
fn sides_are_counted_at_the_confirmation() {
    let (totals, mut book) = list_of(&sent_cycle(), None);
    book.waiting.retain(|item| !item.sent);
    assert!(check(&totals, &book).is_err_and(|text| text.starts_with("sides taken in = gone + waiting")));
    let (_, book) = list_of(&sent_cycle(), None);
    let (totals, mut confirmed) = list_of(&[sent_cycle(), vec![answer(1)]].concat(), None);
    confirmed.waiting.push(book.waiting[0]);
    confirmed.waiting[1].sent = false;
    assert!(check(&totals, &confirmed).is_err_and(|text| text.starts_with("sides taken in = gone + waiting")));
}

type Change = fn(&mut Book);

#[test]
fn a_sent_cycle_that_cannot_be_is_seen() {
    let changes: [(Change, &str); 6] = [
        (|book| book.day.open = false, "sent only on an open day after a cycle"),
        (|book| book.day.cycles_run = 0, "sent only on an open day after a cycle"),
        (|book| book.day.sent = false, "trades are fixed only while a cycle is sent"),
        (|book| book.waiting.iter_mut().for_each(|item| item.sent = true), "what is fixed is due"),
        (|book| book.waiting[0].amount = 51, "nothing is short over what is fixed"),
        (|book| book.day.last_minute = 901, "the minute leaves time for cycles and answers"),
    ];
    for (change, law) in changes {
        let (totals, mut book) = list_of(&sent_cycle(), None);
        change(&mut book);
        let text = check(&totals, &book).expect_err("a wrong book");
        assert!(text.starts_with(law), "{text}");
    }
}

#[test]
fn a_rate_counts_nowhere() {
    let (mut totals, book) = busy_list();
    let order = Order { form: 18, minute: 500, quantity: 150_000, ..Order::default() };
    totals.take(&pack(&order.fields(), 0), &Answer::Accepted(Counts::default()), &[]);
    assert_eq!(check(&totals, &book), Ok(()));
}

/// A list of orders that are all accepted. Of one of them the totals may see
/// another form, so that they take its rows alone.
fn list_of(orders: &[Order], unseen: Option<usize>) -> (Totals, Book) {
    let (mut totals, mut book) = (Totals::default(), Book::fresh());
    for (place, order) in orders.iter().enumerate() {
        let mut area = [0; 4096];
        let answer = book.call(&pack(&order.fields(), 0), &mut area);
        assert!(matches!(answer, Answer::Accepted(_)), "{order:?}: {answer:?}");
        let form = if unseen == Some(place) { 5 } else { order.form };
        totals.take(&pack(&Order { form, ..*order }.fields(), 0), &answer, &area);
    }
    (totals, book)
}

fn form(form: u64, minute: u64) -> Order {
    Order { form, minute, ..Order::default() }
}

/// A day of kind 2 from its opening to its last call.
fn day_of(orders: &[Order]) -> Vec<Order> {
    let cycle = [form(16, 900), Order { quantity: 1, ..form(21, 900) }];
    [&[Order { quantity: 2, ..form(1, 0) }], orders, &cycle, &cycle, &[form(17, 900)]].concat()
}

fn deposit(security: u64, quantity: u64) -> Order {
    let to = Order { credited_member: 7, credited_type: 10, credited_shareholder: 5, ..form(3, 540) };
    Order { security, quantity, ..to }
}

/// Under reference 9.
fn request(security: u64, quantity: u64) -> Order {
    let from = Order { debited_member: 7, debited_type: 10, debited_shareholder: 5, ..form(19, 540) };
    Order { security, quantity, reference: 9, ..from }
}

fn end_request(credited_type: u64) -> Order {
    Order { debited_member: 7, credited_type, reference: 9, ..form(20, 540) }
}

/// One reference for three requests in turn: into paper, out, and out with
/// another security and quantity.
fn three_requests() -> Vec<Order> {
    let admit = |security| Order { security, quantity: 1_000, ..form(2, 500) };
    let first = [admit(101), admit(102), deposit(101, 400), deposit(102, 300), request(101, 100)];
    let second = [end_request(110), request(101, 50)];
    let third = [end_request(91), request(102, 7)];
    [day_of(&first), day_of(&second), day_of(&third), day_of(&[end_request(91)])].concat()
}

#[test]
fn what_leaves_by_a_request_is_withdrawn() {
    let (totals, book) = list_of(&three_requests(), None);
    assert_eq!(check(&totals, &book), Ok(()));
    assert_eq!([101, 102].map(|security| book.held(security)), [350, 293]);
}

/// A form 19 that ends in paper counts for nothing; without one of the others
/// an earlier one would count in its place.
#[test]
fn the_last_request_before_an_ending_counts() {
    let orders = three_requests();
    let requests = (0..orders.len()).filter(|place| orders[*place].form == 19);
    let checks: Vec<Result<(), String>> = requests
        .map(|place| {
            let (totals, book) = list_of(&orders, Some(place));
            check(&totals, &book)
        })
        .collect();
    let complaint = |text: &str| Err(format!("held = deposits - withdrawals: 101 has {text}"));
    assert_eq!(checks, [Ok(()), complaint("350 and 300"), complaint("350 and 300")]);
}

#[test]
fn type_50_without_its_request_is_seen() {
    let text = complaint(|book| {
        book.requests.pop_first().expect("a list of all forms has open requests");
    });
    assert!(text.starts_with("type 50 = open requests"), "{text}");
    let text = complaint(|book| {
        book.requests.values_mut().next().expect("an open request").day = book.day.number + 1;
    });
    assert!(text.starts_with("request not after today"), "{text}");
}

#[test]
fn lists_of_the_reference_against_itself_agree() {
    let mut coverage = Coverage::default();
    for list in lists(9, 1, 1) {
        let calls = run_list::<Book>(&compare::run::List { calls: 300, ..list }, &mut coverage);
        assert!(calls.is_ok_and(|calls| calls == 300));
    }
    assert!(coverage.accepted > coverage.calls / 2, "most calls are accepted");
}
