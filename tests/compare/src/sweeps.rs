//! Values that are few enough to be tried all: every type and couple of
//! types for each form that names them, and every minute of the day for each
//! form in each state of a day.

use reference::call::Answer;
use reference::forms;
use reference::record::{Field, Order};
use reference::refusals;
use reference::windows::cycle_minutes;

use crate::depository::Depository;
use crate::run::Sides;

const CODE: u64 = 101;

/// Forms that name types, and how many values or couples the paper allows.
const TYPES_ALLOWED: &[(u64, u64)] =
    &[(3, 4), (4, 4), (5, 8), (6, 3), (7, 3), (8, 4), (9, 4), (12, 4), (13, 4), (14, 8), (19, 2), (20, 3)];

/// The types to which a request leads, by the one that it came from.
const ENDINGS: [(u64, [u64; 2]); 2] = [(10, [91, 110]), (20, [91, 120])];

/// Sends an order that must be accepted.
fn accepted<D: Depository>(sides: &mut Sides<D>, order: Order) -> Result<(), String> {
    match sides.send(&order)? {
        (Answer::Accepted(_), _) => Ok(()),
        (Answer::Refused(number), _) => Err(format!("{order:?} is refused with {number}")),
    }
}

fn form(form: u64, minute: u64) -> Order {
    Order { form, minute, ..Order::default() }
}

/// A confirmation of the cycle that is sent.
fn answer(minute: u64) -> Order {
    Order { quantity: 1, ..form(21, minute) }
}

/// Every type of each form; the forms whose allowed values are as many as
/// the paper's.
pub fn types<D: Depository>() -> Result<Vec<(u64, bool)>, String> {
    let mut sides = Sides::<D>::fresh();
    accepted(&mut sides, Order { quantity: 1, ..form(1, 0) })?;
    accepted(&mut sides, Order { security: CODE, quantity: 1, ..form(2, 540) })?;
    let mut checks = Vec::new();
    for &(number, allowed) in TYPES_ALLOWED {
        let form = forms::form(number).expect("a form of the table");
        let mut count = 0;
        for debited in types_tried(form.uses(Field::DebitedType)) {
            for credited in types_tried(form.uses(Field::CreditedType)) {
                let order = Order { debited_type: debited, credited_type: credited, ..refused_later(number) };
                let (answer, _) = sides.send(&order)?;
                count += u64::from(answer != Answer::Refused(11));
            }
        }
        checks.push((number, count == allowed));
    }
    Ok(checks)
}

/// All types of a used field; 0 alone of an unused one.
fn types_tried(used: bool) -> std::ops::RangeInclusive<u64> {
    if used { 1..=255 } else { 0..=0 }
}

/// An order that is refused for its days (13), balance (16) or request (19) if
/// its types are right, so that the book stays as it is.
fn refused_later(number: u64) -> Order {
    let order = order_between(number, 540);
    match number {
        3 => Order { quantity: 2, debited_member: 0, debited_shareholder: 0, settlement_day: 0, ..order },
        4 => Order { credited_member: 0, credited_shareholder: 0, settlement_day: 0, ..order },
        5..=9 => Order { settlement_day: 9, ..order },
        19 => Order { credited_member: 0, credited_shareholder: 0, reference: 1, ..order },
        20 => Order { debited_member: 7, reference: 1, ..form(number, 540) },
        _ => Order { currency: 1, amount: 1, trade_day: 2, settlement_day: 9, reference: 1, ..order },
    }
}

/// Security and parties of a form; members 7 and 8 where they must differ.
fn order_between(number: u64, minute: u64) -> Order {
    Order {
        security: CODE,
        debited_member: 7,
        credited_member: if matches!(number, 6..=9) { 7 } else { 8 },
        debited_shareholder: 5,
        credited_shareholder: 5,
        quantity: 1,
        ..form(number, minute)
    }
}

/// Which window the paper gives to an order.
#[derive(Clone, Copy, PartialEq, Eq)]
enum Window {
    /// None while a day is open.
    Opening,
    Working,
    /// The same for cash, which waits while a cycle is sent.
    Cash,
    Custody,
    /// Instructions that settle today.
    SameDay,
    Cycle,
    /// Of the cycle that is sent.
    Answer,
    Close,
}

/// A state of an open day.
#[derive(Clone, Copy)]
struct State {
    cycles_run: usize,
    /// The last of them has no answer yet.
    sent: bool,
}

/// The minutes of a kind of day, as the paper has them.
struct Minutes {
    /// The last minute of the working day, of custody and of same-day
    /// instructions.
    working: u64,
    custody: u64,
    same_day: u64,
    /// The earliest minutes of the cycles.
    cycles: &'static [u64],
}

const MONDAY: Minutes = Minutes { working: 960, custody: 870, same_day: 825, cycles: &[585, 705, 825] };
const FRIDAY: Minutes = Minutes { working: 900, custody: 750, same_day: 705, cycles: &[585, 705] };

impl Minutes {
    /// First and last minute of a window in a state of the day.
    fn of(&self, window: Window, state: State) -> Option<(u64, u64)> {
        let all_run = state.cycles_run == self.cycles.len();
        match window {
            Window::Opening => None,
            Window::Cash | Window::Cycle | Window::Close if state.sent => None,
            Window::Answer if !state.sent => None,
            Window::Working | Window::Cash => Some((480, self.working)),
            Window::Custody => Some((510, self.custody)),
            Window::SameDay => Some((480, self.same_day)),
            Window::Cycle => self.cycles.get(state.cycles_run).map(|minute| (*minute, self.working)),
            Window::Answer => Some((480, if all_run { 1439 } else { self.working })),
            Window::Close => all_run.then_some((self.working, 1439)),
        }
    }

    /// The states of a day in turn.
    fn states(&self) -> Vec<State> {
        let mut states = vec![State { cycles_run: 0, sent: false }];
        for cycles_run in 1..=self.cycles.len() {
            states.extend([true, false].map(|sent| State { cycles_run, sent }));
        }
        states
    }

    /// The minutes allowed to all orders, summed over the states of the day;
    /// each cycle is sent and answered in its first minute.
    fn allowed(&self) -> u64 {
        let mut sum = 0;
        for state in self.states() {
            let past = if state.cycles_run == 0 { 0 } else { self.cycles[state.cycles_run - 1] };
            let windows = good_orders().into_iter().filter_map(|(window, _)| self.of(window, state));
            sum += windows.map(|(first, last)| (last + 1).saturating_sub(first.max(past))).sum::<u64>();
        }
        sum
    }
}

/// What the paper's windows allow, summed over all that `minutes` tries.
pub fn minutes_allowed() -> u64 {
    let open_day = 481;
    open_day + MONDAY.allowed() + FRIDAY.allowed()
}

/// The forms that `minutes` does not try, and those of refusal 11 that `types`
/// does not.
pub fn forms_not_tried() -> Vec<u64> {
    let by_minutes: Vec<u64> = good_orders().iter().map(|(_, order)| order.form).collect();
    let by_types: Vec<u64> = TYPES_ALLOWED.iter().map(|(form, _)| *form).collect();
    let typed = |form: u64| refusals::TABLE.iter().any(|refusal| refusal.number == 11 && (refusal.forms)(form));
    let tried = |form: u64| by_minutes.contains(&form) && (by_types.contains(&form) || !typed(form));
    forms::TABLE.iter().map(|form| form.number).filter(|form| !tried(*form)).collect()
}

/// Every minute for each order, in each state of an open day of both kinds:
/// how many calls were accepted.
pub fn minutes<D: Depository>() -> Result<u64, String> {
    let mut count = every_minute(&Sides::<D>::fresh(), &Order { quantity: 1, ..form(1, 0) })?;
    let closed = prepared_day::<D>()?;
    for kind in [1, 2] {
        let mut open = closed.clone();
        accepted(&mut open, Order { quantity: kind, ..form(1, 0) })?;
        count += every_order(&open)?;
        for minute in cycle_minutes(kind) {
            for order in [form(16, *minute), answer(*minute)] {
                accepted(&mut open, order)?;
                count += every_order(&open)?;
            }
        }
    }
    Ok(count)
}

fn every_order<D: Depository>(before: &Sides<D>) -> Result<u64, String> {
    good_orders().iter().map(|(_, order)| every_minute(before, order)).sum()
}

fn every_minute<D: Depository>(before: &Sides<D>, order: &Order) -> Result<u64, String> {
    let mut sides = before.clone();
    let mut count = 0;
    for minute in 0..=1439 {
        if let (Answer::Accepted(_), _) = sides.send(&Order { minute, ..*order })? {
            count += 1;
            sides = before.clone();
        }
    }
    Ok(count)
}

/// Every type as the end of a request from 10 and of one from 20: whether those
/// that are taken are the paper's.
pub fn endings<D: Depository>() -> Result<bool, String> {
    let mut before = prepared_day::<D>()?;
    accepted(&mut before, Order { quantity: 1, ..form(1, 0) })?;
    let mut taken = Vec::new();
    for (from, reference) in [(10, 10), (20, 20)] {
        for credited_type in types_tried(true) {
            let order = Order { debited_member: 7, credited_type, reference, ..form(20, 540) };
            if let (Answer::Accepted(_), _) = before.clone().send(&order)? {
                taken.push((from, credited_type));
            }
        }
    }
    Ok(taken.into_iter().eq(ENDINGS.into_iter().flat_map(|(from, types)| types.map(|credited| (from, credited)))))
}

/// A first day, closed, that leaves shares, cash, a pair and requests for every
/// form. A request has the type that it came from for its reference.
fn prepared_day<D: Depository>() -> Result<Sides<D>, String> {
    let mut sides = Sides::<D>::fresh();
    accepted(&mut sides, Order { quantity: 1, ..form(1, 0) })?;
    accepted(&mut sides, Order { security: CODE, quantity: 1_000, ..form(2, 500) })?;
    let deposit = Order { debited_member: 0, debited_shareholder: 0, credited_member: 7, ..order_between(3, 540) };
    accepted(&mut sides, Order { credited_type: 10, quantity: 100, ..deposit })?;
    accepted(&mut sides, Order { credited_type: 20, quantity: 100, ..deposit })?;
    for (number, other) in [(6, 21), (8, 22)] {
        let order = Order { debited_type: 20, credited_type: other, quantity: 10, ..order_between(number, 540) };
        accepted(&mut sides, Order { settlement_day: 1, ..order })?;
    }
    accepted(&mut sides, Order { currency: 1, credited_member: 7, amount: 100, ..form(10, 540) })?;
    let terms =
        Order { currency: 1, amount: 50, trade_day: 1, settlement_day: 15, reference: 1, ..order_between(12, 540) };
    accepted(&mut sides, Order { debited_type: 20, ..terms })?;
    accepted(&mut sides, Order { form: 13, credited_type: 20, ..terms })?;
    for (reference, debited_type) in [(10, 10), (20, 20)] {
        let order = Order { debited_type, quantity: 10, reference, ..order_between(19, 540) };
        accepted(&mut sides, Order { credited_member: 0, credited_shareholder: 0, ..order })?;
    }
    for minute in cycle_minutes(1) {
        accepted(&mut sides, form(16, *minute))?;
        accepted(&mut sides, answer(*minute))?;
    }
    accepted(&mut sides, form(17, 960))?;
    Ok(sides)
}

/// Orders of every form that day 2 accepts in their windows.
fn good_orders() -> Vec<(Window, Order)> {
    use Window::*;
    let mut orders = vec![
        (Opening, Order { quantity: 1, ..form(1, 0) }),
        (Working, Order { security: 102, quantity: 1, ..form(2, 0) }),
        (Custody, Order { debited_member: 0, debited_shareholder: 0, settlement_day: 0, ..typed(3, 0, 20) }),
        (Custody, Order { credited_member: 0, credited_shareholder: 0, settlement_day: 0, ..typed(4, 20, 0) }),
        (Custody, typed(5, 20, 10)),
        (Custody, typed(6, 20, 21)),
        (Custody, typed(7, 21, 20)),
        (Custody, typed(8, 20, 22)),
        (Custody, typed(9, 22, 20)),
        (Cash, Order { currency: 2, credited_member: 7, amount: 1, ..form(10, 0) }),
        (Cash, Order { currency: 1, debited_member: 7, amount: 1, ..form(11, 0) }),
        (Working, Order { debited_member: 7, reference: 1, ..form(15, 0) }),
        (Cycle, form(16, 0)),
        (Close, form(17, 0)),
        (Working, Order { quantity: 1, ..form(18, 0) }),
        (Answer, answer(0)),
        (Answer, Order { quantity: 2, ..answer(0) }),
    ];
    orders.extend(good_trades());
    orders.extend(good_requests().map(|order| (Custody, order)));
    orders
}

/// An order between two types on day 2.
fn typed(number: u64, debited_type: u64, credited_type: u64) -> Order {
    Order { debited_type, credited_type, settlement_day: 2, ..order_between(number, 0) }
}

fn good_trades() -> [(Window, Order); 5] {
    let terms = |number, debited, credited, day| Order {
        currency: 1,
        amount: 1,
        trade_day: 2,
        settlement_day: day,
        reference: 9,
        ..typed(number, debited, credited)
    };
    [
        (Window::SameDay, terms(12, 20, 0, 2)),
        (Window::Working, terms(12, 20, 0, 3)),
        (Window::SameDay, terms(13, 0, 20, 2)),
        (Window::Working, terms(13, 0, 20, 22)),
        (Window::Working, terms(14, 20, 10, 5)),
    ]
}

/// A new request, and the ending of one that the first day has left.
fn good_requests() -> [Order; 2] {
    let request = Order { debited_type: 20, reference: 9, ..order_between(19, 0) };
    [
        Order { credited_member: 0, credited_shareholder: 0, ..request },
        Order { debited_member: 7, credited_type: 120, reference: 20, ..form(20, 0) },
    ]
}
