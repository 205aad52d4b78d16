//! The table of forms: all that there is to say of a form stands in its row.
//! A new form is a row here, its function, and its number in the rows of
//! those refusals that name it.

use crate::book::{Book, Day};
use crate::call::Counts;
use crate::record::{Field, Order, usual_range};
use crate::rows::Rows;
use crate::{cancel, close, cycle, matching, movements, requests, sent, windows};
use Field::*;

/// What the rows of a form are, where it writes any (RULES 11.3).
#[derive(Clone, Copy, Debug, PartialEq, Eq)]
pub enum Written {
    Nothing,
    Postings,
    Notices,
}

#[derive(Clone, Copy)]
pub struct Form {
    pub number: u64,
    pub name: &'static str,
    /// The fields that it uses besides form and minute (RULES 2.2).
    pub fields: &'static [Field],
    /// Least and most of a used field, where they are not the usual ones.
    pub ranges: &'static [(Field, u64, u64)],
    /// Its first and last minute; none where it has no window now (RULES 4.7).
    pub window: fn(&Day, &Order) -> Option<(u64, u64)>,
    /// What an accepted order does besides setting the minute (RULES 6).
    pub effect: fn(&mut Book, &Order, &mut Rows) -> Counts,
    pub rows: Written,
    /// The sides that an accepted order takes in (RULES 12.12).
    pub takes_in: u64,
}

pub const TABLE: &[Form] = &[
    Form {
        number: 1,
        name: "open day",
        fields: &[Quantity],
        // The quantity is the day kind.
        ranges: &[(Quantity, 1, 2)],
        window: windows::opening,
        effect: movements::open_day,
        rows: Written::Nothing,
        takes_in: 0,
    },
    Form {
        number: 2,
        name: "admit",
        fields: &[Security, Quantity],
        ranges: &[],
        window: windows::working_day,
        effect: movements::admit,
        rows: Written::Postings,
        takes_in: 0,
    },
    Form {
        number: 3,
        name: "deposit",
        fields: &[Security, CreditedMember, CreditedType, CreditedShareholder, Quantity],
        ranges: &[],
        window: windows::custody,
        effect: movements::deposit,
        rows: Written::Postings,
        takes_in: 0,
    },
    Form {
        number: 4,
        name: "withdrawal",
        fields: &[Security, DebitedMember, DebitedType, DebitedShareholder, Quantity],
        ranges: &[],
        window: windows::custody,
        effect: movements::withdraw,
        rows: Written::Postings,
        takes_in: 0,
    },
    Form { number: 5, name: "transfer", ..BETWEEN_ACCOUNTS },
    Form { number: 6, name: "pledge", ..BETWEEN_ACCOUNTS },
    Form { number: 7, name: "release", ..BETWEEN_ACCOUNTS },
    Form { number: 8, name: "block", ..BETWEEN_ACCOUNTS },
    Form { number: 9, name: "unblock", ..BETWEEN_ACCOUNTS },
    Form {
        number: 10,
        name: "pay-in",
        fields: &[Currency, CreditedMember, Amount],
        ranges: &[],
        window: windows::working_day,
        effect: movements::pay_in,
        rows: Written::Postings,
        takes_in: 0,
    },
    Form {
        number: 11,
        name: "pay-out",
        fields: &[Currency, DebitedMember, Amount],
        ranges: &[],
        window: windows::working_day,
        effect: movements::pay_out,
        rows: Written::Postings,
        takes_in: 0,
    },
    Form {
        number: 12,
        name: "deliver",
        fields: &[
            Security,
            Currency,
            DebitedMember,
            DebitedType,
            CreditedMember,
            DebitedShareholder,
            CreditedShareholder,
            Quantity,
            Amount,
            TradeDay,
            SettlementDay,
            Reference,
        ],
        ranges: &[],
        window: windows::instruction,
        effect: matching::arrive,
        rows: Written::Nothing,
        takes_in: 1,
    },
    Form {
        number: 13,
        name: "receive",
        fields: &[
            Security,
            Currency,
            DebitedMember,
            CreditedMember,
            CreditedType,
            DebitedShareholder,
            CreditedShareholder,
            Quantity,
            Amount,
            TradeDay,
            SettlementDay,
            Reference,
        ],
        ranges: &[],
        window: windows::instruction,
        effect: matching::arrive,
        rows: Written::Nothing,
        takes_in: 1,
    },
    Form {
        number: 14,
        name: "exchange trade",
        fields: &[
            Security,
            Currency,
            DebitedMember,
            DebitedType,
            CreditedMember,
            CreditedType,
            DebitedShareholder,
            CreditedShareholder,
            Quantity,
            Amount,
            TradeDay,
            SettlementDay,
            Reference,
        ],
        ranges: &[],
        window: windows::working_day,
        effect: matching::arrive,
        rows: Written::Nothing,
        takes_in: 2,
    },
    Form {
        number: 15,
        name: "cancel",
        // The debited member is the sender.
        fields: &[DebitedMember, Reference],
        ranges: &[],
        window: windows::working_day,
        effect: cancel::cancel,
        rows: Written::Notices,
        takes_in: 0,
    },
    Form {
        number: 16,
        name: "cycle",
        fields: &[],
        ranges: &[],
        window: windows::cycle,
        effect: cycle::send,
        // Its trades are booked with the answer.
        rows: Written::Nothing,
        takes_in: 0,
    },
    Form {
        number: 17,
        name: "close",
        fields: &[],
        ranges: &[],
        window: windows::close,
        effect: close::close,
        rows: Written::Notices,
        takes_in: 0,
    },
    Form {
        number: 18,
        name: "set rate",
        // The quantity is the rate.
        fields: &[Quantity],
        ranges: &[],
        window: windows::working_day,
        effect: movements::set_rate,
        rows: Written::Nothing,
        takes_in: 0,
    },
    Form {
        number: 19,
        name: "request paper",
        fields: &[Security, DebitedMember, DebitedType, DebitedShareholder, Quantity, Reference],
        ranges: &[],
        window: windows::custody,
        effect: requests::open,
        rows: Written::Postings,
        takes_in: 0,
    },
    Form {
        number: 20,
        name: "end request",
        // The debited member is the sender; the request knows the rest.
        fields: &[DebitedMember, CreditedType, Reference],
        ranges: &[],
        window: windows::custody,
        effect: requests::end,
        rows: Written::Postings,
        takes_in: 0,
    },
    Form {
        number: 21,
        name: "answer cycle",
        // The quantity is 1 to confirm the cycle and 2 to decline it.
        fields: &[Quantity],
        ranges: &[(Quantity, sent::CONFIRMED, sent::DECLINED)],
        window: windows::answer,
        effect: sent::answer,
        rows: Written::Postings,
        takes_in: 0,
    },
];

/// Five forms that differ only in their name and in what refusals 11 and 12
/// let them move.
const BETWEEN_ACCOUNTS: Form = Form {
    number: 0,
    name: "",
    fields: &[
        Security,
        DebitedMember,
        DebitedType,
        CreditedMember,
        CreditedType,
        DebitedShareholder,
        CreditedShareholder,
        Quantity,
        SettlementDay,
    ],
    ranges: &[],
    window: windows::custody,
    effect: movements::move_shares,
    rows: Written::Postings,
    takes_in: 0,
};

/// How many forms there are.
pub const FORMS: usize = TABLE.len();

/// The form of a number, if it is one.
pub fn form(number: u64) -> Option<&'static Form> {
    TABLE.iter().find(|form| form.number == number)
}

impl Form {
    /// Every form uses the fields form and minute.
    pub fn uses(&self, field: Field) -> bool {
        matches!(field, Field::Form | Field::Minute) || self.fields.contains(&field)
    }

    /// The least and the most of a field that the form uses (RULES 2.1, 2.4).
    pub fn range(&self, field: Field) -> (u64, u64) {
        let own = self.ranges.iter().find(|(named, _, _)| *named == field);
        own.map_or_else(|| usual_range(field), |(_, least, most)| (*least, *most))
    }
}
