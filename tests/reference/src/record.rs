//! The record (RULES 2): where its fields stand, its reader and its writer.

use crate::refusals;

pub const RECORD_BYTES: usize = 40;
pub const FIELD_COUNT: usize = 18;
/// The record ends with bits that are no field and always zero.
pub const ZERO_BITS: usize = 12;
pub const ZERO_OFFSET: usize = RECORD_BYTES * 8 - ZERO_BITS;

/// The fields in the record's order.
#[derive(Clone, Copy, Debug, PartialEq, Eq)]
pub enum Field {
    Form,
    Minute,
    Security,
    Currency,
    DebitedMember,
    DebitedType,
    CreditedMember,
    CreditedType,
    DebitedShareholder,
    CreditedShareholder,
    Quantity,
    Amount,
    TradeDay,
    SettlementDay,
    Reference,
    Operation,
    Original,
    Edition,
}

use Field::*;

pub const FIELDS: [Field; FIELD_COUNT] = [
    Form,
    Minute,
    Security,
    Currency,
    DebitedMember,
    DebitedType,
    CreditedMember,
    CreditedType,
    DebitedShareholder,
    CreditedShareholder,
    Quantity,
    Amount,
    TradeDay,
    SettlementDay,
    Reference,
    Operation,
    Original,
    Edition,
];

/// Bits of each field, in the record's order.
pub const WIDTHS: [usize; FIELD_COUNT] = [5, 11, 14, 2, 10, 8, 10, 8, 30, 30, 40, 40, 16, 16, 32, 3, 32, 1];

/// The name of each field as RULES 2.1 writes it, in the record's order.
pub const NAMES: [&str; FIELD_COUNT] = [
    "form",
    "minute",
    "security",
    "currency",
    "debited member",
    "debited type",
    "credited member",
    "credited type",
    "debited shareholder",
    "credited shareholder",
    "quantity",
    "amount",
    "trade day",
    "settlement day",
    "reference",
    "operation",
    "original",
    "edition",
];

/// The fields of an order, in the record's order.
pub type Fields = [u64; FIELD_COUNT];

/// The least and the most of a used field, where its form's row does not say
/// otherwise (RULES 2.1, 2.4).
pub fn usual_range(field: Field) -> (u64, u64) {
    match field {
        Minute => (0, 1439),
        Currency => (1, 2),
        DebitedMember | CreditedMember => (1, 64),
        _ => (1, largest(field)),
    }
}

/// The most that a field's bits can hold.
pub fn largest(field: Field) -> u64 {
    (1 << WIDTHS[field as usize]) - 1
}

/// What a record says.
#[derive(Clone, Copy, Debug, Default, PartialEq, Eq)]
pub struct Order {
    pub form: u64,
    pub minute: u64,
    pub security: u64,
    pub currency: u64,
    pub debited_member: u64,
    pub debited_type: u64,
    pub credited_member: u64,
    pub credited_type: u64,
    pub debited_shareholder: u64,
    pub credited_shareholder: u64,
    pub quantity: u64,
    pub amount: u64,
    pub trade_day: u64,
    pub settlement_day: u64,
    pub reference: u64,
    pub operation: u64,
    pub original: u64,
    pub edition: u64,
}

impl Order {
    pub fn fields(&self) -> Fields {
        [
            self.form,
            self.minute,
            self.security,
            self.currency,
            self.debited_member,
            self.debited_type,
            self.credited_member,
            self.credited_type,
            self.debited_shareholder,
            self.credited_shareholder,
            self.quantity,
            self.amount,
            self.trade_day,
            self.settlement_day,
            self.reference,
            self.operation,
            self.original,
            self.edition,
        ]
    }

    pub fn from_fields(fields: Fields) -> Order {
        let at = |field: Field| fields[field as usize];
        Order {
            form: at(Form),
            minute: at(Minute),
            security: at(Security),
            currency: at(Currency),
            debited_member: at(DebitedMember),
            debited_type: at(DebitedType),
            credited_member: at(CreditedMember),
            credited_type: at(CreditedType),
            debited_shareholder: at(DebitedShareholder),
            credited_shareholder: at(CreditedShareholder),
            quantity: at(Quantity),
            amount: at(Amount),
            trade_day: at(TradeDay),
            settlement_day: at(SettlementDay),
            reference: at(Reference),
            operation: at(Operation),
            original: at(Original),
            edition: at(Edition),
        }
    }
}

/// The record reader (RULES 2.8): the order, or refusal 2 to 5.
pub fn read(record: &[u8]) -> Result<Order, u64> {
    refusals::of_length(record.len())?;
    let fields = unpack(record);
    refusals::of_fields(&fields, bits(record, ZERO_OFFSET, ZERO_BITS))?;
    Ok(Order::from_fields(fields))
}

/// The record writer (RULES 2.9): the record in the area's first 40 bytes, the
/// others kept; or refusal 1, 3, 4 or 5.
pub fn write(fields: &Fields, area: &mut [u8]) -> Result<(), u64> {
    refusals::of_area(area.len(), RECORD_BYTES)?;
    refusals::of_fields(fields, 0)?;
    area[..RECORD_BYTES].copy_from_slice(&pack(fields, 0));
    Ok(())
}

/// The fields of 40 bytes, with no test of what they hold.
pub fn unpack(record: &[u8]) -> Fields {
    let mut start = 0;
    WIDTHS.map(|width| {
        let value = bits(record, start, width);
        start += width;
        value
    })
}

/// 40 bytes from fields that fit their widths (wider values are cut), and the
/// bits behind them.
pub fn pack(fields: &Fields, zero_bits: u64) -> [u8; RECORD_BYTES] {
    let mut record = [0; RECORD_BYTES];
    let mut start = 0;
    for (value, width) in fields.iter().zip(WIDTHS) {
        put_bits(&mut record, start, width, *value);
        start += width;
    }
    put_bits(&mut record, ZERO_OFFSET, ZERO_BITS, zero_bits);
    record
}

/// `width` bits from bit `start`, most significant first; no field of the
/// record touches more than 7 bytes, so a u64 holds them.
fn bits(bytes: &[u8], start: usize, width: usize) -> u64 {
    let last = start + width - 1;
    let mut value = 0u64;
    for byte in &bytes[start / 8..=last / 8] {
        value = value << 8 | u64::from(*byte);
    }
    value >> (7 - last % 8) & ((1 << width) - 1)
}

/// Puts `width` bits at bit `start` of bytes that are zero there.
fn put_bits(bytes: &mut [u8], start: usize, width: usize, value: u64) {
    let last = start + width - 1;
    let mut shifted = (value & ((1 << width) - 1)) << (7 - last % 8);
    for byte in bytes[start / 8..=last / 8].iter_mut().rev() {
        *byte |= shifted as u8;
        shifted >>= 8;
    }
}
