//! Account types and the pairs between which shares may move.

/// The types without a restriction (RULES 5.2): two of book entry, two
/// physical.
pub const FREE: [u64; 4] = [10, 20, 110, 120];
/// A free type and its pledged one (RULES 5.1); 110 has none.
pub const PLEDGE: [(u64, u64); 3] = [(10, 11), (20, 21), (120, 121)];
/// A free type and its blocked one.
pub const BLOCK: [(u64, u64); 4] = [(10, 12), (20, 22), (110, 112), (120, 122)];
/// Where shares stand while a request for paper is open.
pub const REQUESTED: u64 = 50;
/// A type of book entry and the physical one to which a request of it leads.
pub const PAPER: [(u64, u64); 2] = [(10, 110), (20, 120)];
/// Postings of admission, deposit and withdrawal name these two.
pub const TOTAL_ISSUED: u64 = 90;
pub const OUTSIDE: u64 = 91;

pub fn is_free(account_type: u64) -> bool {
    FREE.contains(&account_type)
}

/// Of the free types, 110 and 120 are physical.
pub fn is_physical(account_type: u64) -> bool {
    account_type >= 100
}

/// RULES 5.3.
pub fn same_nature(one: u64, other: u64) -> bool {
    is_physical(one) == is_physical(other)
}

/// Between free types that are alike.
fn is_transfer(debited: u64, credited: u64) -> bool {
    is_free(debited) && is_free(credited) && same_nature(debited, credited)
}

/// Whether a request of shares that came from a type ends in the other one;
/// to the outside lead all (RULES 6.20).
pub fn request_leads(from: u64, to: u64) -> bool {
    to == OUTSIDE || PAPER.contains(&(from, to))
}

/// Whether a form's debited and credited types are in the table of RULES 5.5.
pub fn allows(form: u64, debited: u64, credited: u64) -> bool {
    match form {
        3 => is_free(credited),
        4 => is_free(debited),
        5 | 14 => is_transfer(debited, credited),
        6 => PLEDGE.contains(&(debited, credited)),
        7 => PLEDGE.contains(&(credited, debited)),
        8 => BLOCK.contains(&(debited, credited)),
        9 => BLOCK.contains(&(credited, debited)),
        // The other side's type is not known yet (RULES 5.6).
        12 => is_free(debited),
        13 => is_free(credited),
        19 => PAPER.iter().any(|(from, _)| *from == debited),
        // Whether it ends this request is another question (RULES 7.19).
        20 => PAPER.iter().any(|(from, _)| request_leads(*from, credited)),
        _ => true,
    }
}
