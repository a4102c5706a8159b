//! The transaction codes of entries.

#[derive(Clone, Copy, PartialEq, Eq)]
pub enum Side {
    Debit,
    Credit,
}

/// What entries of a code are sent for.
#[derive(Clone, Copy, PartialEq, Eq)]
enum Use {
    Payment,
    Prenote,
    /// A zero-dollar entry, sent for the text in its addendum.
    Remittance,
}

/// A known transaction code.
#[derive(Clone, Copy)]
pub struct Code {
    /// The code's place among the known ones in rising order, from 0.
    pub rank: usize,
    pub side: Side,
    used_for: Use,
}

const LARGEST_AMOUNT: u64 = 9_999_999_999;

impl Code {
    pub fn known(code: u64) -> Option<Code> {
        let (rank, side, used_for) = match code {
            22 => (0, Side::Credit, Use::Payment),
            23 => (1, Side::Credit, Use::Prenote),
            24 => (2, Side::Credit, Use::Remittance),
            27 => (3, Side::Debit, Use::Payment),
            28 => (4, Side::Debit, Use::Prenote),
            29 => (5, Side::Debit, Use::Remittance),
            32 => (6, Side::Credit, Use::Payment),
            33 => (7, Side::Credit, Use::Prenote),
            34 => (8, Side::Credit, Use::Remittance),
            37 => (9, Side::Debit, Use::Payment),
            38 => (10, Side::Debit, Use::Prenote),
            39 => (11, Side::Debit, Use::Remittance),
            _ => return None,
        };
        Some(Code { rank, side, used_for })
    }

    /// A payment moves money; no other entry does.
    pub fn may_carry(self, amount: u64) -> bool {
        if self.used_for == Use::Payment {
            (1..=LARGEST_AMOUNT).contains(&amount)
        } else {
            amount == 0
        }
    }

    /// Whether it is a zero-dollar remittance's, which stands in CCD batches only and has an
    /// addendum.
    pub fn is_remittance(self) -> bool {
        self.used_for == Use::Remittance
    }

    /// Whether a batch of this service class may hold the code; class 200 takes both sides.
    pub fn fits_class(self, class: u64) -> bool {
        match class {
            220 => self.side == Side::Credit,
            225 => self.side == Side::Debit,
            _ => true,
        }
    }
}
