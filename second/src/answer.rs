// The five numbers of an answer: code, place, unknowns g, equations m, dimension d.
// A refusal is an answer too; what a call found out is an answer with code 0, 1 or 2.

/// The codes of the refusals, in the order of their checks: the first that applies is given.
pub const ORDER: [u16; 9] = [11, 12, 19, 13, 14, 15, 16, 17, 18];

/// How many of them, from the first, are about the sheet and its check length.
pub const OF_SHEET: usize = 4;

/// How many encoding and read-back use.
pub const OF_CODEC: usize = 7;

#[derive(Clone, Copy, Debug, Default, PartialEq, Eq)]
pub struct Answer {
    pub code: u16,
    pub place: u16,
    pub g: u16,
    pub m: u16,
    pub d: u16,
}

impl Answer {
    /// A code with the other numbers 0.
    pub fn code(code: u16) -> Answer {
        Answer {
            code,
            ..Answer::default()
        }
    }

    /// A code with a place, the rest 0.
    pub fn at(code: u16, place: usize) -> Answer {
        Answer {
            place: place as u16,
            ..Answer::code(code)
        }
    }

    /// A code with place 0 and its three counts.
    pub fn counted(code: u16, g: usize, m: usize, d: usize) -> Answer {
        Answer {
            g: g as u16,
            m: m as u16,
            d: d as u16,
            ..Answer::code(code)
        }
    }

    pub fn numbers(&self) -> [u16; 5] {
        [self.code, self.place, self.g, self.m, self.d]
    }
}
