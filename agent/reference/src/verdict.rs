//! Verdicts: what is wrong, and where.

/// The paper's numbers for what a bundle or a run can be refused for.
pub mod refusal {
    pub const SIZE: u32 = 1;
    pub const CUT_SHORT: u32 = 2;
    pub const MAGIC_OR_VERSION: u32 = 3;
    pub const LARGEST_VALUE: u32 = 4;
    pub const POOL: u32 = 5;
    pub const ACCESS: u32 = 6;
    pub const NAME: u32 = 7;
    pub const TWICE: u32 = 8;
    pub const LINK: u32 = 9;
    pub const CODE: u32 = 10;
    pub const INSTRUCTION: u32 = 11;
    pub const TARGET: u32 = 12;
    pub const REFERENCE: u32 = 13;
    pub const FRAME_TABLE: u32 = 14;
    pub const OPERAND_COUNT: u32 = 15;
    pub const FIT: u32 = 16;
    pub const NO_FRAME: u32 = 17;
    pub const CONSTRUCTOR: u32 = 18;
    pub const LENT: u32 = 20;
    pub const BUNDLE: u32 = 21;
    pub const ENTRY: u32 = 22;
    pub const ARGUMENTS: u32 = 23;
}

/// Stands for a class or method that a verdict does not name.
pub const UNNAMED: u32 = 65_535;

/// The answer to a bundle; a place can be 65,536.
#[derive(Clone, Copy, Debug, PartialEq, Eq)]
pub struct Verdict {
    pub number: u32,
    pub class: u32,
    pub method: u32,
    pub place: u32,
}

impl Verdict {
    pub const ACCEPTED: Verdict = Verdict {
        number: 0,
        class: UNNAMED,
        method: UNNAMED,
        place: 0,
    };

    /// The answer of a run that has no verdict to give.
    pub const ZEROS: Verdict = Verdict {
        number: 0,
        class: 0,
        method: 0,
        place: 0,
    };

    pub fn is_accepted(&self) -> bool {
        self.number == 0
    }

    pub(crate) fn in_bundle(fault: Fault) -> Verdict {
        fault.in_method(UNNAMED, UNNAMED)
    }
}

/// A refusal number and its place, before class and method are known.
#[derive(Clone, Copy, Debug, PartialEq, Eq)]
pub(crate) struct Fault {
    pub number: u32,
    pub place: usize,
}

impl Fault {
    pub fn new(number: u32, place: usize) -> Fault {
        Fault { number, place }
    }

    pub fn in_class(self, class: usize) -> Verdict {
        self.in_method(class as u32, UNNAMED)
    }

    pub fn in_method(self, class: u32, method: u32) -> Verdict {
        Verdict {
            number: self.number,
            class,
            method,
            place: self.place as u32,
        }
    }
}
