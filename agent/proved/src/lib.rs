//! The proved verifier and machine behind safe types that own their buffers.
//!
//! ```
//! use flosquedo_proved::Verifier;
//!
//! let verdict = Verifier::new().verify(b"no class file");
//! assert!(!verdict.is_accepted());
//! assert_eq!((verdict.number, verdict.place), (3, 0));
//! ```
//!
//! No input makes a call panic, and no call depends on an earlier one.

pub mod archive;

pub use archive::Entry;
use archive::{Lent, RESULT, SCRATCH, SLOTS};

/// Stands for a class or method that a verdict does not name.
pub const UNNAMED: u32 = 65_535;

/// The answer to a bundle: what is wrong (0 for nothing) and where.
#[derive(Clone, Copy, Debug, PartialEq, Eq)]
pub struct Verdict {
    pub number: u32,
    pub class: u32,
    pub method: u32,
    pub place: u32,
}

impl Verdict {
    /// Nothing is wrong.
    pub const ACCEPTED: Verdict = Verdict {
        number: 0,
        class: UNNAMED,
        method: UNNAMED,
        place: 0,
    };

    pub fn is_accepted(&self) -> bool {
        self.number == 0
    }

    fn of(numbers: &[u32]) -> Verdict {
        Verdict {
            number: numbers[0],
            class: numbers[1],
            method: numbers[2],
            place: numbers[3],
        }
    }
}

/// Why a run was not started.
#[derive(Clone, Copy, Debug, PartialEq, Eq)]
pub enum Refusal {
    /// 20: a heap over 16,384 cells, or a budget over a million steps.
    Size,
    /// 21: the bundle is refused before typing.
    Bundle(Verdict),
    /// 22: no static method of int parameters stands there.
    Entry,
    /// 23: another count of arguments than the method has parameters.
    Arguments,
}

impl Refusal {
    pub fn number(&self) -> u32 {
        match self {
            Refusal::Size => 20,
            Refusal::Bundle(_) => 21,
            Refusal::Entry => 22,
            Refusal::Arguments => 23,
        }
    }
}

/// How a run ended.
#[derive(Clone, Copy, Debug, PartialEq, Eq)]
pub enum End {
    Returned,
    Uncaught,
    OutOfSteps,
    HeapFull,
    DepthFull,
    Stuck,
}

impl End {
    /// The end of a number from 1 to 6.
    pub fn of_number(number: u32) -> End {
        match number {
            1 => End::Returned,
            2 => End::Uncaught,
            3 => End::OutOfSteps,
            4 => End::HeapFull,
            5 => End::DepthFull,
            _ => End::Stuck,
        }
    }
}

/// A run that was started. The value is what was returned or the number of the class that was not caught, else 0.
#[derive(Clone, Copy, Debug, PartialEq, Eq)]
pub struct Run {
    pub end: End,
    pub value: u32,
    pub steps: u32,
    /// Heap cells used.
    pub cells: u32,
}

/// Verifies bundles.
#[derive(Clone, Debug)]
pub struct Verifier {
    scratch: Vec<u8>,
}

impl Default for Verifier {
    fn default() -> Verifier {
        Verifier::new()
    }
}

impl Verifier {
    pub fn new() -> Verifier {
        Verifier {
            scratch: vec![0; SCRATCH],
        }
    }

    /// Accepts the bundle or tells the first thing that is wrong with it.
    ///
    /// ```
    /// # use flosquedo_proved::Verifier;
    /// let verdict = Verifier::new().verify(&[]);
    /// assert_eq!(verdict.number, 1);
    /// ```
    pub fn verify(&mut self, bundle: &[u8]) -> Verdict {
        let mut result = [0; RESULT];
        archive::verify(bundle, &mut self.scratch, &mut result);
        Verdict::of(&archive::numbers(&result)[..4])
    }
}

/// Runs methods of bundles.
#[derive(Clone, Debug)]
pub struct Machine {
    scratch: Vec<u8>,
    slots: Vec<u32>,
    tags: Vec<u8>,
}

impl Default for Machine {
    fn default() -> Machine {
        Machine::new()
    }
}

impl Machine {
    pub fn new() -> Machine {
        Machine {
            scratch: vec![0; SCRATCH],
            slots: vec![0; SLOTS],
            tags: vec![0; SLOTS],
        }
    }

    /// Runs the entry on the caller's heap: used cells are written, the others kept. A bundle need not be verified.
    ///
    /// ```
    /// # use flosquedo_proved::{Entry, Machine, Refusal};
    /// let entry = Entry { class: 0, method: 0, arguments: &[], budget: 1_000 };
    /// let refusal = Machine::new().run(b"no class file", &mut [0; 100], entry).unwrap_err();
    /// assert_eq!(refusal.number(), 21);
    /// ```
    pub fn run(
        &mut self,
        bundle: &[u8],
        heap: &mut [u32],
        entry: Entry<'_>,
    ) -> Result<Run, Refusal> {
        let mut result = [0; RESULT];
        let lent = Lent {
            scratch: &mut self.scratch,
            heap,
            slots: &mut self.slots,
            tags: &mut self.tags,
        };
        let refusal = archive::run(bundle, lent, entry, &mut result);
        let numbers = archive::numbers(&result);
        match refusal {
            0 => Ok(Run {
                end: End::of_number(numbers[1]),
                value: numbers[2],
                steps: numbers[3],
                cells: numbers[4],
            }),
            21 => Err(Refusal::Bundle(Verdict::of(&numbers[5..9]))),
            22 => Err(Refusal::Entry),
            23 => Err(Refusal::Arguments),
            _ => Err(Refusal::Size),
        }
    }
}
