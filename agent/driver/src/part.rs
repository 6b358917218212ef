//! The compiled functions that judge a bundle, each with a scratch of its own.

use flosquedo_proved::archive::{self, SCRATCH};

/// A verdict's number, class, method and place.
pub type Verdict = [u32; 4];

#[cfg(has_reader)]
extern "C" {
    fn flosquedo_read(
        bundle: *const u8,
        bundle_length: usize,
        scratch: *mut u8,
        scratch_length: usize,
        result: *mut u8,
        result_length: usize,
    ) -> u32;
}

/// Which of them judges a bundle.
#[derive(Clone, Copy, Debug, PartialEq, Eq)]
pub enum Part {
    /// Phases A and B.
    Reader,
    /// All phases.
    Verifier,
}

impl Part {
    /// The reader is there only if its archive was.
    pub fn is_linked(self) -> bool {
        self == Part::Verifier || cfg!(has_reader)
    }

    /// Calls it on whatever is lent; the sizes are its own to check.
    pub fn judge_lent(self, bundle: &[u8], scratch: &mut [u8], result: &mut [u8]) -> u32 {
        match self {
            Part::Reader => read(bundle, scratch, result),
            Part::Verifier => archive::verify(bundle, scratch, result),
        }
    }
}

#[cfg(has_reader)]
fn read(bundle: &[u8], scratch: &mut [u8], result: &mut [u8]) -> u32 {
    // SAFETY: each pointer is good for its length, and no mutable one is shared.
    unsafe {
        flosquedo_read(
            bundle.as_ptr(),
            bundle.len(),
            scratch.as_mut_ptr(),
            scratch.len(),
            result.as_mut_ptr(),
            result.len(),
        )
    }
}

#[cfg(not(has_reader))]
fn read(_: &[u8], _: &mut [u8], _: &mut [u8]) -> u32 {
    unreachable!("built without the reader's archive")
}

/// One of them with its scratch.
pub struct Judge {
    part: Part,
    scratch: Vec<u8>,
}

impl Judge {
    pub fn new(part: Part) -> Judge {
        Judge {
            part,
            scratch: vec![0; SCRATCH],
        }
    }

    pub fn judge(&mut self, bundle: &[u8]) -> Verdict {
        let mut result = [0xa5; 64];
        let code = self.part.judge_lent(bundle, &mut self.scratch, &mut result);
        let verdict = verdict_in(&result);
        assert_eq!(code, verdict[0], "the code is not the verdict's number");
        verdict
    }

    /// Fills the scratch, so that what is left in it is seen to be the compiled function's.
    pub fn soil(&mut self, byte: u8) {
        self.scratch.iter_mut().for_each(|cell| *cell = byte);
    }

    pub fn is_clean(&self) -> bool {
        self.scratch.iter().all(|&byte| byte == 0)
    }
}

/// The four numbers of a result; the other twelve words have to be zero.
pub fn verdict_in(result: &[u8; 64]) -> Verdict {
    let numbers = archive::numbers(result);
    assert!(
        numbers[4..].iter().all(|&number| number == 0),
        "words that are not zero"
    );
    [numbers[0], numbers[1], numbers[2], numbers[3]]
}
