//! The compiled functions beside the independent implementation: every answer, and every lent buffer before and after.

use std::collections::BTreeMap;

use flosquedo_mutator::Random;
use flosquedo_proved::archive::{self, Entry, Lent, SCRATCH, SLOTS};
use flosquedo_reference::{entries, limits, run, verify, End, Outcome};

use crate::part::{verdict_in, Judge, Part, Verdict};

pub const ACCEPTED: Verdict = [0, 65_535, 65_535, 0];
const WRONG_SIZE: Verdict = [20, 65_535, 65_535, 0];
const SOIL: u8 = 0x5a;
const SOILED_SLOT: u32 = 0x5a5a_5a5a;

/// What was compared, and what differed.
pub struct Tally {
    part: Part,
    judge: Judge,
    pub bundles: usize,
    pub runs: usize,
    pub differences: usize,
    verdicts: BTreeMap<u32, usize>,
    /// Refusals from 20 on, ends below.
    ends: BTreeMap<u32, usize>,
}

impl Tally {
    pub fn new(part: Part) -> Tally {
        Tally {
            part,
            judge: Judge::new(part),
            bundles: 0,
            runs: 0,
            differences: 0,
            verdicts: BTreeMap::new(),
            ends: BTreeMap::new(),
        }
    }

    fn differs(&mut self, what: String) {
        self.differences += 1;
        println!("{}", what);
    }

    /// Judges on a soiled scratch and compares with what the whole verification says.
    pub fn verdict(&mut self, name: &str, bytes: &[u8], verdict: Verdict) {
        let expected = self.expected(verdict);
        self.judge.soil(SOIL);
        let answer = self.judge.judge(bytes);
        self.bundles += 1;
        *self.verdicts.entry(answer[0]).or_insert(0) += 1;
        if answer != expected || !self.judge.is_clean() {
            self.differs(format!("{}: {:?} and not {:?}", name, answer, expected));
        }
    }

    /// The same, the independent implementation saying what is expected.
    pub fn bundle(&mut self, name: &str, bytes: &[u8]) -> Verdict {
        let verdict = verify(bytes);
        let verdict = [verdict.number, verdict.class, verdict.method, verdict.place];
        self.verdict(name, bytes, verdict);
        verdict
    }

    /// The reader accepts what is refused past phase B.
    fn expected(&self, verdict: Verdict) -> Verdict {
        match (self.part, verdict[0]) {
            (Part::Reader, 10..=18) => ACCEPTED,
            _ => verdict,
        }
    }

    /// One run on a heap of so many cells with arbitrary contents, beside the independent implementation.
    pub fn run(
        &mut self,
        name: &str,
        bytes: &[u8],
        entry: Entry<'_>,
        cells: usize,
        random: &mut Random,
    ) -> Outcome {
        let before: Vec<u32> = (0..cells).map(|_| random.number() as u32).collect();
        let mut wanted = before.clone();
        let outcome = run(
            bytes,
            &mut wanted,
            entry.class,
            entry.method,
            entry.arguments,
            entry.budget,
        );
        let ran = Ran::of(bytes, entry, before, [SCRATCH, SLOTS, SLOTS]);
        self.runs += 1;
        let end = outcome.refusal + outcome.end;
        *self.ends.entry(end).or_insert(0) += 1;
        if ran.numbers != numbers_of(&outcome)
            || ran.heap != wanted
            || !ran.is_left_as_said(outcome.refusal)
        {
            self.differs(format!(
                "{}: a run of {:?} on {} cells: {:?} and not {:?}",
                name, entry, cells, ran.numbers, outcome
            ));
        }
        outcome
    }

    /// A run on a heap of zeros: the result's numbers and the heap.
    pub fn plain_run(
        &mut self,
        bytes: &[u8],
        entry: Entry<'_>,
        cells: usize,
    ) -> ([u32; 16], Vec<u32>) {
        let ran = Ran::of(bytes, entry, vec![0; cells], [SCRATCH, SLOTS, SLOTS]);
        self.runs += 1;
        *self
            .ends
            .entry(ran.numbers[0] + ran.numbers[1])
            .or_insert(0) += 1;
        (ran.numbers, ran.heap)
    }

    /// Counts a difference unless it agrees.
    pub fn hold(&mut self, agrees: bool, what: impl FnOnce() -> String) {
        if !agrees {
            self.differs(what());
        }
    }

    /// Runs whatever of a bundle can be run, with several arguments, budgets and heaps; an accepted one never gets stuck.
    pub fn runs_of(&mut self, name: &str, bytes: &[u8], verdict: Verdict, random: &mut Random) {
        let mut all = entries(bytes);
        if all.is_empty() {
            all.push((
                random.below(3) as u32,
                random.below(4) as u32,
                random.below(3) as u32,
            ));
        }
        for (class, method, parameters) in all {
            for budget in [40, 3_000] {
                let arguments: Vec<u32> = (0..parameters).map(|_| random.argument()).collect();
                let entry = Entry {
                    class,
                    method,
                    arguments: &arguments,
                    budget,
                };
                let cells = cells(random);
                let outcome = self.run(name, bytes, entry, cells, random);
                if verdict == ACCEPTED && outcome.end == End::Stuck as u32 {
                    self.differs(format!("{}: accepted, and stuck in {:?}", name, entry));
                }
            }
        }
    }

    /// Runs that are refused: methods, arguments and sizes that are not right.
    pub fn refused_runs(&mut self, name: &str, bytes: &[u8], random: &mut Random) {
        for (class, method, count, budget, cells) in [
            (0, 0, 0, 1_000, 10),
            (0, 63, 0, 1_000, 10),
            (16, 0, 1, 1_000, 10),
            (u32::MAX, u32::MAX, 17, 1_000, 10),
            (0, 1, 17, 0, 0),
            (0, 1, 1, limits::BUDGET + 1, 10),
            (0, 1, 1, u32::MAX, 10),
            (0, 1, 1, 1_000, limits::HEAP_CELLS + 1),
        ] {
            let arguments = vec![7; count];
            let entry = Entry {
                class,
                method,
                arguments: &arguments,
                budget,
            };
            self.run(name, bytes, entry, cells, random);
        }
        for sizes in [
            [SCRATCH - 1, SLOTS, SLOTS],
            [SCRATCH, SLOTS - 1, SLOTS],
            [SCRATCH, SLOTS + 1, SLOTS],
            [SCRATCH, SLOTS, SLOTS - 1],
            [SCRATCH, SLOTS, 0],
        ] {
            let entry = Entry {
                class: 0,
                method: 1,
                arguments: &[],
                budget: 10,
            };
            let ran = Ran::of(bytes, entry, vec![3; 10], sizes);
            self.runs += 1;
            *self.ends.entry(20).or_insert(0) += 1;
            if ran.numbers[0] != 20 || ran.heap != [3; 10] || !ran.is_left_as_said(20) {
                self.differs(format!("{}: lent {:?}: {:?}", name, sizes, ran.numbers));
            }
        }
    }

    /// Lent sizes that are not right: 20, and nothing changes.
    pub fn wrong_sizes(&mut self, bytes: &[u8]) {
        let mut short = vec![SOIL; SCRATCH - 1];
        let mut result = [0xa5; 64];
        let code = self.part.judge_lent(bytes, &mut short, &mut result);
        let untouched = short.iter().all(|&byte| byte == SOIL);
        if code != 20 || !untouched || verdict_in(&result) != WRONG_SIZE {
            self.differs(format!("a scratch too short: {}", code));
        }
        for length in [0, 63, 65] {
            let mut scratch = vec![SOIL; SCRATCH];
            let mut result = vec![0xa5; length];
            let code = self.part.judge_lent(bytes, &mut scratch, &mut result);
            let untouched =
                scratch.iter().all(|&byte| byte == SOIL) && result.iter().all(|&byte| byte == 0xa5);
            if code != 20 || !untouched {
                self.differs(format!("a result of {} bytes: {}", length, code));
            }
        }
    }

    pub fn told(&self) -> String {
        format!(
            "{:?}: {} bundles by verdict {:?}, {} runs by end or refusal {:?}, {} differences",
            self.part, self.bundles, self.verdicts, self.runs, self.ends, self.differences
        )
    }
}

/// A compiled run, with everything lent as it was left.
struct Ran {
    numbers: [u32; 16],
    scratch: Vec<u8>,
    heap: Vec<u32>,
    slots: Vec<u32>,
    tags: Vec<u8>,
}

impl Ran {
    /// On soiled buffers of the sizes of scratch, slots and tags.
    fn of(bytes: &[u8], entry: Entry<'_>, mut heap: Vec<u32>, sizes: [usize; 3]) -> Ran {
        let mut scratch = vec![SOIL; sizes[0]];
        let mut slots = vec![SOILED_SLOT; sizes[1]];
        let mut tags = vec![SOIL; sizes[2]];
        let mut result = [0xa5; 64];
        let lent = Lent {
            scratch: &mut scratch,
            heap: &mut heap,
            slots: &mut slots,
            tags: &mut tags,
        };
        let code = archive::run(bytes, lent, entry, &mut result);
        let numbers = archive::numbers(&result);
        assert_eq!(code, numbers[0], "the code is not the refusal");
        Ran {
            numbers,
            scratch,
            heap,
            slots,
            tags,
        }
    }

    /// Scratch, slots and tags after a refusal, or after a run (0).
    fn is_left_as_said(&self, refusal: u32) -> bool {
        let scratch = if refusal == 20 { SOIL } else { 0 };
        let (slot, tag) = if refusal == 0 {
            (0, 0)
        } else {
            (SOILED_SLOT, SOIL)
        };
        self.scratch.iter().all(|&byte| byte == scratch)
            && self.slots.iter().all(|&value| value == slot)
            && self.tags.iter().all(|&value| value == tag)
    }
}

/// The words of a result.
fn numbers_of(outcome: &Outcome) -> [u32; 16] {
    let verdict = outcome.verdict;
    let said = [
        outcome.refusal,
        outcome.end,
        outcome.value,
        outcome.count,
        outcome.used,
        verdict.number,
        verdict.class,
        verdict.method,
        verdict.place,
    ];
    let mut numbers = [0; 16];
    numbers[..9].copy_from_slice(&said);
    numbers
}

fn cells(random: &mut Random) -> usize {
    match random.below(8) {
        0 | 1 => random.below(40),
        2 => limits::HEAP_CELLS,
        _ => random.below(1_000),
    }
}
