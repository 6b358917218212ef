//! Every declaration of the archive's functions; each call checks nothing, because the compiled functions check all that they are lent.

mod declared {
    extern "C" {
        pub fn flosquedo_scratch_size() -> usize;

        pub fn flosquedo_verify(
            bundle: *const u8,
            bundle_length: usize,
            scratch: *mut u8,
            scratch_length: usize,
            result: *mut u8,
            result_length: usize,
        ) -> u32;

        pub fn flosquedo_run(
            bundle: *const u8,
            bundle_length: usize,
            scratch: *mut u8,
            scratch_length: usize,
            heap: *mut u32,
            heap_length: usize,
            slots: *mut u32,
            slots_length: usize,
            tags: *mut u8,
            tags_length: usize,
            class: u32,
            method: u32,
            arguments: *const u32,
            arguments_length: usize,
            budget: u32,
            result: *mut u8,
            result_length: usize,
        ) -> u32;
    }
}

/// Bytes of scratch that both functions ask for.
pub const SCRATCH: usize = 262_144;
/// Slots and tags that a run asks for.
pub const SLOTS: usize = 4_096;
/// Bytes of a result.
pub const RESULT: usize = 64;

/// What a run is lent; any sizes will do, the compiled function refuses those that it cannot use.
pub struct Lent<'l> {
    pub scratch: &'l mut [u8],
    pub heap: &'l mut [u32],
    pub slots: &'l mut [u32],
    pub tags: &'l mut [u8],
}

/// What is run: a method by its indices, its arguments, and the steps at most.
#[derive(Clone, Copy, Debug)]
pub struct Entry<'e> {
    pub class: u32,
    pub method: u32,
    pub arguments: &'e [u32],
    pub budget: u32,
}

pub fn scratch_size() -> usize {
    // SAFETY: it takes nothing and changes nothing.
    unsafe { declared::flosquedo_scratch_size() }
}

pub fn verify(bundle: &[u8], scratch: &mut [u8], result: &mut [u8]) -> u32 {
    // SAFETY: each pointer is good for its length, and no mutable one is shared.
    unsafe {
        declared::flosquedo_verify(
            bundle.as_ptr(),
            bundle.len(),
            scratch.as_mut_ptr(),
            scratch.len(),
            result.as_mut_ptr(),
            result.len(),
        )
    }
}

pub fn run(bundle: &[u8], lent: Lent<'_>, entry: Entry<'_>, result: &mut [u8]) -> u32 {
    // SAFETY: each pointer is good for its length, and no mutable one is shared.
    unsafe {
        declared::flosquedo_run(
            bundle.as_ptr(),
            bundle.len(),
            lent.scratch.as_mut_ptr(),
            lent.scratch.len(),
            lent.heap.as_mut_ptr(),
            lent.heap.len(),
            lent.slots.as_mut_ptr(),
            lent.slots.len(),
            lent.tags.as_mut_ptr(),
            lent.tags.len(),
            entry.class,
            entry.method,
            entry.arguments.as_ptr(),
            entry.arguments.len(),
            entry.budget,
            result.as_mut_ptr(),
            result.len(),
        )
    }
}

/// The sixteen numbers of a result.
pub fn numbers(result: &[u8; RESULT]) -> [u32; 16] {
    let mut numbers = [0; 16];
    for (number, bytes) in numbers.iter_mut().zip(result.chunks_exact(4)) {
        *number = u32::from_le_bytes([bytes[0], bytes[1], bytes[2], bytes[3]]);
    }
    numbers
}

#[cfg(test)]
mod tests {
    use super::*;

    #[test]
    fn the_scratch_has_the_size_that_the_archive_names() {
        assert_eq!(scratch_size(), SCRATCH);
    }

    #[test]
    fn a_result_of_another_size_is_refused_and_nothing_changes() {
        for length in [0, RESULT - 1, RESULT + 1] {
            let mut scratch = vec![0x5a; SCRATCH];
            let mut result = vec![0xa5; length];
            assert_eq!(verify(&[], &mut scratch, &mut result), 20);
            assert!(scratch.iter().all(|&byte| byte == 0x5a));
            assert!(result.iter().all(|&byte| byte == 0xa5));
        }
    }
}
