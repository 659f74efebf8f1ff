//! The C interface as `include/relcalc.h` declares it. Nothing checks one against the other: change both together.

#[repr(C)]
#[derive(Clone, Copy, Debug, Default, PartialEq)]
pub struct Record {
    pub text: u64,
    pub offset: u64,
    pub length: u64,
    pub arity: u64,
    pub first: u64,
    pub count: u64,
}

#[repr(C)]
#[derive(Clone, Copy, Debug, Default, PartialEq)]
pub struct Checked {
    pub refusal: u64,
    pub place: u64,
    pub universe: u64,
    pub words: u64,
    pub relations: u64,
    pub records: [Record; 16],
}

#[repr(C)]
#[derive(Clone, Copy, Debug, Default, PartialEq)]
pub struct Ran {
    pub refusal: u64,
    pub place: u64,
    pub ending: u64,
    pub steps: u64,
    pub written: u64,
    pub counts: [u64; 16],
}

#[repr(C)]
#[derive(Clone, Copy, Debug, Default, PartialEq)]
pub struct Part {
    pub text: u64,
    pub offset: u64,
    pub length: u64,
}

#[repr(C)]
#[derive(Clone, Copy, Debug, Default, PartialEq)]
pub struct Chained {
    pub refusal: u64,
    pub place: u64,
    pub count: u64,
}

#[repr(C)]
#[derive(Clone, Copy, Debug, Default, PartialEq)]
pub struct Joined {
    pub refusal: u64,
    pub place: u64,
    pub text: u64,
    pub length: u64,
}

mod calls {
    use super::*;

    extern "C" {
        pub fn relcalc_check(facts: *const u8, facts_len: usize, query: *const u8, query_len: usize) -> Checked;
        pub fn relcalc_run(
            facts: *const u8,
            facts_len: usize,
            query: *const u8,
            query_len: usize,
            budget: u32,
            store: *mut u64,
            store_len: usize,
            output: *mut u8,
            output_len: usize,
        ) -> Ran;
        pub fn relcalc_element(facts: *const u8, facts_len: usize, query: *const u8, query_len: usize, n: usize) -> Part;
        pub fn relcalc_chain(
            facts: *const u8,
            facts_len: usize,
            name: *const u8,
            name_len: usize,
            first: *const u8,
            first_len: usize,
            second: *const u8,
            second_len: usize,
            buffer: *mut u8,
            buffer_len: usize,
        ) -> Chained;
        pub fn relcalc_join(
            first: *const u8,
            first_len: usize,
            second: *const u8,
            second_len: usize,
            output: *mut u8,
            output_len: usize,
        ) -> Joined;
    }
}

// Slices meet what the header asks of a caller: their pointers are aligned and not null, also for length 0, good for their length, and
// a mutable one overlaps nothing.

pub fn check(facts: &[u8], query: &[u8]) -> Checked {
    unsafe { calls::relcalc_check(facts.as_ptr(), facts.len(), query.as_ptr(), query.len()) }
}

pub fn run(facts: &[u8], query: &[u8], budget: u32, store: &mut [u64], output: &mut [u8]) -> Ran {
    let (words, room) = (store.len(), output.len());
    unsafe {
        calls::relcalc_run(
            facts.as_ptr(),
            facts.len(),
            query.as_ptr(),
            query.len(),
            budget,
            store.as_mut_ptr(),
            words,
            output.as_mut_ptr(),
            room,
        )
    }
}

pub fn element(facts: &[u8], query: &[u8], n: usize) -> Part {
    unsafe { calls::relcalc_element(facts.as_ptr(), facts.len(), query.as_ptr(), query.len(), n) }
}

pub fn chain(facts: &[u8], name: &[u8], first: &[u8], second: &[u8], buffer: &mut [u8]) -> Chained {
    let room = buffer.len();
    unsafe {
        calls::relcalc_chain(
            facts.as_ptr(),
            facts.len(),
            name.as_ptr(),
            name.len(),
            first.as_ptr(),
            first.len(),
            second.as_ptr(),
            second.len(),
            buffer.as_mut_ptr(),
            room,
        )
    }
}

pub fn join(first: &[u8], second: &[u8], output: &mut [u8]) -> Joined {
    let room = output.len();
    unsafe { calls::relcalc_join(first.as_ptr(), first.len(), second.as_ptr(), second.len(), output.as_mut_ptr(), room) }
}
