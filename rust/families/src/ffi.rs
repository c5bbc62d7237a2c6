//! The C interface, declared as its header has it. A slice is a pointer and
//! then its number of elements; the struct layouts are the header's own.

use std::mem::size_of;

/// The most parts a network can have, and so the rows of a state.
pub const PARTS: usize = 64;

/// What a call answers: number 0 is accepted, any other is a refusal.
#[repr(C)]
#[derive(Clone, Copy, Debug, PartialEq, Eq)]
pub struct Outcome {
    pub number: u8,
    pub place: usize,
    pub count: usize,
    pub parts: usize,
}

/// The state of the sequential run. It belongs to the tables and the journal
/// that the same step left; any other state is safe to pass, but its answer
/// means nothing.
#[repr(C)]
#[derive(Clone, Copy, Debug, PartialEq, Eq)]
pub struct State {
    pub p: usize,
    pub k: usize,
    pub used: usize,
    pub last: usize,
    pub links: usize,
    pub rows: [u64; PARTS],
}

/// What a step answers, together with the state after it.
#[repr(C)]
#[derive(Clone, Copy, Debug, PartialEq, Eq)]
pub struct Started {
    pub outcome: Outcome,
    pub state: State,
}

/// What the mean link weight of a family answers: the outcome counts the
/// links.
#[repr(C)]
#[derive(Clone, Copy, Debug, PartialEq, Eq)]
pub struct Mean {
    pub outcome: Outcome,
    pub sum: u64,
    pub quotient: u64,
    pub remainder: u64,
}

/// What a run needs: the numbers of k-cliques, of joins and of slots.
#[repr(C)]
#[derive(Clone, Copy, Debug, PartialEq, Eq)]
pub struct Need {
    pub outcome: Outcome,
    pub cliques: u64,
    pub joins: u64,
    pub slots: u64,
}

// A field more or less on one side would shift every argument after it.
#[cfg(target_pointer_width = "64")]
const _: () = {
    assert!(size_of::<Outcome>() == 32 && size_of::<State>() == 552 && size_of::<Started>() == 584);
    assert!(size_of::<Mean>() == 56 && size_of::<Need>() == 56);
};

extern "C" {
    pub fn families_read(
        sheet: *const u8,
        sheet_length: usize,
        names: *mut u8,
        names_length: usize,
        lower: *mut u16,
        lower_length: usize,
        higher: *mut u16,
        higher_length: usize,
        weights: *mut u16,
        weights_length: usize,
    ) -> Outcome;

    pub fn families_write(
        names: *const u8,
        names_length: usize,
        lower: *const u16,
        lower_length: usize,
        higher: *const u16,
        higher_length: usize,
        weights: *const u16,
        weights_length: usize,
        out: *mut u8,
        out_length: usize,
    ) -> Outcome;

    pub fn families_dump_sheet(
        dump: *const u8,
        dump_length: usize,
        out: *mut u8,
        out_length: usize,
    ) -> Outcome;

    pub fn families_name(sheet: *const u8, sheet_length: usize, part: usize) -> Outcome;

    pub fn families_slot_bound(p: usize, k: usize) -> Outcome;

    pub fn families_subset_count(n: usize, r: usize) -> Outcome;

    pub fn families_start(
        p: usize,
        k: usize,
        sets: *mut u64,
        sets_length: usize,
        entries: *mut u32,
        entries_length: usize,
        smallest: *mut u64,
        smallest_length: usize,
        unions: *mut u64,
        unions_length: usize,
        journal: *mut u64,
        journal_length: usize,
    ) -> Started;

    pub fn families_insert(
        state: State,
        sets: *mut u64,
        sets_length: usize,
        entries: *mut u32,
        entries_length: usize,
        smallest: *mut u64,
        smallest_length: usize,
        unions: *mut u64,
        unions_length: usize,
        journal: *mut u64,
        journal_length: usize,
        lower: usize,
        higher: usize,
        weight: u16,
    ) -> Started;

    pub fn families_take_back(
        state: State,
        sets: *mut u64,
        sets_length: usize,
        entries: *mut u32,
        entries_length: usize,
        smallest: *mut u64,
        smallest_length: usize,
        unions: *mut u64,
        unions_length: usize,
        journal: *mut u64,
        journal_length: usize,
    ) -> Started;

    pub fn families_listing_now(
        state: State,
        sets: *const u64,
        sets_length: usize,
        entries: *const u32,
        entries_length: usize,
        smallest: *const u64,
        smallest_length: usize,
        unions: *const u64,
        unions_length: usize,
        out: *mut u8,
        out_length: usize,
    ) -> Outcome;

    pub fn families_listing_sequential(
        sheet: *const u8,
        sheet_length: usize,
        k: usize,
        t: u16,
        sets: *mut u64,
        sets_length: usize,
        entries: *mut u32,
        entries_length: usize,
        smallest: *mut u64,
        smallest_length: usize,
        unions: *mut u64,
        unions_length: usize,
        out: *mut u8,
        out_length: usize,
    ) -> Outcome;

    pub fn families_listing_maximal(
        sheet: *const u8,
        sheet_length: usize,
        k: usize,
        t: u16,
        sets: *mut u64,
        sets_length: usize,
        entries: *mut u32,
        entries_length: usize,
        smallest: *mut u64,
        smallest_length: usize,
        unions: *mut u64,
        unions_length: usize,
        out: *mut u8,
        out_length: usize,
    ) -> Outcome;

    pub fn families_listing_weakest(
        sheet: *const u8,
        sheet_length: usize,
        k: usize,
        t: u16,
        cliques: *mut u64,
        cliques_length: usize,
        products: *mut f64,
        products_length: usize,
        sets: *mut u64,
        sets_length: usize,
        entries: *mut u32,
        entries_length: usize,
        smallest: *mut u64,
        smallest_length: usize,
        unions: *mut u64,
        unions_length: usize,
        out: *mut u8,
        out_length: usize,
    ) -> Outcome;

    pub fn families_listing_product(
        sheet: *const u8,
        sheet_length: usize,
        k: usize,
        t: f64,
        cliques: *mut u64,
        cliques_length: usize,
        products: *mut f64,
        products_length: usize,
        sets: *mut u64,
        sets_length: usize,
        entries: *mut u32,
        entries_length: usize,
        smallest: *mut u64,
        smallest_length: usize,
        unions: *mut u64,
        unions_length: usize,
        out: *mut u8,
        out_length: usize,
    ) -> Outcome;

    pub fn families_meeting_sequential(
        sheet: *const u8,
        sheet_length: usize,
        k: usize,
        a: u64,
        b: u64,
        sets: *mut u64,
        sets_length: usize,
        entries: *mut u32,
        entries_length: usize,
        smallest: *mut u64,
        smallest_length: usize,
        unions: *mut u64,
        unions_length: usize,
    ) -> Outcome;

    pub fn families_meeting_maximal(
        sheet: *const u8,
        sheet_length: usize,
        k: usize,
        a: u64,
        b: u64,
        sets: *mut u64,
        sets_length: usize,
        entries: *mut u32,
        entries_length: usize,
        smallest: *mut u64,
        smallest_length: usize,
        unions: *mut u64,
        unions_length: usize,
    ) -> Outcome;

    pub fn families_family_mean(
        sheet: *const u8,
        sheet_length: usize,
        k: usize,
        t: u16,
        clique: u64,
        sets: *mut u64,
        sets_length: usize,
        entries: *mut u32,
        entries_length: usize,
        smallest: *mut u64,
        smallest_length: usize,
        unions: *mut u64,
        unions_length: usize,
    ) -> Mean;

    pub fn families_needed(sheet: *const u8, sheet_length: usize, k: usize, t: u16) -> Need;

    pub fn families_fullest_sheet(p: usize, k: usize, out: *mut u8, out_length: usize) -> Outcome;

    pub fn families_tree(
        sheet: *const u8,
        sheet_length: usize,
        k: usize,
        sets: *mut u64,
        sets_length: usize,
        entries: *mut u32,
        entries_length: usize,
        smallest: *mut u64,
        smallest_length: usize,
        unions: *mut u64,
        unions_length: usize,
        out: *mut u8,
        out_length: usize,
    ) -> Outcome;

    pub fn families_page_rows(
        sheet: *const u8,
        sheet_length: usize,
        lines: *const u8,
        lines_length: usize,
    ) -> Outcome;

    pub fn families_page(
        sheet: *const u8,
        sheet_length: usize,
        lines: *const u8,
        lines_length: usize,
        out: *mut u8,
        out_length: usize,
    ) -> Outcome;
}
