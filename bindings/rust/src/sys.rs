//! The calls of compressor.h, in its order. tests/header.rs compares them with it.
//!
//! What the header asks of its callers types keep. A handle is a struct that cannot be copied, and is made empty
//! here; a reference to it is unique, and not null. A call whose parameters are such references and numbers is safe.
//! One that takes arrays is not: each is a slice's pointer and its length, or a struct that outlives the call. Slices
//! of one call that are written overlap no other one, since they are borrowed.

use core::ffi::{c_char, c_void};
use core::ptr::null_mut;

/// Handles, each of its kind.
macro_rules! handles {
    ($($name:ident)*) => {
        $(
            #[repr(C)]
            pub struct $name {
                at: *mut c_void,
            }

            impl $name {
                pub const EMPTY: $name = $name { at: null_mut() };
            }
        )*
    };
}

handles! { Heap Plan Crew Mutator End Survey Tables Growing Old Job Marking Looks Lane Pages }

/// What each call answers: `status` 0 and the value, or the numbers of a refusal.
#[repr(C)]
#[derive(Clone, Copy, Debug)]
pub struct Answer {
    pub status: u32,
    pub other: u32,
    pub value: u64,
}

/// An entry of a journal.
#[repr(C)]
#[derive(Default)]
pub struct Entry {
    pub stamp: u64,
    pub value: u64,
    pub writer: u8,
    pub kind: u8,
    pub offset: u8,
    pub unused: [u8; 5],
}

/// The counts of a survey.
#[repr(C)]
#[derive(Default)]
pub struct SurveyFacts {
    pub live_words: u64,
}

use crate::flipped::{EndFacts, HeapFacts, MutatorFacts, PlanFacts};

const _: () = assert!(size_of::<usize>() == 8 && size_of::<Heap>() == 8);
const _: () = assert!(size_of::<Answer>() == 16 && size_of::<Entry>() == 24);
const _: () = assert!(size_of::<HeapFacts>() == 32 && size_of::<PlanFacts>() == 40);
const _: () = assert!(size_of::<MutatorFacts>() == 64 && size_of::<EndFacts>() == 48);
const _: () = assert!(size_of::<SurveyFacts>() == 8);

#[rustfmt::skip]
unsafe extern "C" {
    pub safe fn compressor_version() -> u32;
    pub safe fn compressor_version_text() -> *const c_char;

    pub fn compressor_collect(
        edition: u32, words: *const u64, word_count: usize, roots: *mut u64, root_count: usize,
        to: *mut u64, to_count: usize) -> Answer;
    pub fn compressor_collect_in_place(
        edition: u32, words: *mut u64, word_count: usize, roots: *mut u64,
        root_count: usize) -> Answer;
    pub fn compressor_collect_pinned(
        edition: u32, words: *mut u64, word_count: usize, roots: *mut u64, root_count: usize,
        pins: *const u64, pin_count: usize, runs: *mut u64, run_words: usize,
        run_count: *mut u64) -> Answer;
    pub fn compressor_survey_by_roots(
        edition: u32, words: *const u64, word_count: usize, roots: *const u64, root_count: usize,
        survey: &mut Survey) -> Answer;
    pub fn compressor_survey_by_marks(
        edition: u32, words: *const u64, word_count: usize, roots: *const u64, root_count: usize,
        marks: *const u64, block_count: usize, survey: &mut Survey) -> Answer;
    pub fn compressor_survey_by_bits(
        edition: u32, word_count: u64, roots: *const u64, root_count: usize, heads: *const u64,
        head_count: usize, live: *const u64, live_count: usize, survey: &mut Survey) -> Answer;
    pub fn compressor_survey_guarded(
        edition: u32, words: *const u64, word_count: usize, roots: *const u64, root_count: usize,
        ephemerons: *const u64, ephemeron_words: usize, guarded: *mut u64, guarded_count: usize,
        survey: &mut Survey, lost: *mut u64) -> Answer;
    pub safe fn compressor_survey_facts_of(survey: &mut Survey, facts: &mut SurveyFacts) -> Answer;
    pub safe fn compressor_survey_share(survey: &mut Survey, other: &mut Survey) -> Answer;
    pub fn compressor_survey_slide(
        survey: &mut Survey, words: *const u64, word_count: usize, first: u64, part: *mut u64,
        part_count: usize) -> Answer;
    pub fn compressor_survey_forward(
        survey: &mut Survey, roots: *mut u64, root_count: usize) -> Answer;
    pub fn compressor_survey_forward_weak(
        survey: &mut Survey, words: *mut u64, word_count: usize) -> Answer;
    pub safe fn compressor_survey_drop(survey: &mut Survey);

    pub safe fn compressor_tables_reserve(words: u64, tables: &mut Tables) -> Answer;
    pub fn compressor_collect_lent(
        tables: &mut Tables, edition: u32, words: *const u64, word_count: usize, roots: *mut u64,
        root_count: usize, to: *mut u64, to_count: usize) -> Answer;
    pub fn compressor_collect_in_place_lent(
        tables: &mut Tables, edition: u32, words: *mut u64, word_count: usize, roots: *mut u64,
        root_count: usize) -> Answer;
    pub fn compressor_survey_by_roots_lent(
        tables: &mut Tables, edition: u32, words: *const u64, word_count: usize, roots: *const u64,
        root_count: usize, survey: &mut Survey) -> Answer;
    pub safe fn compressor_survey_return(survey: &mut Survey, tables: &mut Tables) -> Answer;
    pub safe fn compressor_tables_drop(tables: &mut Tables);

    pub fn compressor_growing_begin(
        edition: u32, words: *const u64, word_count: usize, growing: &mut Growing) -> Answer;
    pub fn compressor_growing_begin_lent(
        tables: &mut Tables, edition: u32, words: *const u64, word_count: usize,
        growing: &mut Growing) -> Answer;
    pub fn compressor_growing_also(
        growing: &mut Growing, words: *const u64, word_count: usize, roots: *const u64,
        root_count: usize) -> Answer;
    pub fn compressor_growing_also_values(
        growing: &mut Growing, words: *const u64, word_count: usize, ephemerons: *const u64,
        ephemeron_words: usize) -> Answer;
    pub safe fn compressor_growing_keeps(growing: &mut Growing, value: u64) -> Answer;
    pub safe fn compressor_growing_settle(growing: &mut Growing, survey: &mut Survey) -> Answer;
    pub safe fn compressor_growing_return(growing: &mut Growing, tables: &mut Tables) -> Answer;
    pub safe fn compressor_growing_drop(growing: &mut Growing);

    pub safe fn compressor_old_reserve(words: u64, old: &mut Old) -> Answer;
    pub safe fn compressor_watermark(old: &mut Old) -> Answer;
    pub fn compressor_collect_all(
        old: &mut Old, edition: u32, words: *mut u64, word_count: usize, roots: *mut u64,
        root_count: usize) -> Answer;
    pub fn compressor_collect_young(
        old: &mut Old, edition: u32, words: *mut u64, word_count: usize, cards: *const u8,
        card_count: usize, roots: *mut u64, root_count: usize) -> Answer;
    pub fn compressor_collect_young_by(
        old: &mut Old, edition: u32, words: *mut u64, word_count: usize, fields: *mut u64,
        field_count: usize, roots: *mut u64, root_count: usize) -> Answer;
    pub fn compressor_collect_aging(
        old: &mut Old, edition: u32, words: *mut u64, word_count: usize, cards: *mut u8,
        card_count: usize, roots: *mut u64, root_count: usize) -> Answer;
    pub fn compressor_old_raise(
        old: &mut Old, edition: u32, words: *const u64, word_count: usize, end: u64) -> Answer;
    pub fn compressor_old_check(
        old: &mut Old, edition: u32, words: *const u64, word_count: usize, cards: *const u8,
        card_count: usize) -> Answer;
    pub safe fn compressor_old_return(old: &mut Old);

    pub fn compressor_job_begin(
        edition: u32, words: *const u64, word_count: usize, roots: *const u64, root_count: usize,
        job: &mut Job) -> Answer;
    pub safe fn compressor_job_share(job: &mut Job, other: &mut Job) -> Answer;
    pub safe fn compressor_job_help(job: &mut Job, who: u64) -> Answer;
    pub safe fn compressor_job_finish(job: &mut Job, survey: &mut Survey) -> Answer;
    pub safe fn compressor_job_drop(job: &mut Job);

    pub fn compressor_marking_begin(
        edition: u32, word_count: u64, roots: *const u64, root_count: usize,
        marking: &mut Marking) -> Answer;
    pub safe fn compressor_marking_share(marking: &mut Marking, other: &mut Marking) -> Answer;
    pub fn compressor_marking_help(
        marking: &mut Marking, words: *const u64, word_count: usize, who: u64) -> Answer;
    pub fn compressor_marking_meet(
        marking: &mut Marking, values: *const u64, value_count: usize) -> Answer;
    pub fn compressor_marking_finish(
        marking: &mut Marking, roots: *const u64, root_count: usize, survey: &mut Survey) -> Answer;
    pub safe fn compressor_marking_drop(marking: &mut Marking);

    pub fn compressor_looks_begin(
        edition: u32, word_count: u64, roots: *const u64, root_count: usize,
        looks: &mut Looks) -> Answer;
    pub fn compressor_looks_waiting(looks: &mut Looks, indices: *mut u64, most: usize) -> Answer;
    pub fn compressor_looks_look(
        looks: &mut Looks, rows: *const u64, row_words: usize) -> Answer;
    pub fn compressor_looks_again(
        looks: &mut Looks, index: u64, row: *const u64, row_words: usize) -> Answer;
    pub fn compressor_looks_meet(
        looks: &mut Looks, values: *const u64, value_count: usize) -> Answer;
    pub fn compressor_looks_finish(
        looks: &mut Looks, roots: *const u64, root_count: usize, survey: &mut Survey) -> Answer;
    pub fn compressor_looks_check(
        looks: &mut Looks, words: *const u64, word_count: usize) -> Answer;
    pub safe fn compressor_looks_drop(looks: &mut Looks);

    pub safe fn compressor_lane_begin(edition: u32, word_count: u64, lane: &mut Lane) -> Answer;
    pub safe fn compressor_lane_share(lane: &mut Lane, other: &mut Lane) -> Answer;
    pub fn compressor_lane_waiting(lane: &mut Lane, indices: *mut u64, most: usize) -> Answer;
    pub fn compressor_lane_meet(
        lane: &mut Lane, values: *const u64, value_count: usize) -> Answer;
    pub fn compressor_lane_look(lane: &mut Lane, rows: *const u64, row_words: usize) -> Answer;
    pub fn compressor_lane_give(lane: &mut Lane, indices: *mut u64, most: usize) -> Answer;
    pub fn compressor_lane_take(
        lane: &mut Lane, indices: *const u64, index_count: usize) -> Answer;
    pub safe fn compressor_lane_join(lane: &mut Lane, other: &mut Lane) -> Answer;
    pub safe fn compressor_lane_whole(lane: &mut Lane, looks: &mut Looks) -> Answer;
    pub safe fn compressor_lane_drop(lane: &mut Lane);

    pub safe fn compressor_pages_begin(
        survey: &mut Survey, page_words: u64, pages: &mut Pages) -> Answer;
    pub safe fn compressor_pages_share(pages: &mut Pages, other: &mut Pages) -> Answer;
    pub safe fn compressor_pages_claim(pages: &mut Pages, page: u64) -> Answer;
    pub fn compressor_pages_build(
        pages: &mut Pages, words: *const u64, word_count: usize, page: *mut u64,
        page_count: usize) -> Answer;
    pub safe fn compressor_pages_publish(pages: &mut Pages) -> Answer;
    pub safe fn compressor_pages_end(pages: &mut Pages, survey: &mut Survey) -> Answer;
    pub safe fn compressor_pages_drop(pages: &mut Pages);

    pub fn compressor_heap_by_marks(
        edition: u32, words: *const u64, word_count: usize, marks: *const u32, mark_count: usize,
        roots: *const u64, root_count: usize, heap: &mut Heap) -> Answer;
    pub fn compressor_heap_by_roots(
        edition: u32, words: *const u64, word_count: usize, roots: *const u64, root_count: usize,
        heap: &mut Heap) -> Answer;
    pub safe fn compressor_heap_facts_of(heap: &mut Heap, facts: &mut HeapFacts) -> Answer;
    pub fn compressor_heap_read(bytes: *const u8, count: usize, heap: &mut Heap) -> Answer;
    pub fn compressor_heap_write(heap: &mut Heap, out: *mut u8, count: usize) -> Answer;
    pub fn compressor_heap_judge(heap: &mut Heap, bytes: *const u8, count: usize) -> Answer;
    pub safe fn compressor_heap_plan(heap: &mut Heap, plan: &mut Plan) -> Answer;
    pub safe fn compressor_heap_drop(heap: &mut Heap);

    pub safe fn compressor_plan_facts_of(plan: &mut Plan, facts: &mut PlanFacts) -> Answer;
    pub safe fn compressor_plan_share(plan: &mut Plan, other: &mut Plan) -> Answer;
    pub fn compressor_plan_forward(plan: &mut Plan, addresses: *mut u64, count: usize) -> Answer;
    pub safe fn compressor_plan_page(plan: &mut Plan, page: u64, out: &mut [u64; 64]) -> Answer;
    pub safe fn compressor_plan_flip(
        plan: &mut Plan, mutators: u32, fresh_pages: u32, crew: &mut Crew) -> Answer;
    pub fn compressor_plan_audit(
        plan: &mut Plan, bytes: *const u8, count: usize, options: u32) -> Answer;
    pub fn compressor_plan_explain(
        plan: &mut Plan, bytes: *const u8, count: usize, options: u32, out: *mut u8,
        out_count: usize) -> Answer;
    pub safe fn compressor_plan_drop(plan: &mut Plan);

    pub safe fn compressor_crew_take(crew: &mut Crew, mutator: &mut Mutator) -> Answer;
    pub safe fn compressor_crew_give(crew: &mut Crew, mutator: &mut Mutator) -> Answer;
    pub safe fn compressor_crew_finish(crew: &mut Crew, end: &mut End) -> Answer;
    pub safe fn compressor_crew_drop(crew: &mut Crew);

    pub safe fn compressor_mutator_read_ref(
        mutator: &mut Mutator, object: u64, field: u32) -> Answer;
    pub safe fn compressor_mutator_read_weak(
        mutator: &mut Mutator, object: u64, field: u32) -> Answer;
    pub safe fn compressor_mutator_read_data(
        mutator: &mut Mutator, object: u64, field: u32) -> Answer;
    pub safe fn compressor_mutator_header(mutator: &mut Mutator, object: u64) -> Answer;
    pub safe fn compressor_mutator_write_ref(
        mutator: &mut Mutator, object: u64, field: u32, value: u64) -> Answer;
    pub safe fn compressor_mutator_write_weak(
        mutator: &mut Mutator, object: u64, field: u32, value: u64) -> Answer;
    pub safe fn compressor_mutator_write_data(
        mutator: &mut Mutator, object: u64, field: u32, value: u64) -> Answer;
    pub safe fn compressor_mutator_alloc(mutator: &mut Mutator, header: u64) -> Answer;
    pub safe fn compressor_mutator_touch(mutator: &mut Mutator, page: u64) -> Answer;
    pub safe fn compressor_mutator_page(
        mutator: &mut Mutator, page: u64, out: &mut [u64; 64]) -> Answer;
    pub safe fn compressor_mutator_root(mutator: &mut Mutator, number: u64) -> Answer;
    pub fn compressor_mutator_roots(mutator: &mut Mutator, out: *mut u64, count: usize) -> Answer;
    pub safe fn compressor_mutator_build(mutator: &mut Mutator, number: u64) -> Answer;
    pub safe fn compressor_mutator_facts_of(
        mutator: &mut Mutator, facts: &mut MutatorFacts) -> Answer;
    pub safe fn compressor_mutator_meet(mutator: &mut Mutator, other: &mut Mutator) -> Answer;
    pub safe fn compressor_mutator_drop(mutator: &mut Mutator);

    pub safe fn compressor_end_facts_of(end: &mut End, facts: &mut EndFacts) -> Answer;
    pub safe fn compressor_end_page(end: &mut End, page: u64, out: &mut [u64; 64]) -> Answer;
    pub safe fn compressor_end_entry(
        end: &mut End, page: u64, number: u64, entry: &mut Entry) -> Answer;
    pub fn compressor_end_roots(end: &mut End, out: *mut u64, count: usize) -> Answer;
    pub safe fn compressor_end_builds(end: &mut End, mutator: u32) -> Answer;
    pub safe fn compressor_end_build(end: &mut End, mutator: u32, number: u64) -> Answer;
    pub fn compressor_end_next_by_marks(
        end: &mut End, marks: *const u32, mark_count: usize, roots: *const u64, root_count: usize,
        heap: &mut Heap) -> Answer;
    pub fn compressor_end_next_by_roots(
        end: &mut End, roots: *const u64, root_count: usize, heap: &mut Heap) -> Answer;
    pub fn compressor_end_rest(
        end: &mut End, words: *mut u64, word_count: usize, roots: *mut u64,
        root_count: usize) -> Answer;
    pub fn compressor_end_write(end: &mut End, out: *mut u8, count: usize) -> Answer;
    pub safe fn compressor_end_drop(end: &mut End);
}
