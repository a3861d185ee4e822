//! The library's calls for Rust, as nesfoal.h has them: the header is their manual. Each is unsafe as any C call is: the caller
//! sees to what the header asks.

#![allow(dead_code)]

pub const NESFOAL_VERSION: u32 = 13;

pub const NESFOAL_MAX_FILE_BYTES: usize = 65536;
pub const NESFOAL_MAX_PLACES: usize = 1024;
pub const NESFOAL_MAX_TRANSITIONS: usize = 1024;
pub const NESFOAL_MAX_ARCS: usize = 4096;
pub const NESFOAL_MAX_LIST_ENTRIES: usize = 65535;

pub const NESFOAL_SLICE_ROOM: usize =
    8 * NESFOAL_MAX_PLACES + 8 * NESFOAL_MAX_ARCS + 2 * NESFOAL_MAX_PLACES + 2 * NESFOAL_MAX_TRANSITIONS + 16;
pub const NESFOAL_PLAN_ROOM: usize = 8 * NESFOAL_MAX_PLACES + 8 * NESFOAL_MAX_ARCS + 16;
pub const NESFOAL_MARKING_ROOM: usize = NESFOAL_MAX_PLACES;
pub const NESFOAL_SHADOW_ROOM: usize = NESFOAL_MAX_LIST_ENTRIES;
pub const NESFOAL_POSITIONS_ROOM: usize = NESFOAL_MAX_LIST_ENTRIES;

pub const NESFOAL_NO_PLACE: u16 = 65535;

pub const NESFOAL_STACK_CHECK: usize = 25600;
pub const NESFOAL_STACK_VERDICT: usize = 23552;
pub const NESFOAL_STACK_EFFECT: usize = 1024;
pub const NESFOAL_STACK_REPLAY: usize = 30720;
pub const NESFOAL_STACK_SAFETY: usize = 27648;
pub const NESFOAL_STACK_BRANCHING: usize = 27648;
pub const NESFOAL_STACK_RUN_CUT: usize = 59392;
pub const NESFOAL_STACK_SHADOW: usize = 39936;
pub const NESFOAL_STACK_TOGETHER: usize = 1024;
pub const NESFOAL_STACK_ARCS: usize = 1024;
pub const NESFOAL_STACK_RANGE: usize = 6144;
pub const NESFOAL_STACK_NORMAL: usize = 1024;
pub const NESFOAL_STACK_TRANSFER: usize = 9728;
pub const NESFOAL_STACK_REPLAY_FROM: usize = 30720;
pub const NESFOAL_STACK_SAFETY_FROM: usize = 27648;
pub const NESFOAL_STACK_BRANCHING_FROM: usize = 27648;
pub const NESFOAL_STACK_VERDICT_FROM: usize = 23552;
pub const NESFOAL_STACK_FROM_PNML: usize = 39936;

pub const NESFOAL_DONE: u32 = 0;
pub const NESFOAL_ACCEPTED: u32 = 0;
pub const NESFOAL_REFUSED_LENGTH: u32 = 1;
pub const NESFOAL_REFUSED_LETTERS: u32 = 2;
pub const NESFOAL_REFUSED_KIND: u32 = 3;
pub const NESFOAL_REFUSED_COUNTS: u32 = 4;
pub const NESFOAL_REFUSED_BODY: u32 = 5;
pub const NESFOAL_REFUSED_ARC: u32 = 6;
pub const NESFOAL_REFUSED_ORDER: u32 = 7;
pub const NESFOAL_REFUSED_ORIGINS: u32 = 8;
pub const NESFOAL_REFUSED_CRITERION: u32 = 9;
pub const NESFOAL_REFUSED_PLACE: u32 = 10;
pub const NESFOAL_REFUSED_LIST: u32 = 11;
pub const NESFOAL_REFUSED_TRANSITION: u32 = 12;
pub const NESFOAL_REFUSED_BUFFER: u32 = 13;
pub const NESFOAL_REFUSED_STUCK: u32 = 14;
pub const NESFOAL_REFUSED_MARKING: u32 = 15;
pub const NESFOAL_REFUSED_CAP: u32 = 16;
pub const NESFOAL_REFUSED_CAPPED: u32 = 17;
pub const NESFOAL_REFUSED_PROFILE: u32 = 18;
pub const NESFOAL_REFUSED_ID: u32 = 19;
pub const NESFOAL_REFUSED_NUMBER: u32 = 20;
pub const NESFOAL_REFUSED_UPPER: u32 = 21;
pub const NESFOAL_REFUSED_ENTRIES: u32 = 22;
pub const NESFOAL_REFUSED_STRANDED: u32 = 23;
pub const NESFOAL_REFUSED_TOKENS: u32 = 24;
pub const NESFOAL_REFUSED_WEIGHT: u32 = 25;
pub const NESFOAL_LAST_REFUSAL: u32 = 25;
pub const NESFOAL_STUCK: u32 = 100;
pub const NESFOAL_FULL: u32 = 101;
pub const NESFOAL_UNLIMITED: u32 = 100;
pub const NESFOAL_SOME: u32 = 100;
pub const NESFOAL_NONE: u32 = 101;
pub const NESFOAL_RULE: u32 = 100;

#[link(name = "nesfoal", kind = "static")]
extern "C" {
    pub fn nesfoal_effect(file: *const u8, file_len: usize, place: u32, transition: u32, effect: *mut i32) -> u32;
    pub fn nesfoal_arcs(
        plan: *const u8,
        plan_len: usize,
        slice: *const u8,
        slice_len: usize,
        of_slice: bool,
        transition: u32,
        start: *mut u32,
    ) -> u32;
    pub fn nesfoal_replay(
        file: *const u8,
        file_len: usize,
        list: *const u16,
        list_len: usize,
        marking: *mut u64,
        marking_len: usize,
        index: *mut u32,
        place: *mut u32,
        amount: *mut u32,
    ) -> u32;
    pub fn nesfoal_safety(
        plan: *const u8,
        plan_len: usize,
        q: *const u16,
        q_len: usize,
        slice: *mut u8,
        slice_len: usize,
        length: *mut u32,
        places: *mut u32,
        transitions: *mut u32,
    ) -> u32;
    pub fn nesfoal_branching(
        plan: *const u8,
        plan_len: usize,
        q: *const u16,
        q_len: usize,
        slice: *mut u8,
        slice_len: usize,
        length: *mut u32,
        places: *mut u32,
        transitions: *mut u32,
    ) -> u32;
    pub fn nesfoal_run_cut(
        plan: *const u8,
        plan_len: usize,
        q: *const u16,
        q_len: usize,
        list: *const u16,
        list_len: usize,
        slice: *mut u8,
        slice_len: usize,
        positions: *mut u16,
        positions_len: usize,
        length: *mut u32,
        places: *mut u32,
        transitions: *mut u32,
        count: *mut u32,
        index: *mut u32,
        place: *mut u32,
        amount: *mut u32,
    ) -> u32;
    pub fn nesfoal_shadow(
        plan: *const u8,
        plan_len: usize,
        slice: *const u8,
        slice_len: usize,
        list: *const u16,
        list_len: usize,
        marking: *mut u64,
        marking_len: usize,
        out: *mut u16,
        out_len: usize,
        index: *mut u32,
        place: *mut u32,
        amount: *mut u32,
        count: *mut u32,
    ) -> u32;
    pub fn nesfoal_together(
        plan: *const u8,
        plan_len: usize,
        transition: u32,
        marking: *const u64,
        marking_len: usize,
        rest: *mut u64,
        rest_len: usize,
        times: *mut u64,
    ) -> u32;
    pub fn nesfoal_range(
        plan: *const u8,
        plan_len: usize,
        list: *const u16,
        list_len: usize,
        upper: *const u32,
        upper_len: usize,
        need: *mut u64,
        need_len: usize,
    ) -> u32;
    pub fn nesfoal_normal(
        plan: *const u8,
        plan_len: usize,
        normal: *mut u8,
        normal_len: usize,
        length: *mut u32,
    ) -> u32;
    pub fn nesfoal_transfer(
        old_plan: *const u8,
        old_plan_len: usize,
        new_plan: *const u8,
        new_plan_len: usize,
        running: *const u64,
        running_len: usize,
        table: *const u16,
        table_len: usize,
        marking: *mut u64,
        marking_len: usize,
    ) -> u32;
    pub fn nesfoal_replay_from(
        file: *const u8,
        file_len: usize,
        start: *const u64,
        start_len: usize,
        list: *const u16,
        list_len: usize,
        marking: *mut u64,
        marking_len: usize,
        index: *mut u32,
        place: *mut u32,
        amount: *mut u32,
    ) -> u32;
    pub fn nesfoal_safety_from(
        plan: *const u8,
        plan_len: usize,
        start: *const u64,
        start_len: usize,
        q: *const u16,
        q_len: usize,
        slice: *mut u8,
        slice_len: usize,
        length: *mut u32,
        places: *mut u32,
        transitions: *mut u32,
    ) -> u32;
    pub fn nesfoal_branching_from(
        plan: *const u8,
        plan_len: usize,
        start: *const u64,
        start_len: usize,
        q: *const u16,
        q_len: usize,
        slice: *mut u8,
        slice_len: usize,
        length: *mut u32,
        places: *mut u32,
        transitions: *mut u32,
    ) -> u32;
    pub fn nesfoal_verdict_from(
        plan: *const u8,
        plan_len: usize,
        slice: *const u8,
        slice_len: usize,
        start: *const u64,
        start_len: usize,
        q: *const u16,
        q_len: usize,
        number: *mut u32,
    ) -> u32;
    pub fn nesfoal_from_pnml(text: *const u8, text_len: usize, plan: *mut u8, plan_len: usize, length: *mut u32)
        -> u32;
    pub fn nesfoal_check(
        plan: *const u8,
        plan_len: usize,
        slice: *const u8,
        slice_len: usize,
        q_bytes: *const u8,
        q_len: usize,
    ) -> u32;
    pub fn nesfoal_verdict(
        plan: *const u8,
        plan_len: usize,
        slice: *const u8,
        slice_len: usize,
        q: *const u16,
        q_len: usize,
        number: *mut u32,
    ) -> u32;
}
