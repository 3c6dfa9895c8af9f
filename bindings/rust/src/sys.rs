//! The library's own calls, as `include/faultyard.h` declares them.
//!
//! Every pointer is non-null, also where a length is 0, and a guard is open but for `fy_open`.
//!
//! A new call of the header is declared here, and made in guard.rs, acts.rs, plan.rs or check.rs.

use std::ffi::c_void;

/// `fy_guard`: closed where `at` is null.
#[repr(C)]
pub struct FyGuard {
    pub at: *mut c_void,
}

/// `fy_seen`.
#[repr(C)]
pub struct FySeen {
    pub now: u64,
    pub deliverable: u64,
    pub unsynced: u32,
    pub sleeping: u32,
}

/// `fy_borne`.
#[repr(C)]
pub struct FyBorne {
    pub emptied: u32,
    pub gone: u32,
    pub emptied_exact: u32,
    pub gone_exact: u32,
}

/// `fy_reply`.
#[repr(C)]
#[derive(Default)]
pub struct FyReply {
    pub refusal: u32,
    pub rule: u32,
    pub named: u64,
    pub team: u32,
    pub record: u32,
    pub message: u64,
    pub synced: u64,
    pub now: u64,
    pub marked: u32,
    pub acked: u32,
}

/// `fy_order`.
#[repr(C)]
#[derive(Clone, Copy)]
pub struct FyOrder {
    pub ticks: u64,
    pub tear: u64,
    pub act: u32,
    pub key: u32,
    pub kind: u32,
    pub floor: u32,
    pub value: [u8; VALUE_BYTES],
}

impl Default for FyOrder {
    fn default() -> FyOrder {
        FyOrder {
            ticks: 0,
            tear: 0,
            act: 0,
            key: 0,
            kind: 0,
            floor: 0,
            value: [0; VALUE_BYTES],
        }
    }
}

/// `fy_check`: closed where `at` is null.
#[repr(C)]
pub struct FyCheck {
    pub at: *mut c_void,
}

/// `FY_SHORT`.
pub const SHORT: u32 = 4;
/// `FY_MOST_REPLY`.
pub const MOST_REPLY: usize = 128;
/// `FY_SET_WORDS`.
pub const SET_WORDS: usize = 16;
/// `FY_NOBODY`.
pub const NOBODY: u32 = u32::MAX;
/// `FY_NO_SUCH_RECORD`.
pub const NO_SUCH_RECORD: u32 = u32::MAX;
/// `FY_NOTHING`.
pub const NOTHING: u64 = u64::MAX;
/// `FY_VALUE_BYTES`.
pub const VALUE_BYTES: usize = 33;
/// `FY_NO_BAD_ENTRY`.
pub const NO_BAD_ENTRY: u32 = u32::MAX;
/// `FY_REFUTED`.
pub const REFUTED: u32 = 22;
/// `FY_STATE_UP`.
pub const STATE_UP: u32 = 1;
/// `FY_STATE_CLOGGED`.
pub const STATE_CLOGGED: u32 = 2;
/// `FY_STATE_DESTROYED`.
pub const STATE_DESTROYED: u32 = 4;
/// `FY_STATE_GONE`.
pub const STATE_GONE: u32 = 8;
/// `FY_EVERYONE`.
pub const EVERYONE: u32 = 0;
/// `FY_KINDS_REBOOT_PROCESS`.
pub const KINDS_REBOOT_PROCESS: u32 = 1;
/// `FY_KINDS_REBOOT`.
pub const KINDS_REBOOT: u32 = 2;
/// `FY_KINDS_REBOOT_AND_DELETE`.
pub const KINDS_REBOOT_AND_DELETE: u32 = 4;
/// `FY_KINDS_KILL_INSTANTLY`.
pub const KINDS_KILL_INSTANTLY: u32 = 8;
/// `FY_KINDS_CLOG`.
pub const KINDS_CLOG: u32 = 16;
/// `FY_KINDS_ALL`.
pub const KINDS_ALL: u32 = 31;

extern "C" {
    pub fn fy_version() -> u32;
    pub fn fy_config_fault(
        config: *const u8,
        config_length: usize,
        part: *mut u32,
        place: *mut u64,
    ) -> u32;
    pub fn fy_open(config: *const u8, config_length: usize, guard: *mut FyGuard) -> u32;
    pub fn fy_open_after(
        config: *const u8,
        config_length: usize,
        audit: *const u8,
        audit_length: usize,
        guard: *mut FyGuard,
        first_bad: *mut u32,
    ) -> u32;
    pub fn fy_close(guard: FyGuard);
    pub fn fy_reset(guard: *mut FyGuard) -> u32;
    pub fn fy_try_copy(guard: *const FyGuard, other: *mut FyGuard) -> u32;
    pub fn fy_kill(
        guard: *mut FyGuard,
        actor: u32,
        key: u32,
        value: *const u8,
        value_length: usize,
        kind: u32,
        floor: u32,
        tear: u64,
        struck: *mut u32,
        rule: *mut u32,
        named: *mut u64,
    ) -> u32;
    pub fn fy_judge(
        guard: *const FyGuard,
        actor: u32,
        key: u32,
        value: *const u8,
        value_length: usize,
        kind: u32,
        floor: u32,
        struck: *mut u32,
        rule: *mut u32,
        named: *mut u64,
    ) -> u32;
    pub fn fy_kill_process(
        guard: *mut FyGuard,
        actor: u32,
        process: u32,
        kind: u32,
        floor: u32,
        tear: u64,
        struck: *mut u32,
        rule: *mut u32,
        named: *mut u64,
    ) -> u32;
    pub fn fy_judge_process(
        guard: *const FyGuard,
        actor: u32,
        process: u32,
        kind: u32,
        floor: u32,
        struck: *mut u32,
        rule: *mut u32,
        named: *mut u64,
    ) -> u32;
    pub fn fy_killable(
        guard: *const FyGuard,
        actor: u32,
        kinds: *mut u8,
        room: usize,
        told: *mut usize,
    ) -> u32;
    pub fn fy_up(guard: *mut FyGuard, actor: u32, process: u32, refusal: *mut u32) -> u32;
    pub fn fy_heal(guard: *mut FyGuard, actor: u32, process: u32, refusal: *mut u32) -> u32;
    pub fn fy_clog(
        guard: *mut FyGuard,
        actor: u32,
        key: u32,
        value: *const u8,
        value_length: usize,
        ticks: u64,
        reply: *mut FyReply,
    ) -> u32;
    pub fn fy_unclog(
        guard: *mut FyGuard,
        actor: u32,
        key: u32,
        value: *const u8,
        value_length: usize,
        reply: *mut FyReply,
    ) -> u32;
    pub fn fy_form(
        guard: *mut FyGuard,
        actor: u32,
        members: *const u32,
        count: usize,
        policy: u32,
        reply: *mut FyReply,
    ) -> u32;
    pub fn fy_begin(
        guard: *mut FyGuard,
        actor: u32,
        team: u32,
        payload: *const u8,
        payload_length: usize,
        reply: *mut FyReply,
    ) -> u32;
    pub fn fy_deliver(guard: *mut FyGuard, actor: u32, message: u64, reply: *mut FyReply) -> u32;
    pub fn fy_lose(guard: *mut FyGuard, actor: u32, message: u64, reply: *mut FyReply) -> u32;
    pub fn fy_resend(
        guard: *mut FyGuard,
        actor: u32,
        record: u32,
        process: u32,
        reply: *mut FyReply,
    ) -> u32;
    pub fn fy_sync(guard: *mut FyGuard, actor: u32, process: u32, reply: *mut FyReply) -> u32;
    pub fn fy_tick(guard: *mut FyGuard, actor: u32, ticks: u64, reply: *mut FyReply) -> u32;
    pub fn fy_give(
        guard: *mut FyGuard,
        actor: u32,
        to: u32,
        kinds: u32,
        key: u32,
        value: *const u8,
        value_length: usize,
        reply: *mut FyReply,
    ) -> u32;
    pub fn fy_take(
        guard: *mut FyGuard,
        actor: u32,
        from: u32,
        index: u32,
        reply: *mut FyReply,
    ) -> u32;
    pub fn fy_protect(
        guard: *mut FyGuard,
        actor: u32,
        process: u32,
        kinds: u32,
        reply: *mut FyReply,
    ) -> u32;
    pub fn fy_unprotect(
        guard: *mut FyGuard,
        actor: u32,
        process: u32,
        kinds: u32,
        reply: *mut FyReply,
    ) -> u32;
    pub fn fy_copy(
        guard: *mut FyGuard,
        actor: u32,
        from: u32,
        record: u32,
        to: u32,
        reply: *mut FyReply,
    ) -> u32;
    pub fn fy_replace(
        guard: *mut FyGuard,
        actor: u32,
        team: u32,
        out: u32,
        into: u32,
        reply: *mut FyReply,
    ) -> u32;
    pub fn fy_act(
        guard: *mut FyGuard,
        line: *const u8,
        line_length: usize,
        buffer: *mut u8,
        buffer_length: usize,
        told: *mut usize,
    ) -> u32;
    pub fn fy_ask(
        guard: *const FyGuard,
        line: *const u8,
        line_length: usize,
        buffer: *mut u8,
        buffer_length: usize,
        told: *mut usize,
    ) -> u32;
    pub fn fy_process(guard: *const FyGuard, name: *const u8, name_length: usize) -> u32;
    pub fn fy_process_count(guard: *const FyGuard) -> u32;
    pub fn fy_targets(
        guard: *const FyGuard,
        key: u32,
        value: *const u8,
        value_length: usize,
        set: *mut u64,
        words: usize,
    ) -> u32;
    pub fn fy_is_destroyed(guard: *const FyGuard, process: u32) -> u32;
    pub fn fy_left(guard: *const FyGuard, set: *mut u64, words: usize);
    pub fn fy_up_set(guard: *const FyGuard, set: *mut u64, words: usize);
    pub fn fy_state(guard: *const FyGuard, process: u32) -> u32;
    pub fn fy_needed(guard: *const FyGuard, process: u32) -> u32;
    pub fn fy_destroyed_set(guard: *const FyGuard, set: *mut u64, words: usize);
    pub fn fy_gone_set(guard: *const FyGuard, set: *mut u64, words: usize);
    pub fn fy_is_acked(guard: *const FyGuard, record: u32) -> u32;
    pub fn fy_keeper(guard: *const FyGuard, record: u32) -> u32;
    pub fn fy_sight(guard: *const FyGuard, seen: *mut FySeen);
    pub fn fy_bears(guard: *const FyGuard, borne: *mut FyBorne) -> u32;
    pub fn fy_journal_len(guard: *const FyGuard) -> usize;
    pub fn fy_audit(
        guard: *const FyGuard,
        at: usize,
        buffer: *mut u8,
        buffer_length: usize,
        told: *mut usize,
    ) -> u32;
    pub fn fy_words(seed: u64, stream: u64, words: *mut u32, count: usize) -> u32;
    pub fn fy_swizzle_plan(
        guard: *const FyGuard,
        seed: u64,
        stream: u64,
        ticks: u64,
        orders: *mut FyOrder,
        room: usize,
        told: *mut usize,
    ) -> u32;
    pub fn fy_plan_orders(
        guard: *const FyGuard,
        plan: u32,
        seed: u64,
        actor: u32,
        orders: *mut FyOrder,
        count: usize,
    ) -> u32;
    pub fn fy_attrition_plan(
        guard: *const FyGuard,
        seed: u64,
        stream: u64,
        to_kill: u32,
        to_leave: u32,
        kind: u32,
        floor: u32,
        tear: u64,
        orders: *mut FyOrder,
        room: usize,
        told: *mut usize,
    ) -> u32;
    pub fn fy_begin_check(config: *const u8, config_length: usize, check: *mut FyCheck) -> u32;
    pub fn fy_end_check(check: FyCheck);
    pub fn fy_read_line(
        check: *mut FyCheck,
        line: *const u8,
        line_length: usize,
        first_bad: *mut u32,
    ) -> u32;
    pub fn fy_finding(check: *const FyCheck, count: *mut u32, first_bad: *mut u32) -> u32;
}
