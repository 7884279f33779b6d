//! The exports of the library, each on a line as `textmodel.h` declares it; `tests/header.rs` compares the two.
//!
//! Each pointer leads to as many elements as the length behind it says, and is not null. A place that is written
//! overlaps no other that the call is given.

use std::ffi::c_void;
use std::ptr::null_mut;

pub const OK: u32 = 0;
pub const NOTHING: u32 = 1;
pub const UNKNOWN: u32 = 2;
pub const RANGE: u32 = 3;
pub const OVERLAP: u32 = 4;
pub const LIMIT: u32 = 5;
pub const MEMORY: u32 = 6;
pub const SHORT: u32 = 9;
pub const JOINT: u32 = 10;
pub const GAP: u32 = 11;

/// What the inline functions of the header tell of a refused call. This crate keeps it in places of its own.
#[repr(C)]
pub struct Fault {
    pub index: u64,
    pub doc: u64,
    pub have: u64,
    pub need: u64,
}

#[repr(C)]
pub struct Session {
    pub at: *mut c_void,
    pub fault: Fault,
}

impl Session {
    /// All zeros, as a session begins.
    pub const EMPTY: Session = Session { at: null_mut(), fault: Fault { index: 0, doc: 0, have: 0, need: 0 } };
}

#[repr(C)]
#[derive(Clone, Copy, Default)]
pub struct Place {
    pub line: u64,
    pub column: u64,
}

#[repr(C)]
#[derive(Clone, Copy)]
pub struct Op {
    pub doc: u64,
    pub start: u64,
    pub end: u64,
    pub units: u64,
    pub force: bool,
}

#[repr(C)]
#[derive(Clone, Copy, Default)]
pub struct Change {
    pub start: u64,
    pub end: u64,
    pub units: u64,
}

#[repr(C)]
#[derive(Clone, Copy, Default)]
pub struct Followed {
    pub version: u64,
    pub units: u64,
    pub lines: u64,
}

#[repr(C)]
#[derive(Clone, Copy, Debug)]
pub struct Pair {
    pub opening: u64,
    pub closing: u64,
}

#[repr(C)]
#[derive(Clone, Copy)]
pub struct NewDecoration {
    pub start: u64,
    pub end: u64,
    pub stick: u64,
    pub collapse: bool,
}

#[repr(C)]
#[derive(Clone, Copy, Default)]
pub struct Decoration {
    pub id: u64,
    pub owner: u64,
    pub start: u64,
    pub end: u64,
    pub stick: u64,
    pub collapse: bool,
}

#[repr(C)]
#[derive(Clone, Copy, Default)]
pub struct Found {
    pub start: u64,
    pub end: u64,
}

#[repr(C)]
#[derive(Clone, Copy, Default)]
pub struct Bracket {
    pub line: u64,
    pub column: u64,
    pub length: u64,
    pub kind: u64,
    pub level: u64,
    pub state: u32,
}

#[repr(C)]
#[derive(Clone, Copy, Default)]
pub struct Partner {
    pub line: u64,
    pub column: u64,
    pub length: u64,
}

#[rustfmt::skip]
extern "C" {
    pub fn tm_make(session: *mut Session) -> u32;
    pub fn tm_free(session: *mut Session) -> u32;
    pub fn tm_version() -> u32;
    pub fn tm_stop(session: *mut Session, doc: u64) -> u32;
    pub fn tm_can_undo(session: *mut Session, doc: u64) -> u32;
    pub fn tm_can_redo(session: *mut Session, doc: u64) -> u32;
    pub fn tm_set_eol(session: *mut Session, doc: u64, kind: u32) -> u32;
    pub fn tm_kind(session: *mut Session, doc: u64, kind: *mut u32) -> u32;
    pub fn tm_len(session: *mut Session, doc: u64, len: *mut u64) -> u32;
    pub fn tm_line_count(session: *mut Session, doc: u64, count: *mut u64) -> u32;
    pub fn tm_versions(session: *mut Session, doc: u64, version: *mut u64, alternative: *mut u64) -> u32;
    pub fn tm_position(session: *mut Session, doc: u64, offset: u64, encoding: u32, place: *mut Place) -> u32;
    pub fn tm_offset(session: *mut Session, doc: u64, line: u64, column: u64, encoding: u32, offset: *mut u64) -> u32;
    pub fn tm_deco(session: *mut Session, doc: u64, id: u64, decoration: *mut Decoration) -> u32;
    pub fn tm_match(session: *mut Session, doc: u64, line: u64, column: u64, encoding: u32, partner: *mut Partner) -> u32;
    pub fn tm_level(session: *mut Session, doc: u64, line: u64, column: u64, encoding: u32, level: *mut u64) -> u32;
    pub fn tm_next_change(session: *mut Session, doc: u64, change: *mut Change) -> u32;
    pub fn tm_mirror(session: *mut Session, doc: u64, version: *mut u64) -> u32;
    pub fn tm_send(session: *mut Session, doc: u64, number: *mut u64, from: *mut u64) -> u32;
    pub fn tm_mirror_now(session: *mut Session, doc: u64, followed: *mut Followed) -> u32;
    pub fn tm_snapshot(session: *mut Session, doc: u64, id: *mut u64) -> u32;
    pub fn tm_close(session: *mut Session, doc: u64, id: u64) -> u32;
    pub fn tm_raw_open(session: *mut Session, doc: u64, kind: u32, text: *const u16, text_len: usize, pairs: *const Pair, pairs_len: usize, brackets: *const u16, brackets_len: usize, line: u64, opening: u64, closing: u64, marks: *const u16, marks_len: usize) -> u32;
    pub fn tm_raw_open_utf8(session: *mut Session, doc: u64, kind: u32, text: *const u8, text_len: usize, pairs: *const Pair, pairs_len: usize, brackets: *const u16, brackets_len: usize, line: u64, opening: u64, closing: u64, marks: *const u16, marks_len: usize, bad: *mut u64) -> u32;
    pub fn tm_raw_edit(session: *mut Session, doc: u64, start: u64, end: u64, text: *const u16, text_len: usize) -> u32;
    pub fn tm_raw_edit_utf8(session: *mut Session, doc: u64, start: u64, end: u64, text: *const u8, text_len: usize, bad: *mut u64) -> u32;
    pub fn tm_raw_edit_at(session: *mut Session, doc: u64, line: u64, column: u64, end_line: u64, end_column: u64, encoding: u32, text: *const u16, text_len: usize) -> u32;
    pub fn tm_raw_edit_at_utf8(session: *mut Session, doc: u64, line: u64, column: u64, end_line: u64, end_column: u64, encoding: u32, text: *const u8, text_len: usize, bad: *mut u64) -> u32;
    pub fn tm_raw_joint(session: *mut Session, ops: *const Op, ops_len: usize, text: *const u16, text_len: usize) -> u32;
    pub fn tm_raw_joint_utf8(session: *mut Session, ops: *const Op, ops_len: usize, text: *const u8, text_len: usize, bad: *mut u64) -> u32;
    pub fn tm_raw_joint_fault(session: *mut Session, ops: *const Op, ops_len: usize, left: u64, why: u32, index: *mut u64) -> u32;
    pub fn tm_raw_undo(session: *mut Session, doc: u64, other: *mut u64) -> u32;
    pub fn tm_raw_redo(session: *mut Session, doc: u64, other: *mut u64) -> u32;
    pub fn tm_raw_value(session: *mut Session, doc: u64, start: u64, end: u64, out: *mut u16, out_len: usize, count: *mut u64) -> u32;
    pub fn tm_raw_value_utf8(session: *mut Session, doc: u64, start: u64, end: u64, out: *mut u8, out_len: usize, count: *mut u64) -> u32;
    pub fn tm_raw_line(session: *mut Session, doc: u64, n: u64, out: *mut u16, out_len: usize, count: *mut u64) -> u32;
    pub fn tm_raw_line_utf8(session: *mut Session, doc: u64, n: u64, out: *mut u8, out_len: usize, count: *mut u64) -> u32;
    pub fn tm_raw_read_into(session: *mut Session, doc: u64, offset: u64, out: *mut u16, out_len: usize, count: *mut u64) -> u32;
    pub fn tm_raw_read_into_utf8(session: *mut Session, doc: u64, offset: *mut u64, out: *mut u8, out_len: usize, count: *mut u64) -> u32;
    pub fn tm_raw_stops(session: *mut Session, doc: u64, n: u64, encoding: u32, out: *mut u64, out_len: usize, count: *mut u64) -> u32;
    pub fn tm_raw_find(session: *mut Session, doc: u64, sought: *const u16, sought_len: usize, from: u64, back: bool, most: u64, out: *mut Found, out_len: usize, count: *mut u64) -> u32;
    pub fn tm_raw_find_utf8(session: *mut Session, doc: u64, sought: *const u8, sought_len: usize, from: u64, back: bool, most: u64, out: *mut Found, out_len: usize, count: *mut u64, bad: *mut u64) -> u32;
    pub fn tm_raw_replace_all(session: *mut Session, doc: u64, sought: *const u16, sought_len: usize, with: *const u16, with_len: usize, count: *mut u64) -> u32;
    pub fn tm_raw_replace_all_utf8(session: *mut Session, doc: u64, sought: *const u8, sought_len: usize, with: *const u8, with_len: usize, count: *mut u64, bad: *mut u64) -> u32;
    pub fn tm_raw_decorate(session: *mut Session, doc: u64, owner: u64, remove: *const u64, remove_len: usize, add: *const NewDecoration, add_len: usize, first: *mut u64) -> u32;
    pub fn tm_raw_decorate_fault(session: *mut Session, doc: u64, owner: u64, remove: *const u64, remove_len: usize, add: *const NewDecoration, add_len: usize, why: u32, index: *mut u64) -> u32;
    pub fn tm_raw_decos(session: *mut Session, doc: u64, start: u64, end: u64, owner: u64, any: bool, out: *mut Decoration, out_len: usize, count: *mut u64) -> u32;
    pub fn tm_raw_brackets(session: *mut Session, doc: u64, from: u64, to: u64, encoding: u32, out: *mut Bracket, out_len: usize, count: *mut u64) -> u32;
    pub fn tm_raw_read(session: *mut Session, doc: u64, id: u64, out: *mut u16, out_len: usize, count: *mut u64) -> u32;
    pub fn tm_raw_read_utf8(session: *mut Session, doc: u64, id: u64, out: *mut u8, out_len: usize, count: *mut u64) -> u32;
    pub fn tm_raw_change_text(session: *mut Session, out: *mut u16, out_len: usize, count: *mut u64) -> u32;
    pub fn tm_raw_change_text_utf8(session: *mut Session, out: *mut u8, out_len: usize, count: *mut u64) -> u32;
    pub fn tm_raw_deliver(session: *mut Session, doc: u64, number: u64, followed: *mut Followed, have: *mut u64, need: *mut u64) -> u32;
    pub fn tm_raw_mirrored(session: *mut Session, doc: u64, n: u64, out: *mut u16, out_len: usize, count: *mut u64) -> u32;
    pub fn tm_raw_mirrored_utf8(session: *mut Session, doc: u64, n: u64, out: *mut u8, out_len: usize, count: *mut u64) -> u32;
    pub fn tm_raw_answer(session: *mut Session, line: *const u8, line_len: usize, len: *mut u64) -> u32;
    pub fn tm_raw_reply(session: *mut Session, from: u64, out: *mut u8, out_len: usize, count: *mut u64) -> u32;
}
