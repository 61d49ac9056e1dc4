//! The static library `register_c` as C sees it: its structs, its functions, and a safe function for each one that takes a slice.
//! The only `unsafe` of this package is here. What the functions do is proved; that these declarations are those of
//! `crates/register_c` is not, and the sizes and places below and the differential test stand for it.
#![allow(unsafe_code)]

use core::mem::{offset_of, size_of};

/// A day and the minutes elapsed since its local midnight.
#[repr(C)]
#[derive(Clone, Copy, PartialEq, Eq)]
pub struct Clock {
    pub day: u32,
    pub minute: u32,
}

/// A code and a contract.
#[repr(C)]
#[derive(Clone, Copy, PartialEq, Eq)]
pub struct Actor {
    pub code: [u8; 16],
    pub first: u32,
    pub last: u32,
}

#[repr(C)]
#[derive(Clone, Copy, PartialEq, Eq)]
pub struct Actors {
    pub count: u32,
    pub entries: [Actor; 8],
}

/// Five digits, then C or 0.
#[repr(C)]
#[derive(Clone, Copy, PartialEq, Eq)]
pub struct Category {
    pub text: [u8; 6],
}

#[repr(C)]
#[derive(Clone, Copy, PartialEq, Eq)]
pub struct Categories {
    pub count: u32,
    pub entries: [Category; 4],
}

/// The part of a register that goes by value: the clock, who is enrolled, and how many loads and records there are. C places an
/// argument of this size at a multiple of 8 anyway; said here, it is copied by eight bytes.
#[repr(C, align(8))]
#[derive(Clone, Copy, PartialEq, Eq)]
pub struct Head {
    pub clock: Clock,
    pub actors: Actors,
    pub categories: Categories,
    pub loads: u32,
    pub records: u32,
}

/// The columns that are lent, of the records: status, id, key, mark and powers.
pub type Statuses = [u8; 256];
pub type Ids = [u32; 256];
pub type Keys = [u32; 256];
pub type Marks = [[u8; 4]; 256];
pub type Rows = [[u16; 50]; 256];
/// And of the loads: number, approved power and powers.
pub type Numbers = [u32; 64];
pub type Approved = [u16; 64];
pub type LoadRows = [[u16; 50]; 64];

/// The register: its head and its columns, in the order of C's `register_state`.
#[repr(C)]
#[derive(Clone, PartialEq, Eq)]
pub struct State {
    pub head: Head,
    pub statuses: Statuses,
    pub ids: Ids,
    pub keys: Keys,
    pub marks: Marks,
    pub rows: Rows,
    pub numbers: Numbers,
    pub approved: Approved,
    pub loads: LoadRows,
}

/// A fresh register's head, and the statuses and ids of its records.
#[repr(C)]
pub struct Fresh {
    pub head: Head,
    pub statuses: Statuses,
    pub ids: Ids,
}

/// Number and place of the refusal, 0 and 0 where there is none; how many values there are, which of them is a status's letter (3: none),
/// and the values.
#[repr(C)]
#[derive(Clone, Copy)]
pub struct Said {
    pub number: u32,
    pub place: u32,
    pub count: u32,
    pub letter: u32,
    pub values: [u32; 3],
}

/// The head that a call leaves, and what it says.
#[repr(C)]
pub struct Turn {
    pub head: Head,
    pub said: Said,
}

/// A record that was asked for; zeros beside a refusal.
#[repr(C)]
pub struct RecordShown {
    pub number: u32,
    pub place: u32,
    pub day: u32,
    pub steps: u32,
    pub from: u32,
    pub until: u32,
    pub powers: [u16; 50],
    pub submitter: [u8; 16],
    pub ceder: [u8; 16],
    pub acquirer: [u8; 16],
    pub category: [u8; 6],
    pub status: u8,
}

/// A notification file that was read; zeros beside a refusal.
#[repr(C)]
pub struct FileRead {
    pub number: u32,
    pub place: u32,
    pub day: u32,
    pub steps: u32,
    pub powers: [u16; 50],
    pub ceder: [u8; 16],
    pub acquirer: [u8; 16],
    pub category: [u8; 6],
}

/// A file being read, its body in pieces: of the name the day, its steps and the header's line; of the body how many bytes came, what its
/// whole lines have shown, the powers, and at most 64 bytes of the line in hand. Placed at a multiple of 8 as the head is.
#[repr(C, align(8))]
#[derive(Clone, Copy)]
pub struct FileReader {
    pub day: u32,
    pub steps: u32,
    pub named: u32,
    pub length: u32,
    pub header: u32,
    pub lines: u32,
    pub fault: u32,
    pub place: u32,
    pub powers: [u16; 50],
    pub held: u32,
    pub line: [u8; 64],
    pub text: [u8; 51],
}

/// Number and place of the refusal, 0 and 0 where there is none; then the lengths of name and body.
#[repr(C)]
pub struct FileWritten {
    pub number: u32,
    pub place: u32,
    pub name: usize,
    pub body: usize,
}

/// The object of a request that was read: refusal and notification as of a file, day and second of the submission, and the origin; zeros
/// beside a refusal.
#[repr(C)]
pub struct ObjectRead {
    pub read: FileRead,
    pub day: u32,
    pub second: u32,
    pub origin: [u8; 16],
}

/// Number and place of the refusal, 0 and 0 where there is none; then the length of the object.
#[repr(C)]
pub struct ObjectWritten {
    pub number: u32,
    pub place: u32,
    pub length: usize,
}

/// The eight digits of a date.
#[repr(C)]
pub struct DateText {
    pub digits: [u8; 8],
}

// Sizes and places as c/register.h asserts them too: a field that is moved on one side alone is found when either is compiled.
const _: () = {
    assert!(size_of::<Clock>() == 8 && size_of::<Actor>() == 24 && size_of::<Actors>() == 196);
    assert!(size_of::<Category>() == 6 && size_of::<Categories>() == 28);
    assert!(size_of::<Head>() == 240 && offset_of!(Head, actors) == 8 && offset_of!(Head, categories) == 204);
    assert!(offset_of!(Head, loads) == 232 && offset_of!(Head, records) == 236);
    assert!(size_of::<State>() == 35952 && offset_of!(State, statuses) == 240 && offset_of!(State, ids) == 496);
    assert!(offset_of!(State, keys) == 1520 && offset_of!(State, marks) == 2544 && offset_of!(State, rows) == 3568);
    assert!(offset_of!(State, numbers) == 29168 && offset_of!(State, approved) == 29424);
    assert!(offset_of!(State, loads) == 29552);
    assert!(size_of::<Fresh>() == 1520 && offset_of!(Fresh, statuses) == 240 && offset_of!(Fresh, ids) == 496);
    assert!(size_of::<Said>() == 28 && offset_of!(Said, values) == 16);
    // C's struct ends with `said`, at 268; here four bytes more follow it, which nobody writes.
    assert!(size_of::<Turn>() == 272 && offset_of!(Turn, said) == 240);
    assert!(size_of::<RecordShown>() == 180 && offset_of!(RecordShown, powers) == 24);
    assert!(offset_of!(RecordShown, submitter) == 124 && offset_of!(RecordShown, ceder) == 140);
    assert!(offset_of!(RecordShown, acquirer) == 156 && offset_of!(RecordShown, category) == 172);
    assert!(offset_of!(RecordShown, status) == 178);
    assert!(size_of::<FileRead>() == 156 && offset_of!(FileRead, powers) == 16 && offset_of!(FileRead, ceder) == 116);
    assert!(offset_of!(FileRead, acquirer) == 132 && offset_of!(FileRead, category) == 148);
    // C's struct has 252 bytes; here four more follow, which nobody writes.
    assert!(
        size_of::<FileReader>() == 256 && offset_of!(FileReader, header) == 16 && offset_of!(FileReader, powers) == 32
    );
    assert!(
        offset_of!(FileReader, held) == 132
            && offset_of!(FileReader, line) == 136
            && offset_of!(FileReader, text) == 200
    );
    assert!(size_of::<FileWritten>() == 8 + 2 * size_of::<usize>() && offset_of!(FileWritten, name) == 8);
    assert!(size_of::<ObjectRead>() == 180 && offset_of!(ObjectRead, day) == 156);
    assert!(offset_of!(ObjectRead, second) == 160 && offset_of!(ObjectRead, origin) == 164);
    assert!(size_of::<ObjectWritten>() == 8 + size_of::<usize>() && offset_of!(ObjectWritten, length) == 8);
    assert!(size_of::<DateText>() == 8);
};

// SAFETY: these are the functions of crates/register_c/src with their types. A reference to an array is one pointer there, a
// slice a pointer and a length. The `safe` ones take no slice, so that every argument that Rust lets pass is a good one: they are
// total, and write nothing but their result and what they are lent as `&mut`.
unsafe extern "C" {
    pub safe fn register_head_fresh() -> Fresh;
    fn register_head_enrol_actor(head: Head, code: *const u8, code_len: usize, first: u32, last: u32) -> Turn;
    fn register_head_enrol_category(head: Head, text: *const u8, text_len: usize) -> Turn;
    fn register_head_load(
        head: Head, numbers: &mut Numbers, approved: &mut Approved, loads: &mut LoadRows, actor: *const u8,
        actor_len: usize, category: *const u8, category_len: usize, day: u32, most: u32, powers: *const u32,
        powers_len: usize,
    ) -> Turn;
    fn register_head_file(
        head: Head, statuses: &mut Statuses, ids: &mut Ids, keys: &mut Keys, marks: &mut Marks, rows: &mut Rows,
        numbers: &Numbers, approved: &Approved, loads: &LoadRows, submitter: *const u8, submitter_len: usize,
        name: *const u8, name_len: usize, body: *const u8, body_len: usize,
    ) -> Turn;
    fn register_head_file_object(
        head: Head, statuses: &mut Statuses, ids: &mut Ids, keys: &mut Keys, marks: &mut Marks, rows: &mut Rows,
        numbers: &Numbers, approved: &Approved, loads: &LoadRows, submitter: *const u8, submitter_len: usize,
        body: *const u8, body_len: usize,
    ) -> Turn;
    pub safe fn register_head_advance(head: Head, day: u32, minute: u32) -> Turn;
    fn register_head_engagement(
        head: Head, statuses: &Statuses, keys: &Keys, marks: &Marks, rows: &Rows, numbers: &Numbers, loads: &LoadRows,
        actor: *const u8, actor_len: usize, category: *const u8, category_len: usize, day: u32, step: u32,
    ) -> Said;
    fn register_head_record(
        head: Head, statuses: &Statuses, ids: &Ids, keys: &Keys, marks: &Marks, rows: &Rows, asker: *const u8,
        asker_len: usize, id: u32,
    ) -> RecordShown;
    fn register_head_history(
        head: Head, ids: &Ids, keys: &Keys, actor: *const u8, actor_len: usize, out: *mut u32, out_len: usize,
    ) -> Said;
    fn notification_read(name: *const u8, name_len: usize, body: *const u8, body_len: usize) -> FileRead;
    fn notification_begin(name: *const u8, name_len: usize) -> FileReader;
    fn notification_feed(reader: FileReader, piece: *const u8, piece_len: usize) -> FileReader;
    pub safe fn notification_end(reader: FileReader) -> FileRead;
    fn notification_write(n: FileRead, name: *mut u8, name_len: usize, body: *mut u8, body_len: usize) -> FileWritten;
    fn register_object_read(body: *const u8, body_len: usize) -> ObjectRead;
    fn register_object_write(x: ObjectRead, buffer: *mut u8, buffer_len: usize) -> ObjectWritten;
    fn calendar_day(date: *const u8, date_len: usize) -> u32;
    pub safe fn calendar_date(day: u32) -> DateText;
    pub safe fn calendar_steps(day: u32) -> u32;
}

#[inline]
pub fn enrol_actor(r: &State, code: &[u8], first: u32, last: u32) -> Turn {
    // SAFETY: the pointer and the length are those of one slice, which lives past the call and is only read.
    unsafe { register_head_enrol_actor(r.head, code.as_ptr(), code.len(), first, last) }
}

#[inline]
pub fn enrol_category(r: &State, text: &[u8]) -> Turn {
    // SAFETY: the pointer and the length are those of one slice, which lives past the call and is only read.
    unsafe { register_head_enrol_category(r.head, text.as_ptr(), text.len()) }
}

#[inline]
pub fn load(r: &mut State, actor: &[u8], category: &[u8], day: u32, most: u32, powers: &[u32]) -> Turn {
    // SAFETY: each pointer stands with the length of its own slice; the slices live past the call and are only read. The columns are
    // borrowed alone.
    unsafe {
        register_head_load(
            r.head,
            &mut r.numbers,
            &mut r.approved,
            &mut r.loads,
            actor.as_ptr(),
            actor.len(),
            category.as_ptr(),
            category.len(),
            day,
            most,
            powers.as_ptr(),
            powers.len(),
        )
    }
}

#[inline]
pub fn file(r: &mut State, submitter: &[u8], name: &[u8], body: &[u8]) -> Turn {
    // SAFETY: each pointer stands with the length of its own slice; the slices live past the call and are only read. The columns are
    // borrowed alone.
    unsafe {
        register_head_file(
            r.head,
            &mut r.statuses,
            &mut r.ids,
            &mut r.keys,
            &mut r.marks,
            &mut r.rows,
            &r.numbers,
            &r.approved,
            &r.loads,
            submitter.as_ptr(),
            submitter.len(),
            name.as_ptr(),
            name.len(),
            body.as_ptr(),
            body.len(),
        )
    }
}

#[inline]
pub fn file_object(r: &mut State, submitter: &[u8], body: &[u8]) -> Turn {
    // SAFETY: each pointer stands with the length of its own slice; the slices live past the call and are only read. The columns are
    // borrowed alone.
    unsafe {
        register_head_file_object(
            r.head,
            &mut r.statuses,
            &mut r.ids,
            &mut r.keys,
            &mut r.marks,
            &mut r.rows,
            &r.numbers,
            &r.approved,
            &r.loads,
            submitter.as_ptr(),
            submitter.len(),
            body.as_ptr(),
            body.len(),
        )
    }
}

#[inline]
pub fn engagement(r: &State, actor: &[u8], category: &[u8], day: u32, step: u32) -> Said {
    // SAFETY: each pointer stands with the length of its own slice; the slices live past the call and are only read.
    unsafe {
        register_head_engagement(
            r.head,
            &r.statuses,
            &r.keys,
            &r.marks,
            &r.rows,
            &r.numbers,
            &r.loads,
            actor.as_ptr(),
            actor.len(),
            category.as_ptr(),
            category.len(),
            day,
            step,
        )
    }
}

#[inline]
pub fn record(r: &State, asker: &[u8], id: u32) -> RecordShown {
    let State { head, statuses, ids, keys, marks, rows, .. } = r;
    // SAFETY: the pointer and the length are those of one slice, which lives past the call and is only read.
    unsafe { register_head_record(*head, statuses, ids, keys, marks, rows, asker.as_ptr(), asker.len(), id) }
}

#[inline]
pub fn history(r: &State, actor: &[u8], out: &mut [u32]) -> Said {
    // SAFETY: each pointer stands with the length of its own slice; both live past the call, `actor` is only read and `out` is borrowed
    // alone.
    unsafe { register_head_history(r.head, &r.ids, &r.keys, actor.as_ptr(), actor.len(), out.as_mut_ptr(), out.len()) }
}

#[inline]
pub fn read(name: &[u8], body: &[u8]) -> FileRead {
    // SAFETY: each pointer stands with the length of its own slice; the slices live past the call and are only read.
    unsafe { notification_read(name.as_ptr(), name.len(), body.as_ptr(), body.len()) }
}

#[inline]
pub fn begin(name: &[u8]) -> FileReader {
    // SAFETY: the pointer and the length are those of one slice, which lives past the call and is only read.
    unsafe { notification_begin(name.as_ptr(), name.len()) }
}

#[inline]
pub fn feed(reader: FileReader, piece: &[u8]) -> FileReader {
    // SAFETY: the pointer and the length are those of one slice, which lives past the call and is only read.
    unsafe { notification_feed(reader, piece.as_ptr(), piece.len()) }
}

#[inline]
pub fn write(n: FileRead, name: &mut [u8], body: &mut [u8]) -> FileWritten {
    // SAFETY: each pointer stands with the length of its own slice; both live past the call and are borrowed alone.
    unsafe { notification_write(n, name.as_mut_ptr(), name.len(), body.as_mut_ptr(), body.len()) }
}

#[inline]
pub fn read_object(body: &[u8]) -> ObjectRead {
    // SAFETY: the pointer and the length are those of one slice, which lives past the call and is only read.
    unsafe { register_object_read(body.as_ptr(), body.len()) }
}

#[inline]
pub fn write_object(x: ObjectRead, buffer: &mut [u8]) -> ObjectWritten {
    // SAFETY: the pointer and the length are those of one slice, which lives past the call and is borrowed alone.
    unsafe { register_object_write(x, buffer.as_mut_ptr(), buffer.len()) }
}

#[inline]
pub fn day_of(date: &[u8]) -> u32 {
    // SAFETY: the pointer and the length are those of one slice, which lives past the call and is only read.
    unsafe { calendar_day(date.as_ptr(), date.len()) }
}
