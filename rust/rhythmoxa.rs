//! Rhythmoxa for Rust 1.82 or newer: a thin, safe form of the calls in include/rhythmoxa.h. One file, no crates.
//!
//! Take it in by `mod rhythmoxa;`, and link the archive that `tools/archive` makes (x86-64 Linux):
//! `rustc main.rs -L target/staticlib`.
//!
//! What the calls promise is proved of the archive (crates/rhythmoxa/specs/Calls.antt). That the archive is called as its proofs
//! assume is what Rust's borrows give: a slice is memory that is there, aligned and filled, and a `&mut` one overlaps no other.
//! What is left to believe is this file: that it passes each slice's pointer and length, and reads each number at its place.
#![allow(dead_code)]

/// Bytes of the longest table: a result buffer of this size is never too short.
pub const TABLE_BYTES: usize = 24_588;
/// 16-bit numbers in the longest list of moves, three a move.
pub const LIST_NUMBERS: usize = 12_288;
/// 16-bit numbers that check and watchdog ask for.
pub const WORK16_NUMBERS: usize = 32_768;
/// 64-bit numbers that check and watchdog ask for.
pub const WORK64_NUMBERS: usize = 128;
/// Bytes of the longest trace that a check reports: with a trace buffer of this size, 14 never comes.
pub const TRACE_BYTES: usize = 16_384;

/// The modes of a check.
pub const TRACES: u16 = 0;
pub const FAILURES: u16 = 1;

/// Whose a refusal is. A join's first table counts as the rule, its second as the flow; a table alone counts as the rule.
#[derive(Clone, Copy, Debug, PartialEq, Eq)]
pub enum Whose {
    Call,
    Rule,
    Flow,
}

/// Why a call is refused: one of the numbers 1 to 19 of include/rhythmoxa.h, and whose it is. What the call would have written,
/// other than workspaces, is then untouched.
#[derive(Clone, Copy, Debug, PartialEq, Eq)]
pub struct Refusal {
    pub whose: Whose,
    pub number: u8,
}

/// What stands in a table's header.
#[derive(Clone, Copy, Debug, PartialEq, Eq)]
pub struct Table {
    pub states: u16,
    pub events: u16,
    pub start: u16,
    pub moves: usize,
}

/// What a check finds. The trace of a fault stands in the trace buffer, one byte an event.
#[derive(Clone, Copy, Debug, PartialEq, Eq)]
pub enum Verdict {
    /// The counts of nodes, and of pairs (node, flow state) met by some trace.
    Passes {
        nodes: usize,
        pairs: usize,
    },
    TraceFault {
        length: usize,
    },
    /// The offers: event e as 2 to the power e.
    RefusalFault {
        length: usize,
        offers: u64,
    },
}

// The eight numbers of an answer, and the places of its kind, of a refusal and of the values.
type Numbers = [u64; 8];
const KIND: usize = 0;
const WHOSE: usize = 1;
const NUMBER: usize = 2;
const VALUES: usize = 3;

#[link(name = "rhythmoxa", kind = "static")]
unsafe extern "C" {
    fn rhx_read(table: *const u8, table_len: usize, list: *mut u16, list_len: usize, answer: *mut Numbers);
    fn rhx_write(
        n: u16,
        e: u16,
        start: u16,
        list: *const u16,
        list_len: usize,
        out: *mut u8,
        out_len: usize,
        answer: *mut Numbers,
    );
    fn rhx_moves_of(table: *const u8, table_len: usize, state: u16, answer: *mut Numbers);
    fn rhx_check(
        rule: *const u8,
        rule_len: usize,
        flow: *const u8,
        flow_len: usize,
        mode: u16,
        work16: *mut u16,
        work16_len: usize,
        work64: *mut u64,
        work64_len: usize,
        trace: *mut u8,
        trace_len: usize,
        answer: *mut Numbers,
    );
    fn rhx_check_short(
        rule: *const u8,
        rule_len: usize,
        flow: *const u8,
        flow_len: usize,
        work16: *mut u16,
        work16_len: usize,
        work64: *mut u64,
        work64_len: usize,
        trace: *mut u8,
        trace_len: usize,
        answer: *mut Numbers,
    );
    fn rhx_join(
        first: *const u8,
        first_len: usize,
        second: *const u8,
        second_len: usize,
        set: u64,
        out: *mut u8,
        out_len: usize,
        answer: *mut Numbers,
    );
    fn rhx_watchdog(
        rule: *const u8,
        rule_len: usize,
        work16: *mut u16,
        work16_len: usize,
        work64: *mut u64,
        work64_len: usize,
        out: *mut u8,
        out_len: usize,
        answer: *mut Numbers,
    );
}

/// Gives back n, E, start and the count of moves, and the moves in the list, three numbers a move.
pub fn read(table: &[u8], list: &mut [u16]) -> Result<Table, Refusal> {
    let mut answer = [0; 8];
    unsafe { rhx_read(table.as_ptr(), table.len(), list.as_mut_ptr(), list.len(), &mut answer) };
    unless_refused(&answer)?;
    Ok(Table {
        states: value(&answer, 0) as u16,
        events: value(&answer, 1) as u16,
        start: value(&answer, 2) as u16,
        moves: value(&answer, 3) as usize,
    })
}

/// Writes the table of n, E, start and a list of moves; gives the length written.
pub fn write(n: u16, e: u16, start: u16, list: &[u16], out: &mut [u8]) -> Result<usize, Refusal> {
    let mut answer = [0; 8];
    unsafe { rhx_write(n, e, start, list.as_ptr(), list.len(), out.as_mut_ptr(), out.len(), &mut answer) };
    length_written(&answer)
}

/// The moves of one state, as a part of the table; nothing where the table would be refused or the state is not below n.
pub fn moves_of(table: &[u8], state: u16) -> &[u8] {
    let mut answer = [0; 8];
    unsafe { rhx_moves_of(table.as_ptr(), table.len(), state, &mut answer) };
    let offset = value(&answer, 0) as usize;
    &table[offset..offset + value(&answer, 1) as usize]
}

/// Checks a flow against a rule in a mode. Both workspaces hold zeros after every call.
pub fn check(
    rule: &[u8],
    flow: &[u8],
    mode: u16,
    work16: &mut [u16],
    work64: &mut [u64],
    trace: &mut [u8],
) -> Result<Verdict, Refusal> {
    let mut answer = [0; 8];
    unsafe {
        rhx_check(
            rule.as_ptr(),
            rule.len(),
            flow.as_ptr(),
            flow.len(),
            mode,
            work16.as_mut_ptr(),
            work16.len(),
            work64.as_mut_ptr(),
            work64.len(),
            trace.as_mut_ptr(),
            trace.len(),
            &mut answer,
        )
    };
    verdict(&answer)
}

/// The short form of the check: it takes no mode and runs mode 0.
pub fn check_short(
    rule: &[u8],
    flow: &[u8],
    work16: &mut [u16],
    work64: &mut [u64],
    trace: &mut [u8],
) -> Result<Verdict, Refusal> {
    let mut answer = [0; 8];
    unsafe {
        rhx_check_short(
            rule.as_ptr(),
            rule.len(),
            flow.as_ptr(),
            flow.len(),
            work16.as_mut_ptr(),
            work16.len(),
            work64.as_mut_ptr(),
            work64.len(),
            trace.as_mut_ptr(),
            trace.len(),
            &mut answer,
        )
    };
    verdict(&answer)
}

/// Joins two tables on a set of events, event e as 2 to the power e; gives the length written.
pub fn join(first: &[u8], second: &[u8], set: u64, out: &mut [u8]) -> Result<usize, Refusal> {
    let mut answer = [0; 8];
    unsafe {
        rhx_join(first.as_ptr(), first.len(), second.as_ptr(), second.len(), set, out.as_mut_ptr(), out.len(), &mut answer)
    };
    length_written(&answer)
}

/// Builds the watchdog of a rule; gives the length written. Both workspaces hold zeros after every call.
pub fn watchdog(rule: &[u8], work16: &mut [u16], work64: &mut [u64], out: &mut [u8]) -> Result<usize, Refusal> {
    let mut answer = [0; 8];
    unsafe {
        rhx_watchdog(
            rule.as_ptr(),
            rule.len(),
            work16.as_mut_ptr(),
            work16.len(),
            work64.as_mut_ptr(),
            work64.len(),
            out.as_mut_ptr(),
            out.len(),
            &mut answer,
        )
    };
    length_written(&answer)
}

fn value(answer: &Numbers, i: usize) -> u64 {
    answer[VALUES + i]
}

fn unless_refused(answer: &Numbers) -> Result<(), Refusal> {
    if answer[KIND] != 0 {
        return Ok(());
    }
    let whose = match answer[WHOSE] {
        0 => Whose::Call,
        1 => Whose::Rule,
        _ => Whose::Flow,
    };
    Err(Refusal { whose, number: answer[NUMBER] as u8 })
}

fn length_written(answer: &Numbers) -> Result<usize, Refusal> {
    unless_refused(answer)?;
    Ok(value(answer, 0) as usize)
}

fn verdict(answer: &Numbers) -> Result<Verdict, Refusal> {
    unless_refused(answer)?;
    let length = value(answer, 0) as usize;
    match answer[KIND] {
        2 => Ok(Verdict::Passes { nodes: length, pairs: value(answer, 1) as usize }),
        3 => Ok(Verdict::TraceFault { length }),
        4 => Ok(Verdict::RefusalFault { length, offers: value(answer, 1) }),
        // the archive has no further kind; a later one must not pass for one of these
        kind => panic!("the archive answers a kind that this file does not know: {kind}"),
    }
}
