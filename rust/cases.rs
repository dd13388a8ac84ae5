//! The order's marked cases, and a refusal of each sort, through rust/rhythmoxa.rs. With the archive made:
//!
//!     rustc --edition 2021 --test rust/cases.rs -L target/staticlib -o target/rust-cases && target/rust-cases
#[path = "rhythmoxa.rs"]
mod rhythmoxa;

use rhythmoxa::*;

/// A table of E = 3, its states numbered up to the highest one named.
fn table(moves: &[[u16; 3]]) -> Vec<u8> {
    let n = moves.iter().flat_map(|m| [m[0], m[2]]).max().unwrap_or(0) + 1;
    table_of(n, 3, moves)
}

fn table_of(n: u16, e: u16, moves: &[[u16; 3]]) -> Vec<u8> {
    let mut out = vec![0; TABLE_BYTES];
    let size = write(n, e, 0, &moves.concat(), &mut out).unwrap();
    out.truncate(size);
    out
}

fn r() -> Vec<u8> {
    table(&[[0, 1, 1], [1, 2, 2], [2, 3, 0]])
}

fn stop() -> Vec<u8> {
    table(&[])
}

fn div() -> Vec<u8> {
    table(&[[0, 0, 1], [1, 0, 0]])
}

/// Two workspaces that hold anything at first, and are seen to be zero after each call.
struct Lent {
    work16: Vec<u16>,
    work64: Vec<u64>,
}

impl Lent {
    fn new(n16: usize, n64: usize) -> Lent {
        Lent { work16: vec![7; n16], work64: vec![7; n64] }
    }

    fn full() -> Lent {
        Lent::new(WORK16_NUMBERS, WORK64_NUMBERS)
    }

    fn is_clear(&self) -> bool {
        self.work16.iter().all(|&v| v == 0) && self.work64.iter().all(|&v| v == 0)
    }
}

fn checked(rule: &[u8], flow: &[u8], mode: u16) -> (Result<Verdict, Refusal>, Vec<u8>) {
    let mut lent = Lent::full();
    let mut trace = vec![255; TRACE_BYTES];
    let answer = check(rule, flow, mode, &mut lent.work16, &mut lent.work64, &mut trace);
    assert!(lent.is_clear());
    let length = match answer {
        Ok(Verdict::TraceFault { length }) | Ok(Verdict::RefusalFault { length, .. }) => length,
        _ => 0,
    };
    assert!(trace[length..].iter().all(|&b| b == 255));
    trace.truncate(length);
    (answer, trace)
}

fn passes(nodes: usize, pairs: usize) -> (Result<Verdict, Refusal>, Vec<u8>) {
    (Ok(Verdict::Passes { nodes, pairs }), vec![])
}

fn trace_fault(trace: &[u8]) -> (Result<Verdict, Refusal>, Vec<u8>) {
    (Ok(Verdict::TraceFault { length: trace.len() }), trace.to_vec())
}

fn refusal_fault(trace: &[u8], offers: u64) -> (Result<Verdict, Refusal>, Vec<u8>) {
    (Ok(Verdict::RefusalFault { length: trace.len(), offers }), trace.to_vec())
}

fn refused<T>(whose: Whose, number: u8) -> Result<T, Refusal> {
    Err(Refusal { whose, number })
}

#[test]
fn cases_1_to_9() {
    let rule_7 = table(&[[0, 0, 1], [0, 0, 2], [1, 1, 3], [2, 2, 3]]);
    let flow_2 = table(&[[0, 1, 1], [1, 2, 2], [1, 3, 0], [2, 3, 0]]);
    let flow_3 = table(&[[0, 1, 1]]);
    let flow_7 = table(&[[0, 1, 1], [0, 2, 1]]);
    let flow_9 = table(&[[0, 2, 1], [0, 3, 1]]);
    for mode in [TRACES, FAILURES] {
        assert_eq!(checked(&r(), &r(), mode), passes(3, 3));
        assert_eq!(checked(&r(), &flow_2, mode), trace_fault(&[1, 3]));
        assert_eq!(checked(&r(), &div(), mode), passes(3, 2));
        assert_eq!(checked(&rule_7, &flow_7, mode), passes(2, 2));
        assert_eq!(checked(&rule_7, &flow_3, mode), passes(2, 2));
        assert_eq!(checked(&stop(), &flow_9, mode), trace_fault(&[2]));
    }
    assert_eq!(checked(&r(), &flow_3, TRACES), passes(3, 2));
    assert_eq!(checked(&r(), &flow_3, FAILURES), refusal_fault(&[1], 0));
    assert_eq!(checked(&r(), &stop(), FAILURES), refusal_fault(&[], 0));
    assert_eq!(checked(&div(), &stop(), TRACES), passes(1, 1));
    assert_eq!(checked(&div(), &stop(), FAILURES), refusal_fault(&[], 0));
}

#[test]
fn offers_are_told() {
    // a stable flow state that offers 2 and 3, where the rule offers 1 too
    let rule = table(&[[0, 1, 0], [0, 2, 0], [0, 3, 0]]);
    let flow = table(&[[0, 2, 0], [0, 3, 0]]);
    assert_eq!(checked(&rule, &flow, FAILURES), refusal_fault(&[], 4 + 8));
}

#[test]
fn the_short_form_runs_mode_0() {
    let mut lent = Lent::full();
    let answer = check_short(&r(), &stop(), &mut lent.work16, &mut lent.work64, &mut []);
    assert_eq!(answer, Ok(Verdict::Passes { nodes: 3, pairs: 1 }));
    assert!(lent.is_clear());
}

#[test]
fn cases_10_to_12() {
    let mut out = [255; 80];
    assert_eq!(join(&r(), &r(), 2 + 4 + 8, &mut out), Ok(30));
    assert_eq!(out[..30], table_of(9, 3, &[[0, 1, 4], [4, 2, 8], [8, 3, 0]])[..]);
    assert!(out[30..].iter().all(|&b| b == 255));
    let one = table_of(1, 1, &[[0, 1, 0]]);
    assert_eq!(join(&one, &one, 0, &mut out), Ok(18));
    assert_eq!(out[..18], one[..]);
    let mut lent = Lent::full();
    assert_eq!(watchdog(&r(), &mut lent.work16, &mut lent.work64, &mut out), Ok(72));
    assert!(lent.is_clear());
    let mut list = [255; 40];
    assert_eq!(read(&out[..72], &mut list), Ok(Table { states: 4, events: 4, start: 0, moves: 10 }));
    assert_eq!(list[..9], [0, 1, 1, 0, 2, 3, 0, 3, 3]);
    assert_eq!(list[27..], [3, 4, 3, 255, 255, 255, 255, 255, 255, 255, 255, 255, 255]);
}

#[test]
fn the_moves_of_a_state() {
    let t = table(&[[0, 1, 1], [0, 1, 2], [2, 3, 0]]);
    assert_eq!(moves_of(&t, 0), &t[12..24]);
    assert_eq!(moves_of(&t, 1), &[] as &[u8]);
    assert_eq!(moves_of(&t, 2), &t[24..]);
    assert_eq!(moves_of(&t, 2).as_ptr(), t[24..].as_ptr());
    assert_eq!(moves_of(&t, 3), &[] as &[u8]);
    assert_eq!(moves_of(&t[..29], 2), &[] as &[u8]);
    assert_eq!(moves_of(&[], 0), &[] as &[u8]);
}

#[test]
fn refusals() {
    let mut out = [255; 80];
    assert_eq!(read(&[], &mut []), refused(Whose::Rule, 1));
    assert_eq!(read(&r(), &mut [0; 8]), refused(Whose::Call, 18));
    assert_eq!(write(0, 0, 0, &[], &mut out), refused(Whose::Rule, 2));
    assert_eq!(write(1, 0, 0, &[], &mut out[..11]), refused(Whose::Call, 18));
    assert_eq!(join(&r(), &[], 0, &mut out), refused(Whose::Flow, 1));
    assert_eq!(join(&r(), &r(), 1, &mut out), refused(Whose::Call, 15));
    assert!(out.iter().all(|&b| b == 255));
    assert_eq!(checked(&[], &[], 256).0, refused(Whose::Call, 8));
    assert_eq!(checked(&r(), &[], 0).0, refused(Whose::Flow, 1));
    assert_eq!(checked(&table_of(65, 3, &[]), &r(), 0).0, refused(Whose::Rule, 10));
    let mut short = Lent::new(32_767, 128);
    assert_eq!(watchdog(&r(), &mut short.work16, &mut short.work64, &mut out), refused(Whose::Call, 11));
    assert!(short.is_clear());
    let mut lent = Lent::full();
    assert_eq!(check_short(&stop(), &r(), &mut lent.work16, &mut lent.work64, &mut []), refused(Whose::Call, 14));
}
