//! Whole plans at the edges: codes and classes, amounts, traces, batch numbers, hashes, totals.

use crate::collection::Collection;
use generate::copies::with_field;
use generate::remittances::of_code;
use generate::{near_limit, sample, Batch, Entry, Plan, CODES_IN_PPD};

const LARGEST_AMOUNT: u64 = 9_999_999_999;

pub fn collect(to: &mut Collection) {
    codes(to);
    amounts(to);
    numbers_of_originators(to);
    routing_numbers(to);
    traces(to);
    batch_numbers(to);
    hashes(to);
    totals(to);
}

/// The sample under a service class, with the entries made from its first one.
fn with_class(class: u32, count: u32, make: impl Fn(u32, Entry) -> Entry) -> Plan {
    let mut plan = sample();
    let model = plan.batches[0].entries[0].clone();
    plan.batches[0].class = class;
    plan.batches[0].entries =
        (0..count).map(|index| Entry { trace: index + 1, ..make(index, model.clone()) }).collect();
    plan
}

fn codes(to: &mut Collection) {
    let under = |class, codes: &[u32]| {
        with_class(class, codes.len() as u32, |index, entry| of_code(codes[index as usize], entry))
    };
    to.accepted("all codes of a PPD batch under class 200", &under(200, &CODES_IN_PPD));
    to.accepted("the credit codes under class 220", &under(220, &[22, 23, 32, 33]));
    to.accepted("the debit codes under class 225", &under(225, &[27, 28, 37, 38]));
    for (class, code) in [(220, 37), (225, 22), (225, 23)] {
        let about = format!("code {code} under class {class}");
        to.refused(&about, under(class, &[code]).file(), (15, 3, 2));
    }
}

fn amounts(to: &mut Collection) {
    let of = |code, amount| with_class(200, 1, |_, entry| Entry { code, amount, ..entry });
    for (code, amount) in [(22, 1), (27, LARGEST_AMOUNT), (23, 0)] {
        let about = format!("code {code} with amount {amount}");
        to.accepted(&about, &of(code, amount));
    }
    for (code, amount) in [(27, 0), (23, 1), (38, LARGEST_AMOUNT)] {
        let about = format!("code {code} with amount {amount}");
        to.refused(&about, of(code, amount).file(), (14, 3, 6));
    }
}

fn numbers_of_originators(to: &mut Collection) {
    for originator in [0, 99_999_999] {
        let mut plan = sample();
        plan.batches[0].originator = originator;
        to.accepted("an originator's number at its end", &plan);
    }
}

fn routing_numbers(to: &mut Collection) {
    for routing in [0, 39_999_999] {
        let plan = with_class(220, 1, |_, entry| Entry { routing, ..entry });
        to.accepted(&format!("routing number {routing:08}"), &plan);
    }
    let plan = with_class(220, 1, |_, entry| Entry { routing: 40_000_000, ..entry });
    to.refused("routing number 40000000", plan.file(), (13, 3, 3));
}

fn traces(to: &mut Collection) {
    let with_traces = |first, second| {
        let mut plan = sample();
        plan.batches[0].entries[0].trace = first;
        plan.batches[0].entries[1].trace = second;
        plan
    };
    to.accepted("traces that start late", &with_traces(41, 42));
    to.accepted("traces up to the last", &with_traces(9_999_998, 9_999_999));
    to.accepted("a trace left out", &with_traces(1, 3));
    to.accepted("all traces left out but the ends", &with_traces(1, 9_999_999));
    for (about, first, second) in [
        ("nothing follows the last trace", 9_999_999, 0),
        ("the last trace twice", 9_999_999, 9_999_999),
        ("a trace twice", 41, 41),
        ("a trace one less than before", 41, 40),
    ] {
        to.refused(about, with_traces(first, second).file(), (16, 4, 11));
    }
    let skipping = with_traces(1, 9).file();
    let other_bank = with_field(&skipping, 4, 11, "322070390000009");
    to.refused("a trace left out, and another bank", other_bank, (16, 4, 11));
    let as_if_next = with_field(&skipping, 5, 5, "0000002");
    to.refused("a trace left out, but not by its addendum", as_if_next, (16, 5, 5));
    traces_of_three(to);
    traces_of_two_batches(to);
}

/// The third of three is compared with the second.
fn traces_of_three(to: &mut Collection) {
    let with_third = |third| {
        let traces = [5, 9, third];
        let mut plan = with_class(220, 3, |_, entry| entry);
        for (entry, trace) in plan.batches[0].entries.iter_mut().zip(traces) {
            entry.trace = trace;
        }
        plan
    };
    to.accepted("gaps before the second and the third trace", &with_third(12));
    for (about, third) in
        [("the second trace again", 9), ("a trace between", 7), ("the first trace again", 5)]
    {
        to.refused(about, with_third(third).file(), (16, 5, 11));
    }
}

fn traces_of_two_batches(to: &mut Collection) {
    let with_second = |first, second| {
        let mut plan = with_batches(&[1, 2]);
        for (batch, traces) in plan.batches.iter_mut().zip([[41, 42], [first, second]]) {
            for (entry, trace) in batch.entries.iter_mut().zip(traces) {
                entry.trace = trace;
            }
        }
        plan
    };
    to.accepted("the traces of the batch before again", &with_second(41, 42));
    to.accepted("a lower trace than in the batch before", &with_second(1, 3));
    to.refused("a trace twice in the second batch", with_second(1, 1).file(), (16, 9, 11));
    to.refused("the second batch begins with 0", with_second(0, 43).file(), (16, 8, 11));
}

/// The sample with a copy of its batch for each number.
fn with_batches(numbers: &[u32]) -> Plan {
    let mut plan = sample();
    let model = plan.batches.remove(0);
    plan.batches = numbers.iter().map(|&number| Batch { number, ..model.clone() }).collect();
    plan
}

fn batch_numbers(to: &mut Collection) {
    to.accepted("batch numbers one apart", &with_batches(&[1, 2]));
    to.accepted("batch numbers with gaps", &with_batches(&[7, 9_999_998, 9_999_999]));
    to.refused("a batch number twice", with_batches(&[1, 1]).file(), (17, 7, 13));
    let third = with_batches(&[2, 3, 2]).file();
    to.refused("a number used before the last", third, (17, 12, 13));
    let two = with_batches(&[1, 2]).file();
    let first_only = with_field(&two, 12, 2, "000001");
    to.refused("the first batch counted alone", first_only, (18, 12, 2));
    let first_only = with_field(&two, 12, 7, "000000012550");
    to.refused("the first batch summed alone", first_only, (21, 12, 7));
    let in_second = with_field(&two, 11, 6, "000000025100");
    to.refused("the file's sum in a batch", in_second, (21, 11, 6));
    let in_second = with_field(&two, 8, 5, "12 3             ");
    to.refused("a fault in the second batch", in_second, (9, 8, 5));
}

fn hashes(to: &mut Collection) {
    let five = with_class(220, 5, |_, entry| Entry { routing: 5_300_021, ..entry });
    to.accepted("five entries at 05300021", &five);
    // 250 times 39,999,999 is 9,999,999,750.
    let with_last = |last| {
        with_class(220, 251, |index, entry| Entry {
            routing: if index < 250 { 39_999_999 } else { last },
            ..entry
        })
    };
    to.accepted("routing numbers that sum to 9,999,999,999", &with_last(249));
    to.accepted("routing numbers that sum to 10,000,000,000", &with_last(250));
}

fn totals(to: &mut Collection) {
    const LIMIT: u64 = 999_999_999_999;
    for (code, batch_field, file_field) in [(27, 5, 6), (22, 6, 7)] {
        let hundred = near_limit(code, 100 * LARGEST_AMOUNT, 1);
        to.accepted("a hundred of the largest amount", &hundred);
        to.accepted("the largest total of two batches", &near_limit(code, LIMIT, 2));
        let too_much = near_limit(code, 101 * LARGEST_AMOUNT, 1).file();
        to.refused("a hundred and one", too_much, (20, 104, batch_field));
        let in_two = near_limit(code, LIMIT + 1, 2).file();
        to.refused("a cent too much for the file", in_two, (20, 107, file_field));
    }
    to.accepted("the largest total", &near_limit(22, LIMIT, 1));
    let just = near_limit(22, LIMIT + 1, 1).file();
    let no_digits = with_field(&just, 104, 6, "           0");
    to.refused("a cent too much", just, (20, 104, 6));
    to.refused("a cent too much, and no digits", no_digits, (6, 104, 6));
}
