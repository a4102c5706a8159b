//! Plans: the sample, random ones, ones at the limit of the totals, and the biggest file.

use crate::plan::{is_credit, is_payment, is_remittance, Batch, Builder, Entry, Header, Plan};
use crate::random::Random;

/// The known transaction codes in rising order.
pub const CODES: [u32; 12] = [22, 23, 24, 27, 28, 29, 32, 33, 34, 37, 38, 39];
/// Those that a PPD batch may have.
pub const CODES_IN_PPD: [u32; 8] = [22, 23, 27, 28, 32, 33, 37, 38];
const LARGEST_AMOUNT: u64 = 9_999_999_999;
const LARGEST_TOTAL: u64 = 999_999_999_999;

/// Every byte that text may hold.
const TEXT: &str = " !\"#$%&'()*+,-./0123456789:;<=>?@ABCDEFGHIJKLMNOPQRSTUVWXYZ[\\]^_`{|}~";

/// The sample file: one batch of two credits, the second with an addendum.
pub fn sample() -> Plan {
    let first = Entry {
        code: 22,
        routing: 32_207_038,
        account: "4410-22871".into(),
        amount: 10_000,
        identification: "E-1001".into(),
        name: "MARLOWE, ADA".into(),
        discretionary: String::new(),
        trace: 1,
        addendum: None,
    };
    let second = Entry {
        account: "009831740".into(),
        amount: 2_550,
        identification: "E-1002".into(),
        name: "OKAFOR, BEN".into(),
        trace: 2,
        addendum: Some("REIMBURSEMENT OF TRAVEL, OCTOBER".into()),
        ..first.clone()
    };
    Plan {
        header: Header {
            destination: 32_207_038,
            origin: " 123456789".into(),
            date: "261113".into(),
            time: "0930".into(),
            modifier: 'A',
            destination_name: "HARBOR COMMUNITY BANK".into(),
            origin_name: "LANTERN GOODS CO".into(),
            reference: String::new(),
        },
        batches: vec![Batch {
            class: 220,
            company_name: "LANTERN GOODS CO".into(),
            company_data: String::new(),
            company_id: "1123456789".into(),
            entry_class: "PPD".into(),
            description: "PAYROLL".into(),
            descriptive_date: "NOV 13".into(),
            effective_date: "261116".into(),
            originator: 32_207_038,
            number: 1,
            entries: vec![first, second],
        }],
    }
}

/// A random plan whose file is in order.
pub fn plan(random: &mut Random, most_batches: usize, most_entries: usize) -> Plan {
    let batch_count = 1 + random.below(most_batches);
    let mut number = 0;
    let mut batches = Vec::new();
    let mut money = Money::default();
    for index in 0..batch_count {
        // Leave numbers for the batches still to come.
        let highest = 9_999_999 - (batch_count - 1 - index) as u32;
        number = next_number(random, number, highest);
        batches.push(batch(random, number, most_entries, &mut money));
    }
    Plan { header: header(random), batches }
}

/// A number above the one before: mostly the next, or one behind a gap of some width.
fn next_number(random: &mut Random, before: u32, highest: u32) -> u32 {
    let gap = match random.below(8) {
        0 => random.below(1_000) as u32,
        1 => highest,
        2..=3 => random.below(3) as u32,
        _ => 0,
    };
    before.saturating_add(1 + gap).min(highest)
}

fn header(random: &mut Random) -> Header {
    let first = *random.pick(&[" ", "0", "1", "9"]);
    Header {
        destination: random.below(100_000_000) as u32,
        origin: format!("{first}{:09}", random.below(1_000_000_000)),
        date: date(random),
        time: time(random),
        modifier: *random.pick(&['A', 'Z', '0', '9', 'M', '5']),
        destination_name: optional(random, 23),
        origin_name: optional(random, 23),
        reference: optional(random, 8),
    }
}

fn batch(random: &mut Random, number: u32, most_entries: usize, money: &mut Money) -> Batch {
    let class = *random.pick(&[200, 220, 225]);
    let originator = *random.pick(&[0, 99_999_999, 32_207_038, 5_300_021]);
    let mut batch = Batch {
        class,
        company_name: mandatory(random, 16),
        company_data: optional(random, 20),
        company_id: mandatory(random, 10),
        entry_class: random.pick(&["PPD", "CCD"]).to_string(),
        description: mandatory(random, 10),
        descriptive_date: optional(random, 6),
        effective_date: date(random),
        originator,
        number,
        entries: Vec::new(),
    };
    let entry_count = 1 + random.below(most_entries) as u32;
    for trace in traces(random, entry_count) {
        let entry = next_entry(random, &batch, trace, money);
        batch.entries.push(entry);
    }
    batch
}

/// The traces of a batch, which rise: in half of the batches one apart, else with gaps.
fn traces(random: &mut Random, count: u32) -> Vec<u32> {
    let one_apart = random.one_in(2);
    let mut trace = 0;
    (0..count)
        .map(|index| {
            // Leave numbers for the entries still to come.
            let highest = 9_999_999 - (count - 1 - index);
            let follows = one_apart && index > 0;
            trace = if follows { trace + 1 } else { next_number(random, trace, highest) };
            trace
        })
        .collect()
}

fn next_entry(random: &mut Random, batch: &Batch, trace: u32, money: &mut Money) -> Entry {
    // Two entries that differ in nothing but the trace are two entries.
    if let Some(before) = batch.entries.last() {
        if random.one_in(4) && money.spend(before.code, before.amount) {
            return Entry { trace, ..before.clone() };
        }
    }
    let mut code = *random.pick(&codes_for(batch));
    let mut amount = amount(random, code);
    if !money.spend(code, amount) {
        // The file is full of money on this side: the code's prenote moves none.
        code = if is_credit(code) { 23 } else { 28 };
        amount = 0;
    }
    Entry {
        code,
        routing: routing(random),
        account: account(random),
        amount,
        identification: optional(random, 15),
        name: mandatory(random, 22),
        discretionary: optional(random, 2),
        trace,
        addendum: (is_remittance(code) || random.one_in(3)).then(|| optional(random, 80)),
    }
}

/// The codes that the batch's class and entry class allow.
fn codes_for(batch: &Batch) -> Vec<u32> {
    let known = if batch.entry_class == "CCD" { &CODES[..] } else { &CODES_IN_PPD };
    let of_side = |code: &&u32| match batch.class {
        220 => is_credit(**code),
        225 => !is_credit(**code),
        _ => true,
    };
    known.iter().filter(of_side).copied().collect()
}

/// What the file's entries have come to so far on each side.
#[derive(Default)]
struct Money {
    debit: u64,
    credit: u64,
}

impl Money {
    /// Counts an amount if the total still has room for it.
    fn spend(&mut self, code: u32, amount: u64) -> bool {
        let total = if is_credit(code) { &mut self.credit } else { &mut self.debit };
        let fits = *total + amount <= LARGEST_TOTAL;
        if fits {
            *total += amount;
        }
        fits
    }
}

fn amount(random: &mut Random, code: u32) -> u64 {
    if !is_payment(code) {
        return 0;
    }
    match random.below(6) {
        0 => 1,
        1 => LARGEST_AMOUNT,
        2 => random.between(1, LARGEST_AMOUNT),
        _ => random.between(1, 500_000),
    }
}

fn routing(random: &mut Random) -> u32 {
    match random.below(5) {
        0 => *random.pick(&[0, 39_999_999, 5_300_021, 32_207_038, 2_130_264]),
        _ => random.below(40_000_000) as u32,
    }
}

fn account(random: &mut Random) -> String {
    const SIGNS: &[u8; 37] = b"0123456789-ABCDEFGHIJKLMNOPQRSTUVWXYZ";
    let signs = if random.one_in(2) { SIGNS } else { &SIGNS[..11] };
    let length = 1 + random.below(17);
    (0..length).map(|_| *random.pick(signs) as char).collect()
}

fn date(random: &mut Random) -> String {
    const EDGES: [&str; 6] = ["000101", "000229", "991231", "280229", "270228", "260430"];
    if random.one_in(4) {
        return random.pick(&EDGES).to_string();
    }
    let (year, month, day) = (random.below(100), 1 + random.below(12), 1 + random.below(28));
    format!("{year:02}{month:02}{day:02}")
}

fn time(random: &mut Random) -> String {
    match random.below(4) {
        0 => String::new(),
        1 => random.pick(&["0000", "2359", "0059", "2300"]).to_string(),
        _ => format!("{:02}{:02}", random.below(24), random.below(60)),
    }
}

fn optional(random: &mut Random, width: usize) -> String {
    if random.one_in(2) {
        String::new()
    } else {
        mandatory(random, width)
    }
}

fn mandatory(random: &mut Random, width: usize) -> String {
    let length = if random.one_in(3) { width } else { 1 + random.below(width) };
    let mut text: String = (0..length).map(|_| *random.pick(TEXT.as_bytes()) as char).collect();
    if text.starts_with(' ') {
        text.replace_range(..1, "X");
    }
    text
}

/// A plan whose entries of one side come to the given total, spread evenly over some batches.
pub fn near_limit(code: u32, total: u64, batches: usize) -> Plan {
    let mut plan = sample();
    let mut model = plan.batches.remove(0);
    let entry = Entry { code, addendum: None, ..model.entries.remove(0) };
    model.class = 200;
    let mut amounts = vec![LARGEST_AMOUNT; (total / LARGEST_AMOUNT) as usize];
    amounts.extend(Some(total % LARGEST_AMOUNT).filter(|&rest| rest > 0));
    let in_each = amounts.len().div_ceil(batches);
    for (part, number) in amounts.chunks(in_each).zip(1..) {
        let entries =
            part.iter().zip(1..).map(|(&amount, trace)| Entry { amount, trace, ..entry.clone() });
        plan.batches.push(Batch { number, entries: entries.collect(), ..model.clone() });
    }
    plan
}

/// How a big file is made up.
pub struct BigFile {
    /// Records before the fillers.
    pub records: usize,
    pub entries_in_batch: u32,
    /// Every so manieth entry has an addendum; 0 for none.
    pub addendum_every: u32,
}

/// A big file in order, with just the number of records asked for.
pub fn big_file(shape: &BigFile) -> Vec<u8> {
    let mut random = Random::new(7);
    let mut batch = Batch { class: 200, number: 0, ..sample().batches.remove(0) };
    let mut builder = Builder::new(&sample().header);
    while builder.records() + 1 < shape.records {
        batch.number += 1;
        builder.open(&batch);
        fill_batch(&mut random, shape, &mut builder, &batch);
        builder.close(&batch);
    }
    builder.finish()
}

fn fill_batch(random: &mut Random, shape: &BigFile, builder: &mut Builder, batch: &Batch) {
    for trace in 1.. {
        // The controls of the batch and of the file are set aside.
        let left = shape.records - builder.records() - 2;
        let next_batch_fits = left >= 3;
        if left == 0 || (trace > shape.entries_in_batch && next_batch_fits) {
            return;
        }
        let wants_addendum = shape.addendum_every > 0 && trace % shape.addendum_every == 0;
        let entry = big_entry(random, batch, trace, wants_addendum && left >= 2);
        builder.entry(batch, &entry);
    }
}

fn big_entry(random: &mut Random, model: &Batch, trace: u32, addendum: bool) -> Entry {
    let code = *random.pick(&CODES_IN_PPD);
    let amount = if is_payment(code) { random.between(1, 900_000) } else { 0 };
    Entry {
        code,
        routing: random.below(40_000_000) as u32,
        amount,
        trace,
        addendum: addendum.then(|| "INVOICE 4711, PART PAYMENT, THANK YOU".into()),
        ..model.entries[0].clone()
    }
}
