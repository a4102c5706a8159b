//! Files in order.

use crate::sample::Sample;
use generate::{sample, Batch, Entry, Header, Plan};

/// Every accepted file, each with its pay table.
pub fn all() -> Vec<Sample> {
    let pairs = plans().into_iter().flat_map(|(name, plan)| {
        [(format!("{name}.ach"), plan.file()), (format!("{name}.table"), plan.table())]
    });
    pairs.map(|(name, bytes)| Sample { name, bytes }).collect()
}

fn plans() -> Vec<(&'static str, Plan)> {
    vec![
        ("whole", sample()),
        ("eleven", eleven()),
        ("mended", mended()),
        ("cent-more", cent_more()),
        ("pension", pension()),
        ("loans", loans()),
        ("vendors", vendors()),
        ("staff", staff()),
        ("taxes", taxes()),
        ("gaps", gaps()),
        ("recalled", recalled()),
        ("union", union()),
        ("remittances", remittances()),
        ("team", team()),
        ("prefunded", prefunded()),
    ]
}

/// One of the entries to come: code, bank, account, cents, identification, name.
type Row = (u32, u32, &'static str, u64, &'static str, &'static str);

fn entries(rows: &[Row]) -> Vec<Entry> {
    let numbered = rows.iter().zip(1..);
    numbered
        .map(|(&(code, routing, account, amount, identification, name), trace)| Entry {
            code,
            routing,
            account: account.into(),
            amount,
            identification: identification.into(),
            name: name.into(),
            discretionary: String::new(),
            trace,
            addendum: None,
        })
        .collect()
}

/// Entries for these amounts, each of another employee, counted from the first one's number.
fn pay(amounts: &[u64], first_employee: usize) -> Vec<Entry> {
    let model = sample().batches.remove(0).entries.remove(0);
    let employees = amounts.iter().zip(first_employee..).zip(1..);
    employees
        .map(|((&amount, employee), trace)| Entry {
            account: format!("70-{employee:06}"),
            amount,
            identification: format!("E-{employee:04}"),
            name: format!("EMPLOYEE {employee:04}"),
            trace,
            ..model.clone()
        })
        .collect()
}

/// The story's pay run: eleven net pays of exactly 2,000.00 among lower and higher ones.
pub fn eleven() -> Plan {
    let mut plan = sample();
    let office = [
        142_050, 200_000, 155_000, 199_999, 200_000, 200_001, 163_825, 200_000, 250_000, 171_400,
        200_000, 180_000, 200_100, 200_000, 187_560, 215_000, 200_000, 190_000,
    ];
    let yard = [
        200_000, 224_750, 194_999, 200_000, 231_000, 199_900, 275_525, 200_000, 310_000, 200_000,
        402_050, 200_000,
    ];
    let mut second = plan.batches[0].clone();
    plan.batches[0].entries = pay(&office, 1);
    second.number = 2;
    second.entries = pay(&yard, 19);
    // One person with two posts: two entries that differ in nothing but the trace number.
    let twice = second.entries[9].clone();
    second.entries[11] = Entry { trace: second.entries[11].trace, ..twice };
    plan.batches.push(second);
    plan
}

/// What mending makes of `eleven` when the last entry of its first batch is lost: in order, and one
/// person short.
fn mended() -> Plan {
    eleven().without(&[18])
}

/// What mending makes of the scope's example when an entry is given a cent more and the totals are not.
fn cent_more() -> Plan {
    let mut plan = sample();
    plan.batches[0].entries[0].amount += 1;
    plan
}

/// After source document 000: five pensions at 05300021.
fn pension() -> Plan {
    let bank = 5_300_021;
    let mut plan = sample();
    plan.header = Header {
        destination: bank,
        origin: "1560000001".into(),
        date: "210630".into(),
        time: "1015".into(),
        destination_name: "RECEIVING BANK".into(),
        origin_name: "PENSION PAYROLL".into(),
        ..plan.header
    };
    plan.batches = vec![Batch {
        company_name: "PENSION PAYROLL".into(),
        company_id: "1560000001".into(),
        description: "PENSION".into(),
        descriptive_date: "210630".into(),
        effective_date: "210701".into(),
        originator: bank,
        entries: entries(&[
            (22, bank, "100-2201", 184_250, "P00017", "RETIREE ONE"),
            (32, bank, "100-2202", 97_533, "P00018", "RETIREE TWO"),
            (22, bank, "100-2203", 200_000, "P00019", "RETIREE THREE"),
            (23, bank, "100-2204", 0, "P00020", "RETIREE FOUR"),
            (22, bank, "100-2205", 143_075, "P00021", "RETIREE FIVE"),
        ]),
        ..plan.batches.remove(0)
    }];
    plan
}

/// A client's pay run from which rows were deleted before the export, so that traces are missing;
/// the second batch begins anew, with traces that the first one has too.
pub fn gaps() -> Plan {
    let mut plan = sample();
    let mut second = Batch { number: 2, ..plan.batches[0].clone() };
    plan.batches[0].entries = pay(&[142_050, 200_000, 155_000, 187_560], 1);
    second.entries = pay(&[96_000, 120_025], 8);
    plan.batches.push(second);
    for (batch, traces) in plan.batches.iter_mut().zip([[1, 2, 4, 7].as_slice(), &[2, 4]]) {
        for (entry, trace) in batch.entries.iter_mut().zip(traces) {
            entry.trace = *trace;
        }
    }
    plan
}

/// What is left of `gaps` when a client recalls four of its payments: two of the first batch, and
/// both of the second, which goes with them.
fn recalled() -> Plan {
    gaps().without(&[2, 3, 5, 6])
}

/// Members of a credit union, whose account numbers have letters: among digits and hyphens, alone,
/// and in all columns.
pub fn union() -> Plan {
    let mut plan = sample();
    plan.batches[0].entries = entries(&[
        (22, 32_207_038, "CU-7K2B", 181_525, "E-0061", "QUILL, DORA"),
        (32, 32_207_038, "SAVINGS", 25_000, "E-0061", "QUILL, DORA"),
        (22, 5_300_021, "M0ABCDEFGHIJKLXYZ", 200_000, "E-0062", "STERN, IVO"),
    ]);
    plan
}

/// A corporate client's settlements with its suppliers: a payment, a prenote, and entries of nothing
/// that carry the remittance text alone, for checking and savings, credits and debits.
pub fn remittances() -> Plan {
    let mut entries = entries(&[
        (22, 32_207_038, "4410-22871", 124_000, "S-301", "ASHDOWN TIMBER"),
        (24, 32_207_038, "4410-22871", 0, "S-301", "ASHDOWN TIMBER"),
        (24, 5_300_021, "009831740", 0, "S-302", "BRINE AND SALT LTD"),
        (34, 2_130_264, "SV-77", 0, "S-303", "CORDAGE WORKS"),
        (29, 1_100_234, "8800152", 0, "S-304", "DYEWORKS"),
        (39, 1_100_234, "SV-78", 0, "S-305", "ELM COOPERAGE"),
        (23, 32_207_038, "70-000009", 0, "S-306", "FERN NURSERY"),
    ]);
    let texts = [
        "RMR*IV*20871*PI*1240.00*1240.00\\",
        "RMR*IV*20844**0*480.00*480.00\\NTE**SETTLED BY CREDIT MEMO 77\\",
        "RMR*IV*9915**0*75.20*75.20\\NTE**RETURNED GOODS\\",
        "RMR*CM*512**0*60.00\\",
        "RMR*IV*1003**0*18.40*18.40\\NTE**NETTED AGAINST 1002\\",
        "NTE**NOTHING DUE FOR OCTOBER\\",
    ];
    for (entry, text) in entries.iter_mut().zip(texts) {
        entry.addendum = Some(text.into());
    }
    let mut plan = sample();
    plan.batches = vec![Batch {
        class: 200,
        entry_class: "CCD".into(),
        description: "SETTLEMENT".into(),
        entries,
        ..plan.batches.remove(0)
    }];
    plan
}

/// What the client's list `team.csv` is imported as.
pub fn team() -> Plan {
    let mut plan = sample();
    plan.batches[0].entries = entries(&[
        (22, 32_207_038, "4410-22871", 200_000, "E-2001", "MARLOWE, ADA"),
        (22, 32_207_038, "009831740", 199_999, "E-2002", "OKAFOR, BEN"),
        (32, 5_300_021, "CU-7K2B", 25_000, "E-2003", "THE \"RED\" HOUSE"),
        (22, 2_130_264, "70-000004", 1_250, "", "DE LUCA ELENA"),
    ]);
    plan
}

/// After the sample in source document 001, with the bank's number where the sample has blanks.
pub fn loans() -> Plan {
    let bank = 55_555_555;
    let mut plan = sample();
    plan.header = Header {
        destination: bank,
        origin: " 555555550".into(),
        date: "140421".into(),
        time: "1900".into(),
        destination_name: String::new(),
        origin_name: "SAMPLECOMPANY".into(),
        ..plan.header
    };
    let mut entries = entries(&[
        (22, 12_130_102, "0000000892", 97_500, "FL1813XX", "CUSTOMER NAME1"),
        (22, 5_311_259, "1111114718", 65_000, "AB1813YA", "CUSTOMER NAME2"),
        (22, 26_547_358, "22222583", 80_000, "DX18CD58L9", "CUSTOMER NAME3"),
        (22, 11_310_255, "333335992", 82_500, "CC181S56QA", "CUSTOMER NAME4"),
        (22, 28_408_490, "444440", 67_500, "RR1Y13F4", "CUSTOMER NAME5"),
        (22, 28_637_787, "0001110290", 67_500, "JBG8135E6", "CUSTOMER NAME6"),
    ]);
    let addresses = [
        "12500 SAN PEDRO*SUITE 120*SAN ANTONIO*TX*78216*2890",
        "**SAN ANTONIO*TX*78216*2890",
        "***TX**",
        "**SAN ANTONIO*TX*78216*",
        "**SAN ANTONIO*TX**",
        "12500 SAN PEDRO**SAN ANTONIO*TX**",
    ];
    for (entry, address) in entries.iter_mut().zip(addresses) {
        entry.addendum = Some(address.into());
    }
    plan.batches = vec![Batch {
        company_name: "SAMPLECOMPANY".into(),
        company_id: "9453233319".into(),
        description: "LOANDPOSIT".into(),
        descriptive_date: "SD1700".into(),
        effective_date: "140422".into(),
        originator: bank,
        entries,
        ..plan.batches.remove(0)
    }];
    plan
}

/// A client who prefunds: one batch is paid, one collected, one of prenotes, one of both sides and one
/// paid again. The credits grow with the first, the fourth and the fifth.
fn prefunded() -> Plan {
    let mut plan = sample();
    let model = plan.batches.remove(0);
    let (here, there) = (32_207_038, 5_300_021);
    let first = [
        (22, here, "6100-01", 150_000, "C-01", "ARDEN, MAY"),
        (32, there, "6100-02", 200_000, "C-02", "BOLT, IAN"),
    ];
    let fourth = [
        (22, here, "6100-04", 125_025, "C-04", "EVERS, KIM"),
        (37, there, "6100-12", 40_000, "D-02", "FERRY TOOLS"),
    ];
    let batches: [(u32, u32, &[Row]); 5] = [
        (3, 220, &first),
        (4, 225, &[(27, here, "6100-11", 90_000, "D-01", "CRANE RENTALS")]),
        (7, 220, &[(23, there, "6100-03", 0, "C-03", "DOYLE, ANN")]),
        (8, 200, &fourth),
        (9, 220, &[(32, here, "6100-05", 52_475, "C-05", "GRANT, LEE")]),
    ];
    plan.batches = batches
        .into_iter()
        .map(|(number, class, rows)| Batch {
            class,
            number,
            entries: entries(rows),
            ..model.clone()
        })
        .collect();
    plan.batches[3].entries[0].addendum = Some("TRAVEL ADVANCE FOR DECEMBER".into());
    plan
}

/// After source document 002: payments to and from businesses, credits and debits in one batch.
pub fn vendors() -> Plan {
    let bank = 1_100_234;
    let mut plan = sample();
    plan.header = Header {
        destination: bank,
        origin: " 011002343".into(),
        date: "230914".into(),
        time: "1620".into(),
        modifier: 'V',
        destination_name: "BOSTON_PRIVATE".into(),
        origin_name: "BOSTON_PRIVATE".into(),
        reference: "01100234".into(),
    };
    plan.batches = vec![Batch {
        class: 200,
        company_name: "EXAMPLE MILLS".into(),
        company_id: "1042000001".into(),
        entry_class: "CCD".into(),
        description: "PAYMENT".into(),
        descriptive_date: String::new(),
        effective_date: "230915".into(),
        originator: bank,
        entries: entries(&[
            (22, bank, "8800151", 125_000, "V1001", "YARNSUPPLY"),
            (27, 5_300_021, "8800152", 60_000, "V1002", "DYEWORKS"),
            (22, 32_207_038, "8800153", 48_995, "V1003", "LOOMREPAIR"),
        ]),
        ..plan.batches.remove(0)
    }];
    plan
}

/// After source document 003: staff are paid and members' dues collected, prenotes among both.
fn staff() -> Plan {
    let bank = 2_130_264;
    let mut plan = sample();
    plan.header = Header {
        destination: bank,
        origin: " 161234567".into(),
        date: "240131".into(),
        time: "0805".into(),
        destination_name: "TOMPKINS COMMUNITY BANK".into(),
        origin_name: "LAKESIDE SAILING CLUB".into(),
        ..plan.header
    };
    let paid = Batch {
        company_name: "LAKESIDE SAILING".into(),
        company_id: "1161234567".into(),
        description: "PAYROLL".into(),
        descriptive_date: "240201".into(),
        effective_date: "240201".into(),
        originator: bank,
        entries: entries(&[
            (22, bank, "5510-01", 150_000, "", "RIVERS, JO"),
            (32, bank, "5510-02", 82_517, "", "HOLM, PIA"),
            (23, 32_207_038, "5510-03", 0, "", "NEW STARTER ONE"),
            (33, 5_300_021, "5510-04", 0, "", "NEW STARTER TWO"),
        ]),
        ..plan.batches.remove(0)
    };
    let collected = Batch {
        class: 225,
        description: "DUES".into(),
        number: 2,
        entries: entries(&[
            (27, bank, "7701", 45_000, "M-01", "MEMBER ONE"),
            (37, 1_100_234, "7702", 9_999, "M-02", "MEMBER TWO"),
            (28, bank, "7703", 0, "M-03", "MEMBER THREE"),
            (38, bank, "7704", 0, "M-04", "MEMBER FOUR"),
        ]),
        ..paid.clone()
    };
    plan.batches = vec![paid, collected];
    plan
}

/// After source document 004: a tax payment with its addendum, and a second one at the same bank.
pub fn taxes() -> Plan {
    let bank = 32_207_038;
    let mut plan = sample();
    plan.header = Header {
        destination: bank,
        origin: " 322070381".into(),
        date: "000331".into(),
        time: "1130".into(),
        destination_name: "EAST WEST BANK".into(),
        origin_name: "EXAMPLE HARDWARE".into(),
        ..plan.header
    };
    let mut entries = entries(&[
        (22, bank, "2390-10", 1_712_641, "940000000", "TAX COLLECTION"),
        (22, bank, "2390-11", 250_000, "940000000", "TAX COLLECTION"),
    ]);
    let amounts = "1*684548*2*160093*3*868000";
    entries[0].addendum = Some(format!("TXP*940000000*94105*000331*{amounts}\\"));
    plan.batches = vec![Batch {
        company_name: "EXAMPLE HARDWARE".into(),
        company_id: "1940000000".into(),
        entry_class: "CCD".into(),
        description: "TAXES".into(),
        descriptive_date: "000331".into(),
        effective_date: "000403".into(),
        originator: bank,
        entries,
        ..plan.batches.remove(0)
    }];
    plan
}
