//! Pay tables: their parts, damage to them, and rows taken out of them.

use crate::damage::BORDER_BYTES;
use crate::random::Random;
use std::collections::BTreeSet;
use std::ops::Range;

pub const COUNT: usize = 6;
pub const HEADER_ROW: usize = 85;
pub const BATCH_ROW: usize = 95;
pub const ENTRY_ROW: usize = 93;
pub const ADDENDUM_ROW: usize = 80;
/// Column 79 in a row that begins with column 2.
const FLAG: usize = 79 - 2;

/// Where the parts of a table of right shape stand.
pub struct Sections {
    /// The rows of the header, the batches, the entries and the addenda.
    pub rows: [Range<usize>; 4],
}

impl Sections {
    /// Reads the counts of a table that is known to be of right shape.
    pub fn of(table: &[u8]) -> Sections {
        let mut start = 0;
        let rows = [HEADER_ROW, BATCH_ROW, ENTRY_ROW, ADDENDUM_ROW].map(|width| {
            let first = start + COUNT;
            start = first + width * number(&table[first - COUNT..first]);
            first..start
        });
        Sections { rows }
    }

    /// The places of all numbers of six digits: the four counts, then the batches' own.
    pub fn counts(&self) -> Vec<Range<usize>> {
        let sections = self.rows.iter().map(|rows| rows.start - COUNT..rows.start);
        let batches = self.rows[1].clone().step_by(BATCH_ROW);
        let own = batches.map(|start| start + BATCH_ROW - COUNT..start + BATCH_ROW);
        sections.chain(own).collect()
    }

    /// The offsets of column 79 of every entry row.
    pub fn addendum_flags(&self) -> impl Iterator<Item = usize> {
        self.rows[2].clone().step_by(ENTRY_ROW).map(|start| start + FLAG)
    }
}

fn number(digits: &[u8]) -> usize {
    digits.iter().fold(0, |value, &digit| value * 10 + usize::from(digit - b'0'))
}

/// Every systematic damage to the shape of a table: counts and lengths off by one, letters in
/// counts, flags turned, rows taken out and put in.
pub fn shape_damage(table: &[u8]) -> Vec<Vec<u8>> {
    let sections = Sections::of(table);
    let mut damaged = Vec::new();
    for count in sections.counts() {
        damaged.extend(count_damage(table, count));
    }
    damaged.extend(moved_entries(table, &sections));
    for flag in sections.addendum_flags() {
        damaged.extend([b'0', b'1', b'2', b' '].map(|byte| with_byte(table, flag, byte)));
    }
    for rows in &sections.rows {
        for at in [rows.start - COUNT, rows.start, rows.end] {
            damaged.push(spliced(table, at..at, b"0"));
            damaged.push(spliced(table, at..(at + 1).min(table.len()), b""));
        }
    }
    damaged.extend(row_damage(table, &sections));
    damaged.push(of_empty_batches(table, 0));
    damaged.push([table, b"000000"].concat());
    damaged
}

fn count_damage(table: &[u8], count: Range<usize>) -> Vec<Vec<u8>> {
    let now = number(&table[count.clone()]);
    let numbers = [now + 1, now.saturating_sub(1), 0, 1, 2, 999_999];
    let spelled = numbers.iter().map(|number| format!("{number:06}"));
    let mut damaged: Vec<Vec<u8>> =
        spelled.map(|text| spliced(table, count.clone(), text.as_bytes())).collect();
    for place in count {
        damaged
            .extend([b'/', b':', b' ', b'-', b'A', 0xFF].map(|byte| with_byte(table, place, byte)));
    }
    damaged
}

/// The last entry of a batch counted to the next one, and the other way round: the sum stays.
fn moved_entries(table: &[u8], sections: &Sections) -> Vec<Vec<u8>> {
    let own: Vec<Range<usize>> = sections.counts().split_off(4);
    let mut damaged = Vec::new();
    for pair in own.windows(2) {
        for (from, to) in [(&pair[0], &pair[1]), (&pair[1], &pair[0])] {
            let less = number(&table[from.clone()]).saturating_sub(1);
            let more = number(&table[to.clone()]) + 1;
            let changed = spliced(table, from.clone(), format!("{less:06}").as_bytes());
            damaged.push(spliced(&changed, to.clone(), format!("{more:06}").as_bytes()));
        }
    }
    damaged
}

/// A row less, or one twice, in each section, with its count kept and with its count brought along.
fn row_damage(table: &[u8], sections: &Sections) -> Vec<Vec<u8>> {
    let widths = [HEADER_ROW, BATCH_ROW, ENTRY_ROW, ADDENDUM_ROW];
    let mut damaged = Vec::new();
    for (rows, width) in sections.rows.iter().zip(widths) {
        let count = rows.start - COUNT..rows.start;
        let now = number(&table[count.clone()]);
        if now == 0 {
            continue;
        }
        let first = rows.start..rows.start + width;
        let row = table[first.clone()].to_vec();
        let less = spliced(table, first.clone(), b"");
        let more = spliced(table, first.start..first.start, &row);
        for (changed, new_count) in [(less, now - 1), (more, now + 1)] {
            let counted = spliced(&changed, count.clone(), format!("{new_count:06}").as_bytes());
            damaged.push(changed);
            damaged.push(counted);
        }
    }
    damaged
}

/// A batch without entries, put before the batch of the given index.
pub fn with_empty_batch(table: &[u8], index: usize) -> Vec<u8> {
    let rows = &Sections::of(table).rows[1];
    let at = rows.start + index * BATCH_ROW;
    let batches = rows.len() / BATCH_ROW + 1;
    let mut row = table[rows.start..rows.start + BATCH_ROW].to_vec();
    row[BATCH_ROW - COUNT..].copy_from_slice(b"000000");
    let changed = spliced(table, at..at, &row);
    spliced(&changed, rows.start - COUNT..rows.start, format!("{batches:06}").as_bytes())
}

/// A table whose last batch has more entries: copies of its last one, without addenda.
pub fn with_last_entry_repeated(table: &[u8], times: usize) -> Vec<u8> {
    let sections = Sections::of(table);
    let entries = &sections.rows[2];
    let mut row = table[entries.end - ENTRY_ROW..entries.end].to_vec();
    row[FLAG] = b'0';
    let mut changed = spliced(table, entries.end..entries.end, &row.repeat(times));
    let own = sections.rows[1].end - COUNT..sections.rows[1].end;
    for count in [entries.start - COUNT..entries.start, own] {
        let more = number(&table[count.clone()]) + times;
        changed[count].copy_from_slice(format!("{more:06}").as_bytes());
    }
    changed
}

/// A table of right shape without the rows of these entries, which are counted from 1, and of their
/// addenda, and without the batches that are left empty.
pub fn without_entries(table: &[u8], gone: &[u64]) -> Vec<u8> {
    let gone: BTreeSet<&u64> = gone.iter().collect();
    let [header, batches, entries, addenda] = Sections::of(table).rows;
    let mut texts = table[addenda].chunks(ADDENDUM_ROW);
    let mut rows = table[entries].chunks(ENTRY_ROW).zip(1..);
    let (mut kept_batches, mut kept_entries, mut kept_texts) = (Vec::new(), Vec::new(), Vec::new());
    for batch in table[batches].chunks(BATCH_ROW) {
        let (columns, count) = batch.split_at(BATCH_ROW - COUNT);
        let before = kept_entries.len();
        for (row, entry) in rows.by_ref().take(number(count)) {
            let text = if row[FLAG] == b'1' { texts.next() } else { None };
            if !gone.contains(&entry) {
                kept_entries.push(row);
                kept_texts.extend(text);
            }
        }
        if kept_entries.len() > before {
            let count = format!("{:06}", kept_entries.len() - before);
            kept_batches.push([columns, count.as_bytes()].concat());
        }
    }
    let counted = |rows: usize, bytes: Vec<u8>| [format!("{rows:06}").into_bytes(), bytes].concat();
    [
        table[..header.end].to_vec(),
        counted(kept_batches.len(), kept_batches.concat()),
        counted(kept_entries.len(), kept_entries.concat()),
        counted(kept_texts.len(), kept_texts.concat()),
    ]
    .concat()
}

/// A table of right shape with so many batches and not an entry in them.
pub fn of_empty_batches(table: &[u8], batches: usize) -> Vec<u8> {
    let rows = &Sections::of(table).rows;
    let mut row = table[rows[1].start..rows[1].start + BATCH_ROW].to_vec();
    row[BATCH_ROW - COUNT..].copy_from_slice(b"000000");
    let header = &table[..rows[0].end];
    let count = format!("{batches:06}");
    [header, count.as_bytes(), &row.repeat(batches), b"000000000000"].concat()
}

/// Sets a random byte of a row, so that the shape mostly stays and the formed file changes.
pub fn random_row_damage(random: &mut Random, table: &[u8]) -> Vec<u8> {
    let place = random.below(table.len());
    let byte = match random.below(3) {
        0 => random.byte(),
        _ => *random.pick(&BORDER_BYTES),
    };
    with_byte(table, place, byte)
}

fn with_byte(table: &[u8], place: usize, byte: u8) -> Vec<u8> {
    let mut changed = table.to_vec();
    changed[place] = byte;
    changed
}

fn spliced(table: &[u8], part: Range<usize>, text: &[u8]) -> Vec<u8> {
    [&table[..part.start], text, &table[part.end..]].concat()
}
