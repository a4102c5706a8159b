//! Tables of wrong shape, formed files at fault, and rooms of every size.

mod common;

use common::{check_room, refused};
use generate::tables::{
    of_empty_batches, shape_damage, with_empty_batch, with_last_entry_repeated, Sections,
};
use generate::{big_file, sample, BigFile};
use independent::{read, read_into, write, write_into, Way};

#[test]
fn faults_of_shape() {
    let table = sample().table();
    for length in 0..table.len() {
        assert_eq!(refused(write(Way::Plain, &table[..length])), (24, 0, 0));
    }
    for damaged in shape_damage(&table) {
        // Most of it is a fault of shape; whatever is not says so by the formed file's refusal.
        if let Err(refusal) = write(Way::Plain, &damaged) {
            let has_place = refusal.record > 0;
            assert!(has_place || [1, 24].contains(&refusal.number));
        } else {
            assert_eq!(damaged, table);
        }
    }
}

#[test]
fn an_addendum_more_or_less_than_the_flags_say() {
    let table = sample().table();
    let flags: Vec<usize> = Sections::of(&table).addendum_flags().collect();
    let mut both = table.clone();
    both[flags[0]] = b'1';
    assert_eq!(refused(write(Way::Plain, &both)), (24, 0, 0));
    let mut none = table.clone();
    none[flags[1]] = b'0';
    assert_eq!(refused(write(Way::Plain, &none)), (24, 0, 0));
    // The flag at another entry: the shape is right, and so is the file.
    let mut other = both;
    other[flags[1]] = b'0';
    assert!(write(Way::Plain, &other).is_ok());
    other[flags[1]] = b'2';
    assert_eq!(refused(write(Way::Plain, &other)), (11, 5, 10));
}

#[test]
fn right_shape_but_no_file() {
    let table = sample().table();
    let header = &table[..91];
    let no_batch = [header, b"000000000000000000"].concat();
    assert_eq!(refused(write(Way::Plain, &no_batch)), (3, 2, 1));
    assert_eq!(refused(write(Way::Plain, &with_empty_batch(&table, 0))), (3, 3, 1));
    // The second batch has the number of the first, which is found before it is seen to be empty.
    assert_eq!(refused(write(Way::Plain, &with_empty_batch(&table, 1))), (17, 7, 13));
}

#[test]
fn a_row_at_fault_is_refused_at_its_own_place() {
    let mut plan = sample();
    plan.batches[0].entries[0].amount = 0;
    assert_eq!(refused(write(Way::Plain, &plan.table())), (14, 3, 6));
    let mut table = sample().table();
    let amount = Sections::of(&table).rows[2].start + 30 - 2;
    table[amount] = b'X';
    assert_eq!(refused(write(Way::Plain, &table)), (6, 3, 6));
}

#[test]
fn a_million_records_and_one() {
    let shape = BigFile { records: 1_000_000, entries_in_batch: 1_000_000, addendum_every: 0 };
    let file = big_file(&shape);
    let table = read(Way::Plain, &file).expect("a million records are a file");
    assert!(write(Way::Plain, &table) == Ok(file), "the table does not give the file back");
    let longer = with_last_entry_repeated(&table, 1);
    assert_eq!(refused(write(Way::Plain, &longer)), (1, 0, 0));
}

#[test]
fn too_many_records_come_before_their_faults() {
    let table = sample().table();
    let just_fits = of_empty_batches(&table, 499_999);
    assert_eq!(refused(write(Way::Plain, &just_fits)), (3, 3, 1));
    let too_many = of_empty_batches(&table, 500_000);
    assert_eq!(refused(write(Way::Plain, &too_many)), (1, 0, 0));
}

#[test]
fn rooms() {
    let (file, table) = (sample().file(), sample().table());
    for room in [0, 1, 469, 470, 471, 2_000] {
        check_room(room, &table, |lent| read_into(Way::Plain, &file, lent));
        assert_eq!(refused(read_into(Way::Plain, &file[..94], &mut vec![0; room])), (2, 2, 0));
    }
    for room in [0, 1, 939, 940, 941, 2_000] {
        check_room(room, &file, |lent| write_into(Way::Plain, &table, lent));
        assert_eq!(refused(write_into(Way::Plain, &table[..9], &mut vec![0; room])), (24, 0, 0));
    }
    assert_eq!(read(Way::Plain, &file), Ok(table));
}
