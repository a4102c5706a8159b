//! Every function on a thread with little stack: an overflow ends the test program.

mod common;

use ach::Way;
use common::{BATCH_ROW, FILE_ROW, GAPS, GAPS_IN_BOTH_WAYS, GAPS_LINED, LIST, LISTED, RECALLED};

/// include/ach.h asks for less; what the thread and these tests take of it is left.
const STACK: usize = 256 * 1024;

const TABLE: &[u8] = include_bytes!("../../../samples/gaps.table");
const WITH_ADDENDUM: &[u8] = include_bytes!("../../../samples/whole.ach");

/// What is listed where no fillers stood and eight are due.
const LIST_OF_FILLERS: &[u8] = b"00000000000000000000108";

fn on_little_stack(calls: fn()) {
    let thread = std::thread::Builder::new().stack_size(STACK).spawn(calls).unwrap();
    thread.join().unwrap();
}

#[test]
fn check_and_the_question_of_its_rows() {
    on_little_stack(|| {
        for (way, file) in GAPS_IN_BOTH_WAYS {
            let mut rows = [0; 4];
            assert_eq!(ach::check_into(way, file, &mut rows).unwrap().entries, 6);
            assert_eq!(ach::runs_out(&rows, 800_000).rows, 2);
            assert_eq!(ach::check(way, &file[1..]).unwrap_err().number, 1);
        }
    });
}

#[test]
fn read_and_write() {
    on_little_stack(|| {
        for (way, file) in GAPS_IN_BOTH_WAYS {
            assert_eq!(ach::table_of(way, file).as_deref(), Ok(TABLE));
            assert_eq!(ach::file_of(way, TABLE).as_deref(), Ok(file));
            assert_eq!(ach::table_of(way, &file[1..]).unwrap_err().number, 1);
            assert_eq!(ach::file_of(way, &TABLE[1..]).unwrap_err().number, 24);
        }
    });
}

#[test]
fn alter() {
    on_little_stack(|| {
        for (way, lent) in GAPS_IN_BOTH_WAYS {
            let mut file = lent.to_vec();
            let mut rows = ach::rows_of(way, &file).unwrap();
            assert!(ach::alter(way, &mut file, &mut rows, 1, 1).unwrap() < 0);
            assert_eq!(ach::alter(way, &mut file, &mut rows, 7, 1).unwrap_err().number, 25);
        }
    });
}

/// The one function that needs more than a few thousand bytes.
#[test]
fn take_out() {
    on_little_stack(|| {
        let mut file = GAPS.to_vec();
        let mut rows = [0; 2];
        assert_eq!(ach::take_out(Way::Plain, &mut file, &[7], &mut rows).unwrap_err().number, 25);
        let length = ach::take_out(Way::Plain, &mut file, &[6, 2, 3, 5], &mut rows).unwrap();
        assert_eq!(&file[..length], RECALLED);
        let mut file = GAPS_LINED.to_vec();
        assert!(ach::take_out(Way::Lined, &mut file, &[6, 2, 3, 5], &mut rows).is_ok());
    });
}

#[test]
fn mend() {
    on_little_stack(|| {
        for (way, file) in GAPS_IN_BOTH_WAYS {
            let mended = ach::mend(way, &file[..12 * way.record_length()]).unwrap();
            assert_eq!((mended.file, mended.list), (file.into(), LIST_OF_FILLERS.into()));
            assert_eq!(ach::mend(way, &file[way.record_length()..]).unwrap_err().number, 3);
        }
    });
}

#[test]
fn addendum() {
    on_little_stack(|| {
        assert_eq!(ach::addendum(Way::Plain, WITH_ADDENDUM, 2).unwrap().len(), 80);
        assert_eq!(ach::addendum(Way::Lined, GAPS_LINED, 1), Ok(&[][..]));
        assert_eq!(ach::addendum(Way::Plain, GAPS, 7).unwrap_err().number, 25);
    });
}

#[test]
fn import_and_export() {
    on_little_stack(|| {
        assert_eq!(ach::import(FILE_ROW, BATCH_ROW, LIST).as_deref(), Ok(LISTED));
        let lines = ach::export(LISTED).unwrap();
        assert_eq!(ach::import(FILE_ROW, BATCH_ROW, &lines).as_deref(), Ok(LISTED));
        assert_eq!(ach::import(FILE_ROW, BATCH_ROW, b"X").unwrap_err().number, 29);
        assert_eq!(ach::export(&LISTED[1..]).unwrap_err().number, 24);
    });
}
