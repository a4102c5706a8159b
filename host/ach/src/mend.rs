//! Files mended: controls and fillers as the other records call for, and the list of what was
//! changed.

use crate::boundary;
use crate::fields::record_type;
use crate::refusal::{granted, Refusal};
use crate::way::Way;

/// A mended file, in memory of its own.
#[derive(Clone, Debug, PartialEq, Eq)]
pub struct Mended {
    /// The file, which is accepted.
    pub file: Vec<u8>,
    /// The list of what was changed, as [`mend_into`] leaves it. [`Mended::changes`] reads it.
    pub list: Vec<u8>,
}

impl Mended {
    /// What was changed.
    pub fn changes(&self) -> Changes<'_> {
        Changes::of(&self.list).expect("what mending lists is a list of changes")
    }
}

/// What mending changed. A filler that had but a wrong line end is not listed.
#[derive(Clone, Debug, Default, PartialEq, Eq)]
pub struct Changes<'l> {
    /// The fields of batch controls, record by record and field by field.
    pub batch_controls: Vec<Change<'l>>,
    /// The fields of the file control.
    pub file_control: Vec<Change<'l>>,
    /// The number of fillers, if it is another.
    pub fillers: Option<Fillers>,
}

/// A field that was changed.
#[derive(Clone, Copy, Debug, PartialEq, Eq)]
pub struct Change<'l> {
    /// The number of its record, counted from 1.
    pub record: u64,
    /// Its number in that record, counted from 1.
    pub field: u8,
    /// What stood there.
    pub old: &'l [u8],
    /// What stands there now.
    pub new: &'l [u8],
}

/// Another number of fillers.
#[derive(Clone, Copy, Debug, PartialEq, Eq)]
pub struct Fillers {
    /// How many there were; nothing for more than nine.
    pub old: Option<u8>,
    /// How many there are.
    pub new: u8,
}

impl<'l> Changes<'l> {
    /// Reads a list of changes; nothing if the bytes are no such list.
    ///
    /// ```
    /// use ach::{Changes, Fillers};
    ///
    /// let changes = Changes::of(b"000000000000000000001+3").unwrap();
    /// assert_eq!(changes.fillers, Some(Fillers { old: None, new: 3 }));
    /// assert!(Changes::of(&[b'0'; 21]).unwrap().is_empty());
    /// assert_eq!(Changes::of(b"0000000"), None);
    /// ```
    pub fn of(list: &'l [u8]) -> Option<Self> {
        let mut unread = Unread(list);
        let changes = Changes {
            batch_controls: unread.fields(b'8')?,
            file_control: unread.fields(b'9')?,
            fillers: unread.fillers()?,
        };
        unread.0.is_empty().then_some(changes)
    }

    /// Whether nothing was changed.
    pub fn is_empty(&self) -> bool {
        *self == Changes::default()
    }
}

/// What is left to read of a list.
struct Unread<'l>(&'l [u8]);

impl<'l> Unread<'l> {
    /// A section of changed fields, of the controls with this digit.
    fn fields(&mut self, digit: u8) -> Option<Vec<Change<'l>>> {
        let count = self.number(7)?;
        (0..count).map(|_| self.change(digit)).collect()
    }

    fn change(&mut self, digit: u8) -> Option<Change<'l>> {
        let (record, field) = (self.number(7)?, self.number(2)? as u8);
        // The record's type, field 1, is never changed.
        let known = record_type(digit)?.field(field).filter(|_| field > 1);
        let width = known?.width();
        Some(Change { record, field, old: self.take(width)?, new: self.take(width)? })
    }

    /// The section of the fillers, which has a row or none.
    fn fillers(&mut self) -> Option<Option<Fillers>> {
        match self.number(7)? {
            0 => Some(None),
            1 => Some(Some(Fillers { old: self.old_fillers()?, new: self.number(1)? as u8 })),
            _ => None,
        }
    }

    fn old_fillers(&mut self) -> Option<Option<u8>> {
        match self.take(1)? {
            b"+" => Some(None),
            digit => Some(Some(number(digit)? as u8)),
        }
    }

    fn number(&mut self, places: usize) -> Option<u64> {
        number(self.take(places)?)
    }

    fn take(&mut self, length: usize) -> Option<&'l [u8]> {
        let (taken, rest) = self.0.split_at_checked(length)?;
        self.0 = rest;
        Some(taken)
    }
}

fn number(digits: &[u8]) -> Option<u64> {
    let next =
        |sum: u64, digit: &u8| digit.is_ascii_digit().then(|| 10 * sum + u64::from(digit - b'0'));
    digits.iter().try_fold(0, next)
}

/// Mends a file that is wrong in nothing but its controls and fillers, and lists what it changed.
///
/// Fields 2 to 11 of every batch control, fields 2 to 8 of the file control and all that stands
/// behind it become what the other records call for; no other record changes. Refused are a length
/// that is none (1), what the mended file is refused for, with its records and fields, and a record
/// behind the file control that is not all nines (4). A file that is accepted stays as it is.
///
/// ```
/// use ach::{Change, Fillers, Way};
///
/// let mended = ach::mend(Way::Plain, include_bytes!("../../../samples/refused/hash-as-printed.ach"))?;
/// assert_eq!(mended.file, include_bytes!("../../../samples/taxes.ach"));
/// let hash = Change { record: 6, field: 4, old: b"0064404066", new: b"0064414076" };
/// assert_eq!(mended.changes().batch_controls, [hash]);
///
/// let mended = ach::mend(Way::Plain, include_bytes!("../../../samples/refused/fillers-missing.ach"))?;
/// assert_eq!(mended.file, include_bytes!("../../../samples/whole.ach"));
/// assert_eq!(mended.changes().fillers, Some(Fillers { old: Some(0), new: 3 }));
///
/// let file = include_bytes!("../../../samples/refused/check-digit.ach");
/// let refusal = ach::mend(Way::Plain, file).unwrap_err();
/// assert_eq!((refusal.number, refusal.record, refusal.field), (12, 4, 4));
/// # Ok::<(), ach::Refusal>(())
/// ```
pub fn mend(way: Way, file: &[u8]) -> Result<Mended, Refusal> {
    let mut mended = vec![0; way.room_for_mended(file.len())];
    let mut list = vec![0; way.room_for_changes(file.len())];
    let (length, list_length) = mend_into(way, file, &mut mended, &mut list)?;
    mended.truncate(length);
    list.truncate(list_length);
    Ok(Mended { file: mended, list })
}

/// As [`mend`], with the mended file and the list of changes, which [`Changes::of`] reads, at the
/// front of two rooms; tells their lengths. [`Way::room_for_mended`] and [`Way::room_for_changes`]
/// say how much room suffices. If either is too short (23), neither is written to.
///
/// ```
/// use ach::Way;
///
/// let file = include_bytes!("../../../samples/refused/fillers-missing.ach");
/// let (mut room, mut list) = ([b'?'; 1_000], [b'?'; 25]);
/// assert_eq!(ach::mend_into(Way::Plain, file, &mut room, &mut list)?, (940, 23));
/// assert_eq!(room[..940], *include_bytes!("../../../samples/whole.ach"));
/// assert_eq!(&list, b"00000000000000000000103??");
/// let refusal = ach::mend_into(Way::Plain, file, &mut room, &mut list[..22]).unwrap_err();
/// assert_eq!(refusal.number, 23);
/// # Ok::<(), ach::Refusal>(())
/// ```
pub fn mend_into(
    way: Way,
    file: &[u8],
    room: &mut [u8],
    list: &mut [u8],
) -> Result<(usize, usize), Refusal> {
    let (mut length, mut list_length) = (0, 0);
    // SAFETY: each pointer comes from a slice of the length behind it; the two rooms are lent for
    // writing and overlap neither one another nor the file.
    let answer = unsafe {
        boundary::ach_mend(
            way.number(),
            file.as_ptr(),
            file.len(),
            room.as_mut_ptr(),
            room.len(),
            &mut length,
            list.as_mut_ptr(),
            list.len(),
            &mut list_length,
        )
    };
    granted(answer)?;
    Ok((length as usize, list_length as usize))
}
