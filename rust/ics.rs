//! Events of calendar files.

use crate::cal_ics::{Event, ParseEventError, first_event};
use core::iter::FusedIterator;

/// An iterator over the events of a calendar file (iCalendar, RFC 5545) with unfolded lines, as
/// [`unfold`](crate::recurrence::unfold) returns them.
///
/// Positions count from the start of the text. After an error no event follows.
///
/// ```
/// use fotsevindre::calendar::Events;
/// use fotsevindre::recurrence::unfold;
///
/// let file = b"BEGIN:VCALENDAR\r\nBEGIN:VEVENT\r\nSUMMARY:Team\r\n  meeting\r\nDTSTART:20240101\r\n\
///     RRULE:FREQ=MONTHLY;BYDAY=-1FR;COUNT=2\r\nEND:VEVENT\r\nEND:VCALENDAR\r\n";
/// let mut unfolded = [0; 200];
/// let length = unfold(file, &mut unfolded).unwrap();
/// let event = Events::new(&unfolded[..length]).next().unwrap()?;
/// assert_eq!(event.value(b"SUMMARY"), Some(&b"Team meeting"[..]));
/// let days = event.set()?.days().unwrap();
/// let days: Vec<String> = days.set().days().map(|day| day.to_string()).collect();
/// assert_eq!(days, ["2024-01-26", "2024-02-23"]);
/// # Ok::<(), Box<dyn std::error::Error>>(())
/// ```
#[derive(Clone, Debug)]
pub struct Events<'a> {
    text: &'a [u8],
    rest: Option<&'a [u8]>,
}

impl<'a> Events<'a> {
    /// Returns an iterator over the events of a text with unfolded lines.
    pub const fn new(text: &'a [u8]) -> Self {
        Events { text, rest: Some(text) }
    }
}

impl<'a> Iterator for Events<'a> {
    type Item = Result<Event<'a>, ParseEventError>;

    fn next(&mut self) -> Option<Self::Item> {
        let rest = self.rest.take()?;
        let before = self.text.len() - rest.len();
        match first_event(rest) {
            Ok(found) => {
                let event = found?;
                self.rest = event.rest;
                Some(Ok(Event { position: before + event.position, ..event }))
            }
            Err(error) => Some(Err(ParseEventError { position: before + error.position, ..error })),
        }
    }
}

impl FusedIterator for Events<'_> {}
