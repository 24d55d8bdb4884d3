//! The tests of the crate.

mod calendars;
mod columns;
mod conditions;
mod drawn;
mod durations;
mod errors;
mod events;
mod every_day;
mod formats;
mod grammar;
mod holidays;
mod intervals;
mod iso;
mod lenient;
mod moments;
mod names;
mod rounding;
mod rows;
mod rules;
mod schedule;
mod texts;
mod walks;
mod workdays;
mod zoned;
mod zones;
