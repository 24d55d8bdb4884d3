//! Times functions of the crate and of the crates `time`, `chrono` and `chrono-tz`, over random dates of
//! the years 1 to 9999, in the rows of `clients/c/bench.h`. The loops of a row run in turn. The
//! argument is the number of rounds.
#![allow(unexpected_cfgs)]

mod calls;
mod formats;
mod zones;

use std::hint::black_box;

const DRAWN: usize = 4096;
const PASSES: usize = 10;
const ROUNDS: usize = 51;

/// A random date, with the numbers for the calls.
struct Drawn {
    julian_day: i32,
    year: i32,
    month: u8,
    day: u8,
    ordinal: u16,
    days: i64,
}

/// Random numbers.
struct Draw(u64);

impl Draw {
    fn below(&mut self, limit: u64) -> u64 {
        self.0 ^= self.0 << 13;
        self.0 ^= self.0 >> 7;
        self.0 ^= self.0 << 17;
        self.0 % limit
    }
}

fn drawn() -> Vec<Drawn> {
    let mut draw = Draw(0x9e37_79b9_7f4a_7c15);
    (0..DRAWN)
        .map(|_| {
            let julian_day = 1_721_426 + draw.below(3_652_059) as i32;
            let date = fotsevindre::Date::from_julian_day(julian_day).unwrap();
            let (year, month, day) = date.to_calendar_date();
            let days = draw.below(20_001) as i64 - 10_000;
            Drawn { julian_day, year, month: month as u8, day, ordinal: date.ordinal(), days }
        })
        .collect()
}

/// A call, and its crate.
type Timed<'a> = (&'static str, Box<dyn Fn() + 'a>);

/// The call for each value.
fn over<'a, T, R>(values: &'a [T], call: impl Fn(&T) -> R + 'a) -> Box<dyn Fn() + 'a> {
    Box::new(move || {
        for value in values {
            black_box(call(black_box(value)));
        }
    })
}

#[repr(C)]
struct Timespec {
    seconds: i64,
    nanoseconds: i64,
}

extern "C" {
    fn clock_gettime(clock: i32, time: *mut Timespec) -> i32;
}

/// Returns the processor time of this program in seconds. Linux has this number and struct on 64 bits.
fn processor_time() -> f64 {
    const CLOCK_PROCESS_CPUTIME_ID: i32 = 2;
    let mut time = Timespec { seconds: 0, nanoseconds: 0 };
    assert_eq!(unsafe { clock_gettime(CLOCK_PROCESS_CPUTIME_ID, &mut time) }, 0);
    time.seconds as f64 + time.nanoseconds as f64 / 1e9
}

/// Times the functions in turn, and prints the minimum of each.
fn compare(group: &str, name: &str, calls: Vec<Timed>) {
    let rounds = std::env::args().nth(1).map_or(ROUNDS, |rounds| rounds.parse().unwrap());
    let mut times = vec![f64::INFINITY; calls.len()];
    for _ in 0..rounds {
        for ((_, call), least) in calls.iter().zip(&mut times) {
            let start = processor_time();
            for _ in 0..PASSES {
                call();
            }
            *least = least.min((processor_time() - start) * 1e9 / (DRAWN * PASSES) as f64);
        }
    }
    print!("rust\t{group}, Rust\t{name}");
    for ((who, _), least) in calls.iter().zip(&times) {
        print!("\t{who}={least:.2}");
    }
    println!();
}

fn main() {
    let numbers = drawn();
    let ours: Vec<_> = numbers.iter().map(|n| fotsevindre::Date::from_julian_day(n.julian_day).unwrap()).collect();
    let ours_moved: Vec<_> = ours.iter().zip(&numbers).map(|(date, n)| (*date, fotsevindre::Duration::days(n.days))).collect();
    #[cfg(has_time)]
    let times: Vec<_> = numbers.iter().map(|n| time::Date::from_julian_day(n.julian_day).unwrap()).collect();
    #[cfg(has_time)]
    let times_moved: Vec<_> = times.iter().zip(&numbers).map(|(date, n)| (*date, time::Duration::days(n.days))).collect();
    #[cfg(has_chrono)]
    let chronos: Vec<_> = numbers.iter().map(|n| chrono::NaiveDate::from_yo_opt(n.year, n.ordinal.into()).unwrap()).collect();
    #[cfg(has_chrono)]
    let chronos_moved: Vec<_> = chronos.iter().zip(&numbers).map(|(date, n)| (*date, chrono::Duration::days(n.days))).collect();
    #[cfg(has_chrono)]
    use chrono::Datelike;

    compare(
        "dates",
        "from_calendar_date",
        vec![
            ("here", over(&numbers, |n| fotsevindre::Date::from_calendar_date(n.year, n.month.try_into().unwrap(), n.day))),
            #[cfg(has_time)]
            ("time", over(&numbers, |n| time::Date::from_calendar_date(n.year, n.month.try_into().unwrap(), n.day))),
            #[cfg(has_chrono)]
            ("chrono", over(&numbers, |n| chrono::NaiveDate::from_ymd_opt(n.year, n.month.into(), n.day.into()))),
        ],
    );
    compare(
        "dates",
        "from_ordinal_date",
        vec![
            ("here", over(&numbers, |n| fotsevindre::Date::from_ordinal_date(n.year, n.ordinal))),
            #[cfg(has_time)]
            ("time", over(&numbers, |n| time::Date::from_ordinal_date(n.year, n.ordinal))),
            #[cfg(has_chrono)]
            ("chrono", over(&numbers, |n| chrono::NaiveDate::from_yo_opt(n.year, n.ordinal.into()))),
        ],
    );
    compare(
        "dates",
        "to_calendar_date",
        vec![
            ("here", over(&ours, |date| date.to_calendar_date())),
            #[cfg(has_time)]
            ("time", over(&times, |date| date.to_calendar_date())),
            #[cfg(has_chrono)]
            ("chrono", over(&chronos, |date| (date.year(), date.month(), date.day()))),
        ],
    );
    compare(
        "dates",
        "to_iso_week_date",
        vec![
            ("here", over(&ours, |date| date.to_iso_week_date())),
            #[cfg(has_time)]
            ("time", over(&times, |date| date.to_iso_week_date())),
            #[cfg(has_chrono)]
            ("chrono", over(&chronos, |date| (date.iso_week(), date.weekday()))),
        ],
    );
    compare(
        "dates",
        "weekday",
        vec![
            ("here", over(&ours, |date| date.weekday())),
            #[cfg(has_time)]
            ("time", over(&times, |date| date.weekday())),
            #[cfg(has_chrono)]
            ("chrono", over(&chronos, |date| date.weekday())),
        ],
    );
    compare(
        "dates",
        "next_day",
        vec![
            ("here", over(&ours, |date| date.next_day())),
            #[cfg(has_time)]
            ("time", over(&times, |date| date.next_day())),
            #[cfg(has_chrono)]
            ("chrono", over(&chronos, |date| date.succ_opt())),
        ],
    );
    compare(
        "dates",
        "next_occurrence",
        vec![
            ("here", over(&ours, |date| date.checked_next_occurrence(black_box(fotsevindre::Weekday::Friday)))),
            #[cfg(has_chrono)]
            (
                "chrono",
                over(&chronos, |date| {
                    let friday = black_box(chrono::Weekday::Fri).num_days_from_monday();
                    let past = (friday + 6 - date.weekday().num_days_from_monday()) % 7 + 1;
                    date.checked_add_days(chrono::Days::new(past.into()))
                }),
            ),
        ],
    );
    compare(
        "dates",
        "checked_add",
        vec![
            ("here", over(&ours_moved, |(date, duration)| date.checked_add(*duration))),
            #[cfg(has_time)]
            ("time", over(&times_moved, |(date, duration)| date.checked_add(*duration))),
            #[cfg(has_chrono)]
            ("chrono", over(&chronos_moved, |(date, duration)| date.checked_add_signed(*duration))),
        ],
    );
    compare(
        "dates",
        "to_string",
        vec![
            ("here", over(&ours, |date| date.to_string())),
            #[cfg(has_time)]
            ("time", over(&times, |date| date.to_string())),
            #[cfg(has_chrono)]
            ("chrono", over(&chronos, |date| date.to_string())),
        ],
    );
    #[cfg(has_time)]
    calls::compare_calls(&numbers);
    formats::compare_formats();
    zones::compare_zones();
}
