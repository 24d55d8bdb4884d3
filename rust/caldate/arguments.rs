//! Reads lists of arguments, and writes for each a line: the command that it gives, or the status
//! and the message. `tests/arguments` compares them with its own.
//!
//! A list is the number of its words in decimal and a line feed, then for each word the number of its
//! bytes, a line feed and the bytes.
#![no_std]
#![no_main]

extern crate runtime as std;

include!(concat!(env!("OUT_DIR"), "/library.rs"));

use cal_datetime::{OffsetDateTime, PlainDateTime};
use cal_format::Format;
use cal_names::Names;
use cal_schedule::CalendarUnit;
use cal_text::DateOrMoment;
use cal_time::{Date, Month, Time, UtcOffset};
use cal_zone::{Policy, Zone};
use caldate_answers::reading::in_language::LanguageKind;
use caldate_answers::reading::reader::Reader;
use caldate_answers::reading::value_format::ValueFormat;
use caldate_answers::reading::yearless::AssumedYear;
use caldate_answers::reading::{DateOrder, Reading};
use caldate_answers::request::*;
use caldate_args::args::arguments::{BUFFER_BYTES, join};
use caldate_args::args::asked_by;
use caldate_args::command::*;
use caldate_args::data_files::system_files::SystemFiles;
use caldate_args::events::MAX_CALENDAR_BYTES;
use caldate_args::files::named_files::{MAX_NAME_BYTES, next_file};
use caldate_args::holidays::MAX_HOLIDAYS;
use caldate_args::zones::zone_source::{MAX_FILE_BYTES, MAX_PATH_BYTES, find_folder};
use caldate_lines::field::Field;
use caldate_lines::on_invalid::OnInvalid;
use caldate_run::program::perform;
use std::env::{Env, FillError};
use std::fs::Files;
use std::io::{Read, Write};
use std::prelude::rust_2024::*;
use std::process::ExitCode;
use std::{format, vec};

std::main!(answer_lists);

/// The names of fields, in the order of the header.
const NAMES: [&str; 4] = ["day", "due", "paid", "two"];

/// The moment at which each call starts.
fn start() -> PlainDateTime {
    let date = Date::from_calendar_date(2024, Month::February, 29).ok();
    let time = Time::from_hms_nano(23, 30, 0, 500_000_000).ok();
    PlainDateTime::new(date.unwrap_or(Date::MIN), time.unwrap_or(Time::MIDNIGHT))
}

/// The arguments of one call, and the files of the system.
struct Call<'s> {
    system: &'s std::HostRuntime,
    words: Vec<Vec<u8>>,
}

impl Env for Call<'_> {
    fn arg(&self, index: usize, buffer: &mut [u8]) -> Result<usize, FillError> {
        let word = index.checked_sub(1).and_then(|index| self.words.get(index));
        let word = word.ok_or(FillError::NotPresent)?;
        let front = buffer.get_mut(..word.len()).ok_or(FillError::TooLong)?;
        front.copy_from_slice(word);
        Ok(word.len())
    }

    fn var(&self, _: &str, _: &mut [u8]) -> Result<usize, FillError> {
        Err(FillError::NotPresent)
    }

    fn var_at(&self, _: usize, _: &mut [u8]) -> Result<usize, FillError> {
        Err(FillError::NotPresent)
    }
}

impl Files for Call<'_> {
    type File = std::fs::File;

    fn open(&self, path: &str) -> std::io::Result<Self::File> {
        self.system.open(path)
    }

    fn metadata(&self, path: &str) -> std::io::Result<std::fs::Metadata> {
        self.system.metadata(path)
    }
}

fn answer_lists(rt: std::HostRuntime) -> ExitCode {
    let mut input = Vec::new();
    let mut output = Vec::new();
    if rt.reader().read_to_end(&mut input).is_err() {
        return ExitCode::from(2);
    }
    let mut rest = input.as_slice();
    while !rest.is_empty() {
        let count = number(&mut rest);
        let words = (0..count).map(|_| word(&mut rest)).collect();
        output.extend_from_slice(&answer(&Call { system: &rt, words }));
        output.push(b'\n');
    }
    let written = std::io::writer(&rt).write_all(&output);
    ExitCode::from(u8::from(written.is_err()))
}

/// Takes a number and its line feed.
fn number(rest: &mut &[u8]) -> usize {
    let end = rest.iter().position(|byte| *byte == b'\n').unwrap_or(rest.len());
    let digits = std::str::from_utf8(&rest[..end]).unwrap_or("");
    *rest = rest.get(end + 1..).unwrap_or(&[]);
    digits.parse().unwrap_or(0)
}

/// Takes a word.
fn word(rest: &mut &[u8]) -> Vec<u8> {
    let length = number(rest).min(rest.len());
    let (word, others) = rest.split_at(length);
    *rest = others;
    word.to_vec()
}

/// Returns the command of a call, or its status and message.
fn answer(call: &Call<'_>) -> Vec<u8> {
    let mut buffer = [0; BUFFER_BYTES];
    let joined = join(call, &mut buffer);
    let words = joined.map(|joined| joined.words);
    let mut folder = [0; MAX_PATH_BYTES];
    let folder = find_folder(call, &mut folder);
    let mut first = [0; MAX_FILE_BYTES];
    let mut second = [0; MAX_FILE_BYTES];
    let mut days = [Date::MIN; MAX_HOLIDAYS];
    let mut calendar = [0; MAX_CALENDAR_BYTES];
    let mut files = SystemFiles::new(call, folder, &mut first, &mut second, &mut days, &mut calendar);
    let asked = asked_by(words, Some(start()), &mut files);
    match asked {
        Ok(command) => {
            let first = joined.and_then(|joined| joined.first_file);
            let files = first.map_or(0, |first| file_count(call, first));
            format!("{} files={files}", command_text(&command)).into_bytes()
        }
        Err(error) => message_of(error, words.unwrap_or(b"")),
    }
}

/// Returns how many files the arguments from an index on name.
fn file_count(call: &Call<'_>, first: usize) -> usize {
    let mut word = [0; MAX_NAME_BYTES];
    let mut next = first;
    let mut only_files = false;
    let mut count = 0;
    while next <= call.words.len() {
        (next, only_files) = next_file(call, next, only_files, &mut word);
        count += usize::from(next <= call.words.len());
        next += 1;
    }
    count
}

fn message_of(error: caldate_args::args::usage_error::UsageError<'_>, words: &[u8]) -> Vec<u8> {
    let mut message = Vec::new();
    let mut output = Vec::new();
    let now = Some(start());
    let ending = perform(Err(error), words, &now, &mut b"".as_slice(), &mut output, &mut message);
    let mut text = format!("{} ", ending.status).into_bytes();
    text.extend_from_slice(message.strip_suffix(b"\n").unwrap_or(&message));
    text
}

fn command_text(command: &Command<'_>) -> String {
    match command {
        Command::Help => "help".into(),
        Command::Version => "version".into(),
        Command::Lines(filter) => format!("lines {}", filter_text(filter)),
        Command::Named(filter, _) => format!("named {}", filter_text(filter)),
        Command::Once(filter) => format!("once {}", filter_text(filter)),
        Command::NamedOnce(filter, _) => format!("named-once {}", filter_text(filter)),
        Command::Dates(listing) => format!("list {} {} {}", listing.first, listing.last, step_text(listing.step)),
        Command::Moments(moments) => format!(
            "steps {} {} {} {} {}",
            zone_text(&moments.clock.zone),
            policy_name(moments.clock.policy),
            moment_text(moments.first),
            moment_text(moments.last),
            step_text(moments.step)
        ),
        Command::Events(events) => format!(
            "events {} {} {} {} {} {}",
            events.text.len(),
            zone_text(&events.zones.own),
            events.zones.named.as_ref().map_or_else(|| "none".into(), zone_text),
            moment_text(events.first),
            moment_text(events.last),
            if events.has_dates { "dates" } else { "moments" }
        ),
        Command::Recurring(dates) => format!("recur {} {}", span_text(&dates.span), dates.recurrence.text().as_str()),
    }
}

fn step_text(step: Step) -> String {
    let unit = match step.unit {
        StepUnit::Days => "days",
        StepUnit::Months => "months",
    };
    format!("{} {unit}", step.every)
}

fn span_text(span: &Span<'_>) -> String {
    match span {
        Span::Dates(first, last) => format!("{first} {last}"),
        Span::Moments(first, last) => format!("{} {}", moment_text(*first), moment_text(*last)),
        Span::InZone(zone, first, last) => {
            format!("{} {} {}", zone_text(zone), moment_text(*first), moment_text(*last))
        }
    }
}

fn filter_text(filter: &Filter<'_>) -> String {
    let mut parts = vec![request_text(&filter.request)];
    parts.push(
        match filter.on_invalid {
            OnInvalid::Keep => "keep",
            OnInvalid::Answer => "answer",
            OnInvalid::Drop => "drop",
            OnInvalid::Stop => "stop",
        }
        .into(),
    );
    parts.push(format!("skip={}", filter.skip));
    if let Some(field) = filter.field {
        parts.push(field_text(filter, field));
    }
    if let Some(name) = &filter.column {
        parts.push(format!("column={}", String::from_utf8_lossy(name.as_bytes())));
    }
    if filter.scans {
        parts.push("scan".into());
    }
    let readers: Vec<String> = filter.readers.as_slice().iter().map(reader_text).collect();
    parts.push(format!("read={}", readers.join(",")));
    parts.push(format!("offset={}", filter.assumptions.offset.whole_seconds()));
    parts.push(match filter.assumptions.year {
        AssumedYear::Is(year) => format!("year={year:04}"),
        AssumedYear::Near(date) => format!("year near {date}"),
    });
    if let Some(clock) = &filter.clock {
        parts.push(format!("zone={} {}", zone_text(&clock.zone), policy_name(clock.policy)));
    }
    let Some(first) = Date::from_calendar_date(2024, Month::March, 25).ok() else {
        return "no date".into();
    };
    parts.push(format!(
        "workdays={}",
        filter.workdays.workdays_between(first, first.saturating_add(cal_time::SignedDuration::days(14)))
    ));
    parts.join(" ")
}

fn policy_name(policy: Policy) -> &'static str {
    match policy {
        Policy::Compatible => "compatible",
        Policy::Earlier => "earlier",
        Policy::Later => "later",
        Policy::Reject => "reject",
    }
}

fn field_text(filter: &Filter<'_>, field: Field) -> String {
    // Fields have the order of a line, and their ranks that of the options.
    let mut several: Vec<_> = filter.several.as_slice().iter().map(|field| (field.rank, field.numbers)).collect();
    several.sort_by_key(|field| field.0);
    let mut fields: Vec<String> = several.iter().map(|(_, numbers)| format!("{}+{}", numbers.first, numbers.joined)).collect();
    if fields.is_empty() {
        fields.push(format!("{}+{}", field.first, field.joined));
    }
    let separator = [field.separator];
    let header: Vec<&[u8]> = NAMES.iter().map(|name| name.as_bytes()).collect();
    let numbers = match filter.names.numbers_in(field, &header.join(separator.as_slice())) {
        Ok(numbers) => format!("{numbers:?}"),
        Err(name) => format!("no {}", String::from_utf8_lossy(name)),
    };
    format!("fields={} names={numbers} separator={} csv={} appends={}", fields.join(","), field.separator, field.csv, field.appends)
}

fn reader_text(reader: &Reader) -> String {
    match reader {
        Reader::Named(Reading::Any) => "any".into(),
        Reader::Named(Reading::Date(DateOrder::Basic)) => "basic".into(),
        Reader::Named(Reading::Date(DateOrder::DayFirst)) => "dmy".into(),
        Reader::Named(Reading::Date(DateOrder::MonthFirst)) => "mdy".into(),
        Reader::Named(Reading::Unix(unit)) => unix_name(*unit).into(),
        Reader::Named(Reading::Local(_)) | Reader::Local => "local".into(),
        Reader::Named(Reading::IsoDate) => "iso-date".into(),
        Reader::Named(Reading::IsoMoment) => "iso-moment".into(),
        Reader::Named(Reading::IsoLocal(offset)) => format!("iso-local@{}", offset.whole_seconds()),
        Reader::Spelled(caldate_answers::reading::spelling::Spelling::Iso) => "spelled".into(),
        Reader::Spelled(caldate_answers::reading::spelling::Spelling::Seconds) => "unix".into(),
        Reader::Format(format) => value_format_text(format),
        Reader::Yearless(format) => format!("yearless {}", value_format_text(format)),
    }
}

fn value_format_text(format: &ValueFormat) -> String {
    match format {
        ValueFormat::Dates(_) => format!("date:{}", printed(format.as_format())),
        ValueFormat::Moments(_) => format!("moment:{}", printed(format.as_format())),
        ValueFormat::DateTimes(_) => format!("local:{}", printed(format.as_format())),
        ValueFormat::InLanguage(named) => {
            let kind = match named.kind() {
                LanguageKind::Dates(_) => "date",
                LanguageKind::Moments(_) => "moment",
                LanguageKind::DateTimes(_) => "local",
            };
            format!("{} {kind}:{}", named_text(named.names()), printed(format.as_format()))
        }
        ValueFormat::Lenient(_) => {
            let text = printed(format.as_format());
            format!("lenient {}:{text} from {}", kind_read(format, &text), first_year(format))
        }
    }
}

/// Returns the names of February and Thursday, which no two languages share.
fn named_text(names: &Names<'_>) -> String {
    format!("{}/{}", names.months[1], names.weekdays[3])
}

/// Returns what the format reads: a date, a moment, or a moment at any offset that is assumed.
fn kind_read(format: &ValueFormat, text: &str) -> &'static str {
    let other = UtcOffset::from_hms(2, 0, 0).unwrap_or(UtcOffset::UTC);
    match format.read(other, text.as_bytes()) {
        Ok(DateOrMoment::Date(_, _)) => "date",
        Ok(DateOrMoment::Moment(_, moment)) if moment.offset() == other => "local",
        Ok(DateOrMoment::Moment(_, _)) => "moment",
        Err(_) => "none",
    }
}

/// Returns the first year from 0 to 9999 whose strings the format reads so.
fn first_year(format: &ValueFormat) -> i32 {
    let mut buffer = [0; 2048];
    let offset = UtcOffset::from_hms(1, 0, 0).unwrap_or(UtcOffset::UTC);
    let first = (0..10_000).find(|year| {
        let date = Date::from_ordinal_date(*year, 60).ok().unwrap_or(Date::MIN);
        let moment = PlainDateTime::new(date, start().time()).assume_offset(offset);
        let length = format.as_format().print_offset_date_time(moment, &mut buffer).unwrap_or(0);
        let read = format.read(offset, &buffer[..length]);
        matches!(read, Ok(DateOrMoment::Date(_, date)) if date.year() == *year)
            || matches!(read, Ok(DateOrMoment::Moment(_, moment)) if moment.date().year() == *year)
    });
    first.unwrap_or(-1)
}

/// Returns what the format prints of a moment.
fn printed(format: &Format) -> String {
    let mut buffer = [0; 2048];
    let offset = UtcOffset::from_hms(1, 0, 0).unwrap_or(UtcOffset::UTC);
    let length = format.print_offset_date_time(start().assume_offset(offset), &mut buffer);
    String::from_utf8_lossy(&buffer[..length.unwrap_or(0)]).into_owned()
}

/// Returns the offsets of a zone in January and July 2024.
fn zone_text(zone: &Zone<'_>) -> String {
    let at = |seconds| zone.utc_offset_at(seconds).whole_seconds();
    format!("{}/{}", at(1_704_067_200), at(1_719_792_000))
}

fn unix_name(unit: UnixUnit) -> &'static str {
    match unit {
        UnixUnit::Milliseconds => "unix-ms",
        UnixUnit::Microseconds => "unix-us",
        UnixUnit::Nanoseconds => "unix-ns",
    }
}

fn unit_name(unit: TimeUnit) -> &'static str {
    match unit {
        TimeUnit::Years => "years",
        TimeUnit::Months => "months",
        TimeUnit::Weeks => "weeks",
        TimeUnit::Days => "days",
        TimeUnit::Workdays => "workdays",
        TimeUnit::Hours => "hours",
        TimeUnit::Minutes => "minutes",
        TimeUnit::Seconds => "seconds",
    }
}

fn unit_of_calendar(unit: CalendarUnit) -> &'static str {
    match unit {
        CalendarUnit::Day => "day",
        CalendarUnit::Week => "week",
        CalendarUnit::Month => "month",
        CalendarUnit::Quarter => "quarter",
        CalendarUnit::Year => "year",
    }
}

fn request_text(request: &Request<'_>) -> String {
    match request {
        Request::To(form) => format!("to {}", form_name(*form)),
        Request::ToIso => "to iso".into(),
        Request::Print(format) => format!("print {}", printed(format)),
        Request::PrintInLanguage(format, names) => format!("print {} {}", named_text(names), printed(format)),
        Request::Move(by) => move_text(*by),
        Request::MoveAt(clock, by) => {
            format!("at {} {}", clock_text(clock), move_text(*by))
        }
        Request::Until(own, target, measure) => format!("{}until {}", own_text(own), target_text(target, *measure)),
        Request::Since(own, target, measure) => format!("{}since {}", own_text(own), target_text(target, *measure)),
        Request::At(place, form) => format!("at {} to {}", place_text(place), form_name(*form)),
        Request::PrintAt(place, format) => format!("at {} print {}", place_text(place), printed(format)),
        Request::PrintInLanguageAt(place, format, names) => {
            format!("at {} print {} {}", place_text(place), named_text(names), printed(format))
        }
        Request::Keep(Bounds::FromTo(first, last)) => {
            format!("keep from {} to {}", found_text(first), found_text(last))
        }
        Request::Keep(Bounds::After(bound)) => format!("keep after {}", found_text(bound)),
        Request::Keep(Bounds::Before(bound)) => format!("keep before {}", found_text(bound)),
    }
}

fn place_text(place: &Place<'_>) -> String {
    match place {
        Place::Offset(offset) => format!("{}", offset.whole_seconds()),
        Place::Zone(zone) => zone_text(zone),
    }
}

/// Returns the name of a form: the first that gives a value of the same kind.
fn form_name(form: Form) -> &'static str {
    match form {
        Form::Date(cal_text::DateForm::Calendar) => "calendar",
        Form::Date(cal_text::DateForm::Ordinal) => "ordinal",
        Form::Date(cal_text::DateForm::Week) => "week",
        Form::Date(cal_text::DateForm::JulianDay) => "julian",
        Form::Weekday => "weekday",
        Form::ShortWeekday => "short-weekday",
        Form::Month => "month",
        Form::Quarter => "quarter",
        Form::Basic => "basic",
        Form::Moment(cal_text::MomentForm::Rfc3339) => "rfc3339",
        Form::Moment(cal_text::MomentForm::Unix) => "unix",
        Form::Unix(unit) => unix_name(unit),
    }
}

fn move_text(by: Move) -> String {
    match by {
        Move::Day(by) => day_move_text(by),
        Move::Days(duration) => format!("add {}d", duration.whole_seconds()),
        Move::Add(duration) => format!("add {}s", duration.whole_seconds()),
        Move::Floor(minutes) => format!("floor {minutes}"),
        Move::Period(period) => {
            format!("add {} months {} days {}", period.whole_months(), period.whole_days(), period.duration().whole_nanoseconds())
        }
        Move::Round(unit) => format!("round {}s", unit.length().whole_seconds()),
    }
}

fn day_move_text(by: DayMove) -> String {
    match by {
        DayMove::Next(weekday, count) => format!("next {weekday} {count}"),
        DayMove::Last(weekday, count) => format!("last {weekday} {count}"),
        DayMove::OnOrAfter(weekday) => format!("on-or-after {weekday}"),
        DayMove::OnOrBefore(weekday) => format!("on-or-before {weekday}"),
        DayMove::Months(count) => format!("add {count} months"),
        DayMove::Years(count) => format!("add {count} years"),
        DayMove::Workdays(count) => format!("add {count} workdays"),
        DayMove::Start(unit) => format!("start {}", unit_of_calendar(unit)),
        DayMove::End(unit) => format!("end {}", unit_of_calendar(unit)),
    }
}

/// Returns the clocks after `at`, if there are any.
fn own_text(own: &Option<Clock<'_>>) -> String {
    own.as_ref().map_or_else(String::new, |clock| format!("at {} ", clock_text(clock)))
}

fn clock_text(clock: &Clock<'_>) -> String {
    format!("{} {}", zone_text(&clock.zone), policy_name(clock.policy))
}

fn target_text(target: &Target<'_>, measure: Option<Measure>) -> String {
    let text = match target {
        Target::Text(found) => found_text(found),
        Target::Fields(numbers) => format!("field {}+{}", numbers.first, numbers.joined),
        Target::Name(name) => format!("field {}", String::from_utf8_lossy(name.as_bytes())),
    };
    match measure {
        Some(Measure::Units(unit)) => format!("{text} in {}", unit_name(unit)),
        Some(Measure::Period) => format!("{text} in P"),
        Some(Measure::Duration) => format!("{text} in PT"),
        Some(Measure::Clock) => format!("{text} in HH:MM:SS"),
        None => text,
    }
}

fn found_text(found: &DateOrMoment) -> String {
    match found {
        DateOrMoment::Date(_, date) => format!("{date}"),
        DateOrMoment::Moment(_, moment) => moment_text(*moment),
    }
}

/// Returns the nanoseconds of the Unix time, and the seconds of the offset.
fn moment_text(moment: OffsetDateTime) -> String {
    format!("{}@{}", moment.unix_timestamp_nanos(), moment.offset().whole_seconds())
}
