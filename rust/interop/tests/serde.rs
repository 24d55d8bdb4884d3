//! Values in JSON, and errors.

use fotsevindre::{Date, Month, OffsetDateTime, PlainDateTime, Time, UtcOffset, Weekday};
use serde::{Deserialize, Serialize};

#[derive(Serialize, Deserialize, Debug, PartialEq)]
struct Everything {
    date: Date,
    time: Time,
    offset: UtcOffset,
    month: Month,
    weekday: Weekday,
    #[serde(default)]
    until: Option<Date>,
}

#[test]
fn both_ways() {
    let value = Everything {
        date: Date::MAX,
        time: Time::MAX,
        offset: UtcOffset::from_hms(-5, 30, 0).unwrap(),
        month: Month::May,
        weekday: Weekday::Friday,
        until: Some(Date::MIN),
    };
    let text = r#"{"date":"+999999-12-31","time":"23:59:59.999999999","offset":"-05:30:00","month":"May","weekday":"Friday","until":"-999999-01-01"}"#;
    assert_eq!(serde_json::to_string(&value).unwrap(), text);
    assert_eq!(serde_json::from_str::<Everything>(text).unwrap(), value);
    let none = Everything { until: None, ..value };
    let text = text.replace(r#""-999999-01-01""#, "null");
    assert_eq!(serde_json::to_string(&none).unwrap(), text);
    assert_eq!(serde_json::from_str::<Everything>(&text).unwrap(), none);
    assert_eq!(serde_json::from_str::<Everything>(&text.replace(r#","until":null"#, "")).unwrap(), none);
}

#[derive(Deserialize, Debug)]
struct Day {
    #[serde(rename = "day")]
    _day: Date,
}

#[test]
fn errors() {
    for (text, words) in [
        (r#"{"day":"2023-02-29"}"#, "day was not in range"),
        (r#"{"day":"2024-02-3"}"#, "unexpected end at 9"),
        (r#"{"day":2460370}"#, "expected a string"),
    ] {
        let error = serde_json::from_str::<Day>(text).unwrap_err().to_string();
        assert!(error.contains(words), "{error}");
    }
}

#[derive(Serialize, Deserialize, Debug, PartialEq)]
struct Flight {
    leaves: PlainDateTime,
    lands: OffsetDateTime,
}

#[test]
fn date_times() {
    let text = r#"{"leaves":"2024-02-29 23:59:59.25","lands":"2024-03-01 4:05:00.0 +01:00:00"}"#;
    let flight: Flight = serde_json::from_str(text).unwrap();
    assert_eq!(serde_json::to_string(&flight).unwrap(), text);
    let lands = text.replace("2024-03-01 4:05:00.0 +01:00:00", "2024-03-01T03:05:00Z");
    assert_eq!(serde_json::from_str::<Flight>(&lands).unwrap(), flight);
}
