// Classes over the functions of fotsevindre.h for C++17 and later. The function of the same name there
// documents ranges and errors: fots_moment_* for PlainDateTime and OffsetDateTime, fots_rule_* for
// Rule, fots_recurrence_* for Recurrence. A function without a result throws an error, or returns an
// empty std::optional if the result is out of range.
#ifndef FOTSEVINDRE_HPP
#define FOTSEVINDRE_HPP

#include <algorithm>
#include <array>
#include <chrono>
#include <cstddef>
#include <cstdint>
#include <cstdlib>
#include <filesystem>
#include <fstream>
#include <functional>
#include <iterator>
#include <map>
#include <mutex>
#include <optional>
#include <ostream>
#include <stdexcept>
#include <string>
#include <string_view>
#include <system_error>
#include <tuple>
#include <type_traits>
#include <utility>
#include <vector>

#include "fotsevindre.h"
#ifdef FOTSEVINDRE_ZONE_DATA
#include "fotsevindre_zone_data.h"
#endif

namespace fotsevindre {

class Zone;

// Thrown by a function without a result. status() says why.
class error : public std::runtime_error {
public:
    explicit error(std::int32_t status, std::size_t position = SIZE_MAX)
        : error(status, position, fots_parse_error_text(status, position, "", 0))
    {
    }
    // Takes a sentence of C, or a message of its own.
    error(std::int32_t status, std::size_t position, const fots_sentence &sentence)
        : error(status, position, std::string(sentence.bytes, sentence.length))
    {
    }
    error(std::int32_t status, std::size_t position, const std::string &message)
        : std::runtime_error(message), status_(status), position_(position)
    {
    }

    // Returns the status of the call, such as FOTS_DAY_OUT_OF_RANGE.
    [[nodiscard]] std::int32_t status() const noexcept { return status_; }

    // Returns the name of the status: the component, such as "day", or a few words.
    [[nodiscard]] const char *name() const noexcept { return fots_status_name(status_); }

    // Returns whether the range of the component depends on other components.
    [[nodiscard]] bool is_conditional() const noexcept { return fots_status_is_conditional(status_) != 0; }

    // Returns the position of the first wrong byte for FOTS_UNEXPECTED_BYTE, the length of the text
    // for FOTS_UNEXPECTED_END, the position of the part for a parse_rule_error, of the item for
    // FOTS_UNKNOWN_ITEM, of the word of a rule of holidays, of the first wrong byte of a zone, and of the
    // first of the holidays that isn't after the one before. For FOTS_CONTRADICTION it is the status of the component, such as
    // FOTS_WEEKDAY_OUT_OF_RANGE.
    [[nodiscard]] std::size_t position() const noexcept { return position_; }

private:
    std::int32_t status_;
    std::size_t position_;
};

// Thrown by Recurrence::parse: the first wrong part of a text.
class parse_rule_error : public error {
public:
    parse_rule_error(std::int32_t status, std::size_t position, std::uint32_t part)
        : error(status, position, fots_recurrence_error_text(status, part, position)), part_(part)
    {
    }

    // Returns the part, such as FOTS_RULE_BYDAY, or 0 for FOTS_UNKNOWN_PART and
    // FOTS_MISSING_FREQUENCY.
    [[nodiscard]] std::uint32_t part() const noexcept { return part_; }

    // Returns the name of the part, such as "BYDAY", or "part" for 0.
    [[nodiscard]] const char *part_name() const noexcept
    {
        constexpr const char *names[] = {"part", "FREQ", "INTERVAL", "WKST", "BYMONTH", "BYMONTHDAY", "BYDAY", "UNTIL", "COUNT", "BYSETPOS",
            "BYYEARDAY", "BYWEEKNO", "BYHOUR", "BYMINUTE", "BYSECOND"};
        return names[part_ <= FOTS_RULE_BYSECOND ? part_ : 0];
    }

private:
    std::uint32_t part_;
};

// Thrown for the first invalid line of an Event: position() is its start in the lines.
class parse_event_error : public error {
public:
    parse_event_error(std::int32_t status, std::size_t position, std::uint32_t line)
        : error(status, position, message(status, position, line)), line_(line)
    {
    }

    // Returns the line, such as FOTS_EVENT_RDATE, or 0 for FOTS_MISSING_START. For
    // FOTS_WRONG_KIND position() is SIZE_MAX.
    [[nodiscard]] std::uint32_t line() const noexcept { return line_; }

private:
    static std::string message(std::int32_t status, std::size_t position, std::uint32_t line)
    {
        constexpr const char *names[] = {"", " in DTSTART", " in RRULE", " in RDATE", " in EXDATE"};
        const std::string place = position == SIZE_MAX ? "" : " at position " + std::to_string(position);
        return fots_status_name(status) + std::string(names[line <= FOTS_EVENT_EXDATE ? line : 0]) + place;
    }

    std::uint32_t line_;
};

namespace detail {

// Marks a valid value from a function, which is not checked again.
struct Unchecked {};

// Returns the result, or throws an error.
template <class Result> Result value_or_throw(Result result)
{
    if (result.status != FOTS_OK) {
        throw error(result.status);
    }
    return result;
}

// Returns the result of a function that takes components, or throws an error that has these values.
template <class Result, class Set> Result made_or_throw(Result result, Set set)
{
    if (result.status != FOTS_OK) {
        fots_components components = {};
        set(components);
        throw error(result.status, SIZE_MAX, fots_component_error_text(result.status, &components));
    }
    return result;
}

// Returns the first byte of a text, which is never null.
inline const char *data(std::string_view text) noexcept { return text.empty() ? "" : text.data(); }

// Returns the result of a function that parses a text, or throws an error with its position.
template <class Result> Result parsed_or_throw(Result result, std::string_view text)
{
    if (result.status != FOTS_OK) {
        throw error(result.status, result.position, fots_parse_error_text(result.status, result.position, data(text), text.size()));
    }
    return result;
}

// Returns the pivot of a lenient format, or FOTS_NO_PIVOT for another one.
template <class Format> auto pivot_of(const Format &format, int) -> decltype(format.pivot()) { return format.pivot(); }
template <class Format> std::int32_t pivot_of(const Format &, long) { return FOTS_NO_PIVOT; }

// Returns the result of a function that parses a text by a format, or throws an error.
template <class Result, class Format> Result parsed_or_throw(Result result, std::string_view text, const Format &format)
{
    if (result.status != FOTS_OK) {
        throw error(result.status, result.position,
            fots_format_error_text(result.status, result.position, data(text), text.size(), format.c(), pivot_of(format, 0)));
    }
    return result;
}

template <class... Of> fots_moment moment_or_throw(fots_parse_moment_result result, const Of &...of)
{
    parsed_or_throw(result, of...);
    return {result.date, result.offset, result.time};
}

// Returns the result of a function that parses a recurrence, or throws a parse_rule_error.
template <class Result> Result recurrence_or_throw(Result result)
{
    if (result.status != FOTS_OK) {
        throw parse_rule_error(result.status, result.position, result.part);
    }
    return result;
}

// Returns the result of a function that reads the set of an event, or throws a parse_event_error.
template <class Result> Result event_or_throw(Result result)
{
    if (result.status != FOTS_OK && (result.line != 0 || result.position != SIZE_MAX)) {
        throw parse_event_error(result.status, result.position, result.line);
    }
    return value_or_throw(result);
}

// Returns whether there is a result, false for FOTS_RESULT_OUT_OF_RANGE, or throws an error.
template <class Result> bool is_in_range(Result result)
{
    return result.status != FOTS_RESULT_OUT_OF_RANGE && (value_or_throw(result), true);
}

inline std::string text(fots_text_result result)
{
    return std::string(value_or_throw(result).bytes, result.length);
}

// Returns the string that a function writes to a buffer.
template <std::size_t max_item_length = FOTS_MAX_ITEM_LENGTH, class Call> std::string written(Call call)
{
    char bytes[FOTS_MAX_ITEMS * max_item_length];
    return std::string(bytes, value_or_throw(call(bytes, sizeof bytes)).length);
}

// Returns the bytes of a regular file. Nothing else is opened, since a pipe would wait.
inline std::string bytes_of_file(const std::filesystem::path &path)
{
    constexpr std::uintmax_t max_bytes = 65536;
    if (!std::filesystem::is_regular_file(path)) {
        const bool is_there = std::filesystem::exists(path);
        throw std::filesystem::filesystem_error("not a regular file", path,
            std::make_error_code(is_there ? std::errc::invalid_argument : std::errc::no_such_file_or_directory));
    }
    if (std::filesystem::file_size(path) > max_bytes) {
        throw std::filesystem::filesystem_error("file too long", path, std::make_error_code(std::errc::file_too_large));
    }
    std::ifstream file(path, std::ios::binary);
    std::string bytes(max_bytes, '\0');
    file.read(&bytes[0], static_cast<std::streamsize>(max_bytes));
    if (!file.is_open() || file.bad()) {
        throw std::filesystem::filesystem_error("can't read a file", path, std::make_error_code(std::errc::io_error));
    }
    bytes.resize(static_cast<std::size_t>(file.gcount()));
    return bytes;
}

// Returns the file of a zone by its name.
inline std::filesystem::path file_of_zone(const std::string &name)
{
    constexpr const char *letters = "ABCDEFGHIJKLMNOPQRSTUVWXYZabcdefghijklmnopqrstuvwxyz";
    if (name.find_first_of(letters) != 0 || name.find_first_not_of(letters + std::string("0123456789_-+/")) != std::string::npos) {
        throw std::invalid_argument("invalid name of a zone");
    }
    const char *const folder = std::getenv("TZDIR");
    return std::filesystem::path(folder && *folder ? folder : "/usr/share/zoneinfo") / name;
}

// Returns the bytes of the file of a zone by its name, or if it can't be read of the zone in the program.
inline std::string bytes_of_zone(const std::string &name)
{
    const std::filesystem::path path = file_of_zone(name);
#ifdef FOTSEVINDRE_ZONE_DATA
    try {
        return bytes_of_file(path);
    } catch (const std::system_error &thrown) {
        const fots_bundled_zone *const zone = fots_bundled_zone_named(name.c_str());
        if (!zone || thrown.code() == std::errc::invalid_argument || thrown.code() == std::errc::file_too_large) {
            throw;
        }
        return std::string(reinterpret_cast<const char *>(zone->bytes), zone->length);
    }
#else
    return bytes_of_file(path);
#endif
}

// Compares by a key.
template <class Value> struct Ordered {
    [[nodiscard]] friend bool operator==(const Value &one, const Value &other) { return one.key() == other.key(); }
    [[nodiscard]] friend bool operator!=(const Value &one, const Value &other) { return one.key() != other.key(); }
    [[nodiscard]] friend bool operator<(const Value &one, const Value &other) { return one.key() < other.key(); }
    [[nodiscard]] friend bool operator<=(const Value &one, const Value &other) { return one.key() <= other.key(); }
    [[nodiscard]] friend bool operator>(const Value &one, const Value &other) { return one.key() > other.key(); }
    [[nodiscard]] friend bool operator>=(const Value &one, const Value &other) { return one.key() >= other.key(); }
};

} // namespace detail

enum class Month : std::uint32_t {
    January = 1, February, March, April, May, June, July, August, September, October, November, December
};

enum class Weekday : std::uint32_t { Monday = 1, Tuesday, Wednesday, Thursday, Friday, Saturday, Sunday };

[[nodiscard]] inline std::string to_string(Month month) { return detail::text(fots_month_name(static_cast<std::uint32_t>(month))); }
[[nodiscard]] inline std::string to_string(Weekday weekday) { return detail::text(fots_weekday_name(static_cast<std::uint32_t>(weekday))); }
inline std::ostream &operator<<(std::ostream &out, Month month) { return out << to_string(month); }
inline std::ostream &operator<<(std::ostream &out, Weekday weekday) { return out << to_string(weekday); }

// The names of a language: months from January on, weekdays from Monday on, and AM before PM.
struct Names {
    std::array<std::string, 12> months; // beside a day: "stycznia" in Polish
    std::array<std::string, 12> months_alone; // without a day: "styczeń", for "%OB"
    std::array<std::string, 12> short_months;
    std::array<std::string, 7> weekdays;
    std::array<std::string, 7> short_weekdays;
    std::array<std::string, 2> periods;
    std::array<std::string, 2> lower_periods;

    // Returns the names of a language by its code of ISO 639-1, such as "fr", from a locale of glibc. Throws
    // FOTS_UNKNOWN_LANGUAGE for another code.
    [[nodiscard]] static Names of_language(std::string_view code);
    // Returns copies of names of C, such as the names of a locale from fotsevindre_locale.h.
    [[nodiscard]] static Names from(const fots_language_names &values);
};

class NamedFormat;

// A format of texts, such as "%d/%m/%Y".
class Format {
public:
    // Take a text in the syntax of strftime, or of the Rust crate time.
    explicit Format(std::string_view text) : Format(fots_format_new(detail::data(text), text.size()), text) {}
    [[nodiscard]] static Format from_description(std::string_view text)
    {
        return Format(fots_format_from_description(detail::data(text), text.size()), text);
    }

    // Returns the format with names in place of the English names. Throws FOTS_INVALID_NAMES, or
    // FOTS_AMBIGUOUS_NAMES or FOTS_AMBIGUOUS_NUMBER if two values could have the same text: position() is then
    // the index of the item.
    [[nodiscard]] NamedFormat with_names(const Names &names) const;

    [[nodiscard]] const fots_format *c() const noexcept { return &value_; }

private:
    Format(const fots_format_result &result, std::string_view text) : value_(detail::parsed_or_throw(result, text).format) {}

    fots_format value_;
};

// A format of which variants are parsed too: numbers with or without padding, names in any case or by
// their first three letters, and any run of white space. With a pivot, %y is one of the 100 years from
// it on.
class LenientFormat {
public:
    explicit LenientFormat(const Format &format, std::int32_t pivot = FOTS_NO_PIVOT) : format_(format), pivot_(pivot) {}

    [[nodiscard]] const fots_format *c() const noexcept { return format_.c(); }
    [[nodiscard]] std::int32_t pivot() const noexcept { return pivot_; }

private:
    Format format_;
    std::int32_t pivot_;
};

namespace detail {

// Calls a function with the address of each array of C and with the array of names in its place.
template <class Values, class Own, class Each> void each_name(Values &values, Own &own, Each each)
{
    const auto all = [&](auto &some, auto &others) {
        for (std::size_t index = 0; index < others.size(); index++) {
            each(some[index], others[index]);
        }
    };
    all(values.months, own.months);
    all(values.months_alone, own.months_alone);
    all(values.short_months, own.short_months);
    all(values.weekdays, own.weekdays);
    all(values.short_weekdays, own.short_weekdays);
    all(values.periods, own.periods);
    all(values.lower_periods, own.lower_periods);
}

// Returns the names for C, which point to the strings.
inline fots_language_names names_for_c(const Names &names)
{
    fots_language_names values;
    each_name(values, names, [](fots_name &value, const std::string &name) { value = {name.data(), name.size()}; });
    return values;
}

// Returns a name of the array that an item shows.
inline const std::string &name_at(const Names &names, const fots_format_item &item, std::size_t index)
{
    switch (item.value) {
    case 0: return names.months.at(index);
    case 1: return names.short_months.at(index);
    case 2: return names.weekdays.at(index);
    case 3: return names.short_weekdays.at(index);
    case 4: return names.periods.at(index);
    default: return names.lower_periods.at(index);
    }
}

// Throws an error if two values could have the same text in a format with names.
inline void check_names(const fots_format &format, const Names &names)
{
    const fots_language_names values = names_for_c(names);
    const fots_names_check_result found = fots_names_check(&format, &values);
    const std::string item = "item " + std::to_string(found.item);
    if (found.status == FOTS_AMBIGUOUS_NAMES) {
        const std::string &name = name_at(names, format.items[found.item], found.name);
        const std::string &other = name_at(names, format.items[found.item], found.other);
        throw error(found.status, found.item,
            name == other ? "two names of " + item + " are \"" + name + '"' : '"' + name + "\" of " + item + " can go on to \"" + other + '"');
    }
    if (found.status == FOTS_AMBIGUOUS_NUMBER) {
        throw error(found.status, found.item, item + " can go on with '" + static_cast<char>(found.byte) + "'");
    }
    value_or_throw(found);
}

} // namespace detail

inline Names Names::from(const fots_language_names &values)
{
    Names names;
    detail::each_name(values, names, [](const fots_name &value, std::string &name) { name.assign(value.text, value.text_length); });
    return names;
}

inline Names Names::of_language(std::string_view code)
{
    fots_language_names values;
    const std::int32_t status = fots_names_of_language(detail::data(code), code.size(), &values);
    if (status != FOTS_OK) {
        throw error(status);
    }
    return from(values);
}

// A format with names in place of the English names, from Format::with_names. Bytes are compared as they
// are, and the longest name wins.
class NamedFormat {
public:
    [[nodiscard]] const fots_format *c() const noexcept { return format_.c(); }
    [[nodiscard]] const Names &names() const noexcept { return names_; }

private:
    friend class Format;
    NamedFormat(const Format &format, const Names &names) : format_(format), names_(names) {}

    Format format_;
    Names names_;
};

inline NamedFormat Format::with_names(const Names &names) const
{
    detail::check_names(value_, names);
    return NamedFormat(*this, names);
}

// How to round to a multiple of a unit: down, up, toward zero, and to the nearest multiple, of two to the
// greater or to the even one.
enum class RoundingMode : std::uint32_t { Floor = FOTS_FLOOR, Ceil = FOTS_CEIL, Trunc = FOTS_TRUNC, HalfCeil = FOTS_HALF_CEIL, HalfEven = FOTS_HALF_EVEN };

// A signed length of time in nanoseconds.
class Duration : public detail::Ordered<Duration> {
public:
    // Converts a duration of C, or throws FOTS_INVALID_DURATION.
    explicit Duration(fots_duration value) : value_(value) { detail::value_or_throw(fots_duration_whole_seconds(value)); }
    Duration(fots_duration value, detail::Unchecked) noexcept : value_(value) {}

    [[nodiscard]] static Duration of(std::int64_t seconds, std::int32_t nanoseconds) { return from(fots_duration_new(seconds, nanoseconds)); }
    // Parses hours, minutes and seconds in ISO 8601, such as "PT2H30M0.5S".
    [[nodiscard]] static Duration parse(std::string_view text)
    {
        return Duration(detail::parsed_or_throw(fots_duration_parse(detail::data(text), text.size()), text).duration, {});
    }
    // Returns such a text.
    [[nodiscard]] std::string text() const { return detail::value_or_throw(fots_duration_text(value_)).bytes; }

    [[nodiscard]] static Duration weeks(std::int64_t weeks) { return from(fots_duration_weeks(weeks)); }
    [[nodiscard]] static Duration days(std::int64_t days) { return from(fots_duration_days(days)); }
    [[nodiscard]] static Duration hours(std::int64_t hours) { return from(fots_duration_hours(hours)); }
    [[nodiscard]] static Duration minutes(std::int64_t minutes) { return from(fots_duration_minutes(minutes)); }
    [[nodiscard]] static Duration seconds(std::int64_t seconds) { return from(fots_duration_seconds(seconds)); }
    [[nodiscard]] static Duration milliseconds(std::int64_t milliseconds) { return from(fots_duration_milliseconds(milliseconds)); }
    [[nodiscard]] static Duration microseconds(std::int64_t microseconds) { return from(fots_duration_microseconds(microseconds)); }
    [[nodiscard]] static Duration nanoseconds(std::int64_t nanoseconds) { return from(fots_duration_nanoseconds(nanoseconds)); }

    [[nodiscard]] std::int64_t whole_weeks() const { return detail::value_or_throw(fots_duration_whole_weeks(value_)).number; }
    [[nodiscard]] std::int64_t whole_days() const { return detail::value_or_throw(fots_duration_whole_days(value_)).number; }
    [[nodiscard]] std::int64_t whole_hours() const { return detail::value_or_throw(fots_duration_whole_hours(value_)).number; }
    [[nodiscard]] std::int64_t whole_minutes() const { return detail::value_or_throw(fots_duration_whole_minutes(value_)).number; }
    [[nodiscard]] std::int64_t whole_seconds() const noexcept { return value_.seconds; }
    [[nodiscard]] std::int32_t subsec_nanoseconds() const noexcept { return value_.nanoseconds; }
    [[nodiscard]] Duration abs() const { return from(fots_duration_abs(value_)); }
    // Rounds to a multiple of a positive unit.
    [[nodiscard]] Duration round(Duration unit, RoundingMode mode) const
    {
        return from(fots_duration_round(value_, unit.value_, static_cast<std::uint32_t>(mode)));
    }

    [[nodiscard]] friend Duration operator+(Duration one, Duration other) { return from(fots_duration_checked_add(one.value_, other.value_)); }
    [[nodiscard]] friend Duration operator-(Duration one, Duration other) { return from(fots_duration_checked_sub(one.value_, other.value_)); }
    [[nodiscard]] friend Duration operator*(Duration one, std::int32_t factor) { return from(fots_duration_checked_mul(one.value_, factor)); }
    [[nodiscard]] friend Duration operator*(std::int32_t factor, Duration one) { return one * factor; }
    [[nodiscard]] friend Duration operator/(Duration one, std::int32_t divisor) { return from(fots_duration_checked_div(one.value_, divisor)); }
    [[nodiscard]] Duration operator-() const { return from(fots_duration_checked_neg(value_)); }

    [[nodiscard]] fots_duration c() const noexcept { return value_; }
    [[nodiscard]] std::pair<std::int64_t, std::int32_t> key() const noexcept { return {value_.seconds, value_.nanoseconds}; }

private:
    static Duration from(fots_duration_result result) { return Duration(detail::value_or_throw(result).duration, {}); }

    fots_duration value_;
};

namespace detail {

// Returns the Unix time of the clock of the system.
inline Duration unix_time_now()
{
    const auto now = std::chrono::system_clock::now().time_since_epoch();
    const auto seconds = std::chrono::duration_cast<std::chrono::seconds>(now);
    const auto rest = std::chrono::duration_cast<std::chrono::nanoseconds>(now - seconds);
    return Duration(fots_duration{seconds.count(), static_cast<std::int32_t>(rest.count()), 0});
}

} // namespace detail

// A time of day in nanoseconds.
class Time : public detail::Ordered<Time> {
public:
    // Converts nanoseconds since midnight, or throws FOTS_INVALID_TIME.
    explicit Time(fots_time value) : value_(value) { detail::value_or_throw(fots_time_hour(value)); }
    Time(fots_time value, detail::Unchecked) noexcept : value_(value) {}

    [[nodiscard]] static Time from_hms(std::uint32_t hour, std::uint32_t minute, std::uint32_t second)
    {
        return from(fots_time_from_hms(hour, minute, second), hour, minute, second, 0);
    }
    [[nodiscard]] static Time from_hms_nano(std::uint32_t hour, std::uint32_t minute, std::uint32_t second, std::uint32_t nanosecond)
    {
        return from(fots_time_from_hms_nano(hour, minute, second, nanosecond), hour, minute, second, nanosecond);
    }

    // Returns the time of day that the clocks of a zone show now.
    [[nodiscard]] static Time now(const Zone &zone);
    // Parses a time of day, such as "9:05" or "23:59:59.25".
    [[nodiscard]] static Time parse(std::string_view text) { return Time(detail::parsed_or_throw(fots_time_parse(detail::data(text), text.size()), text).time, {}); }
    // Parses a text in all formats of ISO 8601, such as "T225959,5" or "22".
    [[nodiscard]] static Time parse_iso(std::string_view text) { return Time(detail::parsed_or_throw(fots_time_parse_iso(detail::data(text), text.size()), text).time, {}); }
    // Parses the text of a value by a format, and no other text.
    [[nodiscard]] static Time parse(std::string_view text, const Format &format)
    {
        return Time(detail::parsed_or_throw(fots_time_parse_format(detail::data(text), text.size(), format.c()), text, format).time, {});
    }
    [[nodiscard]] static Time parse(std::string_view text, const NamedFormat &format)
    {
        const fots_language_names names = detail::names_for_c(format.names());
        return Time(detail::parsed_or_throw(fots_time_parse_names(detail::data(text), text.size(), format.c(), &names), text, format).time, {});
    }
    [[nodiscard]] static Time parse(std::string_view text, const LenientFormat &format)
    {
        return Time(detail::parsed_or_throw(fots_time_parse_leniently(detail::data(text), text.size(), format.c(), format.pivot()), text, format).time, {});
    }

    [[nodiscard]] std::uint32_t hour() const { return detail::value_or_throw(fots_time_hour(value_)).number; }
    [[nodiscard]] std::uint32_t minute() const { return detail::value_or_throw(fots_time_minute(value_)).number; }
    [[nodiscard]] std::uint32_t second() const { return detail::value_or_throw(fots_time_second(value_)).number; }
    [[nodiscard]] std::uint32_t nanosecond() const { return detail::value_or_throw(fots_time_nanosecond(value_)).number; }

    // Moves the time by a duration, modulo 24 hours. 23:00 plus 2 h is 1:00.
    [[nodiscard]] friend Time operator+(Time time, Duration duration) { return Time(detail::value_or_throw(fots_time_add(time.value_, duration.c())).time, {}); }
    [[nodiscard]] friend Time operator-(Time time, Duration duration) { return Time(detail::value_or_throw(fots_time_sub(time.value_, duration.c())).time, {}); }
    // Subtracts on the same day: 0:00 minus 23:00 is -23 h.
    [[nodiscard]] friend Duration operator-(Time time, Time other)
    {
        return Duration(detail::value_or_throw(fots_time_difference(time.value_, other.value_)).duration, {});
    }

    // Returns the text by a format, such as "23:59" by "%H:%M".
    [[nodiscard]] std::string format(const Format &format) const
    {
        return detail::written([&](char *bytes, std::size_t length) { return fots_time_format(value_, format.c(), bytes, length); });
    }
    // Returns the text by a format with names, such as "午後 07:30" by "%p %I:%M".
    [[nodiscard]] std::string format(const NamedFormat &format) const
    {
        const fots_language_names names = detail::names_for_c(format.names());
        return detail::written<FOTS_MAX_NAME_LENGTH>([&](char *bytes, std::size_t length) { return fots_time_format_names(value_, format.c(), &names, bytes, length); });
    }

    // Rounds to a multiple of a unit since midnight, which divides 24 hours; 24:00 is 0:00.
    [[nodiscard]] Time round(Duration unit, RoundingMode mode) const
    {
        return Time(detail::value_or_throw(fots_time_round(value_, unit.c(), static_cast<std::uint32_t>(mode))).time, {});
    }

    [[nodiscard]] fots_time c() const noexcept { return value_; }
    [[nodiscard]] fots_time key() const noexcept { return value_; }

private:
    static Time from(fots_time_result result, std::uint32_t hour, std::uint32_t minute, std::uint32_t second, std::uint32_t nanosecond)
    {
        return Time(detail::made_or_throw(result, [&](fots_components &of) {
            of.hour = hour, of.minute = minute, of.second = second, of.nanosecond = nanosecond;
        }).time, {});
    }

    fots_time value_;
};

// An offset from UTC in seconds, positive to the east.
class UtcOffset : public detail::Ordered<UtcOffset> {
public:
    explicit UtcOffset(fots_offset value) : value_(value) { detail::value_or_throw(fots_offset_whole_hours(value)); }
    UtcOffset(fots_offset value, detail::Unchecked) noexcept : value_(value) {}

    [[nodiscard]] static UtcOffset utc() { return UtcOffset(fots_offset{0}, {}); }
    [[nodiscard]] static UtcOffset from_hms(std::int32_t hours, std::int32_t minutes, std::int32_t seconds)
    {
        const auto set = [&](fots_components &of) { of.offset_hour = hours, of.offset_minute = minutes, of.offset_second = seconds; };
        return UtcOffset(detail::made_or_throw(fots_offset_from_hms(hours, minutes, seconds), set).offset, {});
    }
    [[nodiscard]] static UtcOffset from_whole_seconds(std::int64_t seconds)
    {
        return UtcOffset(detail::made_or_throw(fots_offset_from_whole_seconds(seconds), [&](fots_components &of) { of.seconds = seconds; }).offset, {});
    }

    // Parses an offset, such as "Z", "+05:30" or "-00:00:01".
    [[nodiscard]] static UtcOffset parse(std::string_view text)
    {
        return UtcOffset(detail::parsed_or_throw(fots_offset_parse(detail::data(text), text.size()), text).offset, {});
    }
    // Parses the text of a value by a format, and no other text.
    [[nodiscard]] static UtcOffset parse(std::string_view text, const Format &format)
    {
        return UtcOffset(detail::parsed_or_throw(fots_offset_parse_format(detail::data(text), text.size(), format.c()), text, format).offset, {});
    }

    [[nodiscard]] std::int32_t whole_seconds() const noexcept { return value_.seconds; }
    // Returns the hours, minutes and seconds, with one sign.
    [[nodiscard]] std::tuple<std::int32_t, std::int32_t, std::int32_t> as_hms() const
    {
        const fots_offset_hms_result components = detail::value_or_throw(fots_offset_as_hms(value_));
        return {components.hours, components.minutes, components.seconds};
    }
    [[nodiscard]] UtcOffset operator-() const { return UtcOffset(detail::value_or_throw(fots_offset_neg(value_)).offset, {}); }

    // Returns the text by a format, such as "+05:30" by "%:z".
    [[nodiscard]] std::string format(const Format &format) const
    {
        return detail::written([&](char *bytes, std::size_t length) { return fots_offset_format(value_, format.c(), bytes, length); });
    }

    [[nodiscard]] fots_offset c() const noexcept { return value_; }
    [[nodiscard]] std::int32_t key() const noexcept { return value_.seconds; }

private:
    fots_offset value_;
};

// Years, months, weeks, days and a duration, all positive or 0, or all negative or 0.
class Period {
public:
    // Creates a period from its parts, or throws FOTS_INVALID_PERIOD.
    Period(std::int32_t years, std::int32_t months, std::int32_t weeks, std::int32_t days, Duration duration = Duration::seconds(0))
        : value_{years, months, weeks, days, duration.c()}
    {
        if (fots_pair_add_period(fots_date{0}, 0, value_).status == FOTS_INVALID_PERIOD) {
            throw error(FOTS_INVALID_PERIOD);
        }
    }
    Period(const fots_period &value, detail::Unchecked) noexcept : value_(value) {}

    // Parses a period in ISO 8601, such as "P1Y2M10DT2H30M" or "-P1D".
    [[nodiscard]] static Period parse(std::string_view text)
    {
        return Period(detail::parsed_or_throw(fots_period_parse(detail::data(text), text.size()), text).period, {});
    }
    // Returns such a text.
    [[nodiscard]] std::string text() const { return detail::value_or_throw(fots_period_text(value_)).bytes; }

    [[nodiscard]] static Period from_years(std::int32_t years) { return {years, 0, 0, 0}; }
    [[nodiscard]] static Period from_months(std::int32_t months) { return {0, months, 0, 0}; }
    [[nodiscard]] static Period from_weeks(std::int32_t weeks) { return {0, 0, weeks, 0}; }
    [[nodiscard]] static Period from_days(std::int32_t days) { return {0, 0, 0, days}; }
    [[nodiscard]] static Period from_duration(Duration duration) { return {0, 0, 0, 0, duration}; }

    [[nodiscard]] std::int32_t years() const noexcept { return value_.years; }
    [[nodiscard]] std::int32_t months() const noexcept { return value_.months; }
    [[nodiscard]] std::int32_t weeks() const noexcept { return value_.weeks; }
    [[nodiscard]] std::int32_t days() const noexcept { return value_.days; }
    [[nodiscard]] Duration duration() const noexcept { return Duration(value_.duration, {}); }

    [[nodiscard]] fots_period c() const noexcept { return value_; }

    [[nodiscard]] friend bool operator==(const Period &one, const Period &other) { return one.key() == other.key(); }
    [[nodiscard]] friend bool operator!=(const Period &one, const Period &other) { return one.key() != other.key(); }

private:
    std::tuple<std::int32_t, std::int32_t, std::int32_t, std::int32_t, Duration> key() const { return {years(), months(), weeks(), days(), duration()}; }

    fots_period value_;
};

// A fraction of a year.
struct YearFraction {
    std::int64_t numerator;
    std::uint32_t denominator;
};

enum class CalendarUnit : std::uint32_t {
    Day = FOTS_DAY,
    Week = FOTS_WEEK,
    Month = FOTS_MONTH,
    Quarter = FOTS_QUARTER,
    Year = FOTS_YEAR
};

enum class DayCount : std::uint32_t {
    Actual360 = FOTS_ACTUAL_360,
    Actual365Fixed = FOTS_ACTUAL_365_FIXED,
    Thirty360 = FOTS_THIRTY_360,
    ThirtyE360 = FOTS_THIRTY_E_360,
    ActualActual = FOTS_ACTUAL_ACTUAL
};

// A date of the proleptic Gregorian calendar, from -999999-01-01 to 999999-12-31.
class Date : public detail::Ordered<Date> {
public:
    explicit Date(fots_date value) : value_(value) { detail::value_or_throw(fots_date_year(value)); }
    Date(fots_date value, detail::Unchecked) noexcept : value_(value) {}

    [[nodiscard]] static Date min() { return Date(fots_date{FOTS_MIN_JULIAN_DAY}, {}); }
    [[nodiscard]] static Date max() { return Date(fots_date{FOTS_MAX_JULIAN_DAY}, {}); }
    [[nodiscard]] static Date from_julian_day(std::int64_t julian_day)
    {
        return from(fots_date_from_julian_day(julian_day), [&](fots_components &of) { of.julian_day = julian_day; });
    }
    [[nodiscard]] static Date from_calendar_date(std::int32_t year, std::uint32_t month, std::uint32_t day)
    {
        return from(fots_date_from_calendar_date(year, month, day), [&](fots_components &of) { of.year = year, of.month = month, of.day = day; });
    }
    [[nodiscard]] static Date from_calendar_date(std::int32_t year, Month month, std::uint32_t day)
    {
        return from_calendar_date(year, static_cast<std::uint32_t>(month), day);
    }
    [[nodiscard]] static Date from_ordinal_date(std::int32_t year, std::uint32_t ordinal)
    {
        return from(fots_date_from_ordinal_date(year, ordinal), [&](fots_components &of) { of.year = year, of.ordinal = ordinal; });
    }
    [[nodiscard]] static Date from_iso_week_date(std::int32_t year, std::uint32_t week, Weekday weekday)
    {
        return from(fots_date_from_iso_week_date(year, week, static_cast<std::uint32_t>(weekday)),
            [&](fots_components &of) { of.year = year, of.week = week; });
    }
    // Return Easter Sunday of a year in western churches, and in orthodox ones.
    [[nodiscard]] static Date easter(std::int32_t year) { return from(fots_easter(year), [&](fots_components &of) { of.year = year; }); }
    [[nodiscard]] static Date julian_easter(std::int32_t year) { return from(fots_julian_easter(year), [&](fots_components &of) { of.year = year; }); }
    // Returns the date that the clocks of a zone show now.
    [[nodiscard]] static Date today(const Zone &zone);
    // Parses a calendar date, an ordinal date or an ISO week date, such as "2024-W09-4".
    [[nodiscard]] static Date parse(std::string_view text) { return Date(detail::parsed_or_throw(fots_date_parse(detail::data(text), text.size()), text).date, {}); }
    // Parses a text in all formats of ISO 8601, such as "20240229" or "2024-W09".
    [[nodiscard]] static Date parse_iso(std::string_view text) { return Date(detail::parsed_or_throw(fots_date_parse_iso(detail::data(text), text.size()), text).date, {}); }
    // Parses the text of a value by a format, and no other text.
    [[nodiscard]] static Date parse(std::string_view text, const Format &format)
    {
        return Date(detail::parsed_or_throw(fots_date_parse_format(detail::data(text), text.size(), format.c()), text, format).date, {});
    }
    [[nodiscard]] static Date parse(std::string_view text, const NamedFormat &format)
    {
        const fots_language_names names = detail::names_for_c(format.names());
        return Date(detail::parsed_or_throw(fots_date_parse_names(detail::data(text), text.size(), format.c(), &names), text, format).date, {});
    }
    [[nodiscard]] static Date parse(std::string_view text, const LenientFormat &format)
    {
        return Date(detail::parsed_or_throw(fots_date_parse_leniently(detail::data(text), text.size(), format.c(), format.pivot()), text, format).date, {});
    }

    [[nodiscard]] std::int32_t to_julian_day() const noexcept { return value_.julian_day; }
    [[nodiscard]] std::tuple<std::int32_t, Month, std::uint32_t> to_calendar_date() const
    {
        const fots_calendar_date_result found = detail::value_or_throw(fots_date_to_calendar_date(value_));
        return {found.year, static_cast<Month>(found.month), found.day};
    }
    [[nodiscard]] std::tuple<std::int32_t, std::uint32_t> to_ordinal_date() const
    {
        const fots_ordinal_date_result found = detail::value_or_throw(fots_date_to_ordinal_date(value_));
        return {found.year, found.ordinal};
    }
    [[nodiscard]] std::tuple<std::int32_t, std::uint32_t, Weekday> to_iso_week_date() const
    {
        const fots_iso_week_date_result found = detail::value_or_throw(fots_date_to_iso_week_date(value_));
        return {found.year, found.week, static_cast<Weekday>(found.weekday)};
    }

    [[nodiscard]] std::int32_t year() const { return detail::value_or_throw(fots_date_year(value_)).number; }
    [[nodiscard]] Month month() const { return static_cast<Month>(detail::value_or_throw(fots_date_month(value_)).number); }
    [[nodiscard]] std::uint32_t day() const { return detail::value_or_throw(fots_date_day(value_)).number; }
    [[nodiscard]] std::uint32_t ordinal() const { return detail::value_or_throw(fots_date_ordinal(value_)).number; }
    [[nodiscard]] std::uint32_t iso_week() const { return detail::value_or_throw(fots_date_iso_week(value_)).number; }
    [[nodiscard]] Weekday weekday() const { return static_cast<Weekday>(detail::value_or_throw(fots_date_weekday(value_)).number); }

    [[nodiscard]] std::optional<Date> next_day() const { return if_any(fots_date_next_day(value_)); }
    [[nodiscard]] std::optional<Date> previous_day() const { return if_any(fots_date_previous_day(value_)); }
    [[nodiscard]] std::optional<Date> checked_add_days(std::int64_t days) const { return if_any(fots_date_add_days(value_, days)); }
    [[nodiscard]] std::optional<Date> checked_add(Duration duration) const { return if_any(fots_date_checked_add(value_, duration.c())); }
    [[nodiscard]] std::optional<Date> checked_sub(Duration duration) const { return if_any(fots_date_checked_sub(value_, duration.c())); }
    [[nodiscard]] Date saturating_add(Duration duration) const { return from(fots_date_saturating_add(value_, duration.c())); }
    [[nodiscard]] Date saturating_sub(Duration duration) const { return from(fots_date_saturating_sub(value_, duration.c())); }
    [[nodiscard]] std::optional<Date> checked_next_occurrence(Weekday weekday) const
    {
        return if_any(fots_date_next_occurrence(value_, static_cast<std::uint32_t>(weekday)));
    }
    [[nodiscard]] std::optional<Date> checked_prev_occurrence(Weekday weekday) const
    {
        return if_any(fots_date_prev_occurrence(value_, static_cast<std::uint32_t>(weekday)));
    }

    [[nodiscard]] Date replace_year(std::int32_t year) const { return replaced(fots_date_replace_year(value_, year), &fots_components::year, year); }
    [[nodiscard]] Date replace_month(Month month) const
    {
        return replaced(fots_date_replace_month(value_, static_cast<std::uint32_t>(month)), &fots_components::month, static_cast<std::int64_t>(month));
    }
    [[nodiscard]] Date replace_day(std::uint32_t day) const { return replaced(fots_date_replace_day(value_, day), &fots_components::day, day); }
    [[nodiscard]] Date replace_ordinal(std::uint32_t ordinal) const
    {
        return replaced(fots_date_replace_ordinal(value_, ordinal), &fots_components::ordinal, ordinal);
    }

    [[nodiscard]] std::optional<Date> checked_add_months(std::int32_t months) const { return if_any(fots_date_add_months(value_, months)); }
    [[nodiscard]] std::optional<Date> checked_add_years(std::int32_t years) const { return if_any(fots_date_add_years(value_, years)); }
    [[nodiscard]] Date saturating_add_months(std::int32_t months) const { return from(fots_date_saturating_add_months(value_, months)); }
    // Return the date a period later, or some periods later at once, without a drift. A period with a
    // duration throws FOTS_PERIOD_HAS_DURATION.
    [[nodiscard]] std::optional<Date> checked_add_period(const Period &period) const { return if_any(fots_date_add_period(value_, period.c())); }
    [[nodiscard]] std::optional<Date> nth_period(const Period &period, std::int32_t n) const { return if_any(fots_date_nth_period(value_, period.c(), n)); }
    [[nodiscard]] std::int32_t months_until(Date other) const { return detail::value_or_throw(fots_date_months_until(value_, other.value_)).number; }
    [[nodiscard]] std::int32_t years_until(Date other) const { return detail::value_or_throw(fots_date_years_until(value_, other.value_)).number; }
    // The step that a date is in, or none if it is before this date, or if the period has a duration or isn't positive.
    [[nodiscard]] std::optional<std::int32_t> step_of(const Period &period, Date date) const
    {
        const fots_number_result found = fots_date_step_of(value_, period.c(), date.value_);
        return found.status == FOTS_OK ? std::optional<std::int32_t>(found.number) : std::nullopt;
    }
    [[nodiscard]] Period period_until(Date other) const { return period_of(fots_date_period_until(value_, other.value_)); }
    [[nodiscard]] Period period_until_by(Date other, CalendarUnit unit) const
    {
        return period_of(fots_date_period_until_by(value_, other.value_, static_cast<std::uint32_t>(unit)));
    }
    [[nodiscard]] YearFraction day_count(Date other, DayCount convention) const
    {
        const fots_year_fraction_result found =
            detail::value_or_throw(fots_date_day_count(value_, other.value_, static_cast<std::uint32_t>(convention)));
        return {found.numerator, found.denominator};
    }

    [[nodiscard]] Date first_of_month() const { return from(fots_date_first_of_month(value_)); }
    [[nodiscard]] Date last_of_month() const { return from(fots_date_last_of_month(value_)); }
    [[nodiscard]] Date first_of_quarter() const { return from(fots_date_first_of_quarter(value_)); }
    [[nodiscard]] Date last_of_quarter() const { return from(fots_date_last_of_quarter(value_)); }
    [[nodiscard]] Date first_of_year() const { return from(fots_date_first_of_year(value_)); }
    [[nodiscard]] Date last_of_year() const { return from(fots_date_last_of_year(value_)); }
    [[nodiscard]] Date first_of_iso_week() const { return from(fots_date_first_of_iso_week(value_)); }
    [[nodiscard]] std::optional<Date> last_of_iso_week() const { return if_any(fots_date_last_of_iso_week(value_)); }
    [[nodiscard]] std::uint32_t quarter() const { return detail::value_or_throw(fots_date_quarter(value_)).number; }
    [[nodiscard]] static Date nth_weekday_of_month(std::int32_t year, Month month, Weekday weekday, std::uint32_t n)
    {
        return from(fots_date_nth_weekday_of_month(
            year, static_cast<std::uint32_t>(month), static_cast<std::uint32_t>(weekday), n));
    }
    [[nodiscard]] static Date last_weekday_of_month(std::int32_t year, Month month, Weekday weekday)
    {
        return from(fots_date_last_weekday_of_month(year, static_cast<std::uint32_t>(month), static_cast<std::uint32_t>(weekday)));
    }
    [[nodiscard]] std::optional<Date> on_or_after(Weekday weekday) const
    {
        return if_any(fots_date_on_or_after(value_, static_cast<std::uint32_t>(weekday)));
    }
    [[nodiscard]] std::optional<Date> on_or_before(Weekday weekday) const
    {
        return if_any(fots_date_on_or_before(value_, static_cast<std::uint32_t>(weekday)));
    }

    // Moves the date by the whole days of a duration, truncated toward zero.
    [[nodiscard]] friend Date operator+(Date date, Duration duration) { return from(fots_date_checked_add(date.value_, duration.c())); }
    [[nodiscard]] friend Date operator-(Date date, Duration duration) { return from(fots_date_checked_sub(date.value_, duration.c())); }
    [[nodiscard]] friend Duration operator-(Date date, Date other)
    {
        return Duration(detail::value_or_throw(fots_date_duration_since(date.value_, other.value_)).duration, {});
    }

    // Return texts of ISO 8601: 2024-02-29, 2024-060, 2024-W09-4.
    [[nodiscard]] std::string calendar_text() const { return detail::text(fots_date_calendar_text(value_)); }
    [[nodiscard]] std::string ordinal_text() const { return detail::text(fots_date_ordinal_text(value_)); }
    [[nodiscard]] std::string week_text() const { return detail::text(fots_date_week_text(value_)); }

    // Returns the text by a format, such as "29/02/2024" by "%d/%m/%Y".
    [[nodiscard]] std::string format(const Format &format) const
    {
        return detail::written([&](char *bytes, std::size_t length) { return fots_date_format(value_, format.c(), bytes, length); });
    }
    // Returns the text by a format with names, such as "29 février 2024" by "%-d %B %Y".
    [[nodiscard]] std::string format(const NamedFormat &format) const
    {
        const fots_language_names names = detail::names_for_c(format.names());
        return detail::written<FOTS_MAX_NAME_LENGTH>([&](char *bytes, std::size_t length) { return fots_date_format_names(value_, format.c(), &names, bytes, length); });
    }

#if __cplusplus >= 202002L
    // Converts a day of <chrono>, or throws FOTS_JULIAN_DAY_OUT_OF_RANGE.
    [[nodiscard]] static Date from_sys_days(std::chrono::sys_days day)
    {
        // Days after the range stay after it, and their sum can't overflow.
        return from_julian_day(std::min(std::int64_t{day.time_since_epoch().count()}, INT64_MAX - unix_epoch) + unix_epoch);
    }
    // Converts to a day of <chrono>.
    [[nodiscard]] std::chrono::sys_days to_sys_days() const
    {
        return std::chrono::sys_days(std::chrono::days(value_.julian_day - unix_epoch));
    }
#endif

    // Converts a result of C, which is empty for FOTS_RESULT_OUT_OF_RANGE.
    [[nodiscard]] static std::optional<Date> if_any(fots_date_result result)
    {
        return detail::is_in_range(result) ? std::optional<Date>(Date(result.date, {})) : std::nullopt;
    }

    [[nodiscard]] fots_date c() const noexcept { return value_; }
    [[nodiscard]] std::int32_t key() const noexcept { return value_.julian_day; }

private:
    // The Julian day of 1970-01-01.
    static constexpr std::int32_t unix_epoch = 2440588;

    static Date from(fots_date_result result) { return Date(detail::value_or_throw(result).date, {}); }
    template <class Set> static Date from(fots_date_result result, Set set) { return Date(detail::made_or_throw(result, set).date, {}); }
    Date replaced(fots_date_result result, std::int64_t fots_components::*component, std::int64_t number) const
    {
        return from(result, [&](fots_components &of) {
            const fots_calendar_date_result own = fots_date_to_calendar_date(value_);
            of.year = own.year, of.month = own.month, of.day = own.day;
            of.*component = number;
        });
    }
    static Period period_of(const fots_period_result &result)
    {
        const fots_period_result found = detail::value_or_throw(result);
        return {found.years, found.months, found.weeks, found.days};
    }

    fots_date value_;
};

// The steps of a period from a start, from the start itself on to the end of the range: by months from
// 31 January 2024 they are 31 January, 29 February, 31 March and so on. Each is counted from the start,
// so nothing drifts. To be read in a loop: for (const Date date : Steps(start, period)).
template <class Value> class Steps {
    // What an iterator copies, so that it outlives the steps.
    struct Parts {
        Value start;
        Period period;
        std::uint32_t count;
    };

public:
    // Parses a repeated interval in ISO 8601: of dates, such as "R12/2024-01-31/P1M", or of local
    // date-times, such as "R12/2024-01-31T09:00/P1M" by Steps<PlainDateTime>. They end after their number,
    // or never in "R/2024-01-31/P1M".
    [[nodiscard]] static Steps parse(std::string_view text)
    {
        if constexpr (std::is_same<Value, Date>::value) {
            const fots_parse_repeated_dates_result found = detail::parsed_or_throw(fots_repeated_dates_parse(detail::data(text), text.size()), text);
            return Steps(Value(found.start, {}), Period(found.period, {}), found.count);
        } else {
            const fots_parse_repeated_pairs_result found = detail::parsed_or_throw(fots_repeated_pairs_parse(detail::data(text), text.size()), text);
            return Steps(Value(Date(found.start_date, {}), Time(found.start_time, {})), Period(found.period, {}), found.count);
        }
    }
    // Throws a std::invalid_argument if the period isn't positive, or has a duration and the start is a date.
    Steps(Value start, const Period &period) : Steps(start, period, 0) {}
    // Only the first `count` of them; 0 for all in the range.
    Steps(Value start, const Period &period, std::uint32_t count) : parts_{start, period, count}
    {
        if (!start.step_of(period, start)) {
            throw std::invalid_argument("steps of a period that isn't positive, or of dates by a duration");
        }
    }

    class iterator {
    public:
        using iterator_category = std::input_iterator_tag;
        using value_type = Value;
        using difference_type = std::ptrdiff_t;
        using pointer = const Value *;
        using reference = const Value &;

        [[nodiscard]] reference operator*() const { return *step_; }
        [[nodiscard]] pointer operator->() const { return &*step_; }
        iterator &operator++()
        {
            ++number_;
            step_ = static_cast<std::uint32_t>(number_) == steps_.count ? std::nullopt : steps_.start.nth_period(steps_.period, number_);
            return *this;
        }
        iterator operator++(int)
        {
            const iterator before = *this;
            ++*this;
            return before;
        }
        [[nodiscard]] friend bool operator==(const iterator &one, const iterator &other) { return one.step_ == other.step_; }
        [[nodiscard]] friend bool operator!=(const iterator &one, const iterator &other) { return !(one == other); }

    private:
        friend class Steps;
        iterator(const Parts &steps, std::optional<Value> step) : steps_(steps), step_(step) {}

        Parts steps_;
        std::optional<Value> step_;
        std::int32_t number_ = 0;
    };

    [[nodiscard]] iterator begin() const { return {parts_, parts_.start}; }
    [[nodiscard]] iterator end() const { return {parts_, std::nullopt}; }

private:
    Parts parts_;
};

// The days from a date up to another, which isn't in the range. There may be none.
class DateRange {
public:
    // Creates a range, or throws FOTS_INVALID_RANGE if the end is before the start.
    DateRange(Date start, Date end) : value_{start.c(), end.c()} { detail::value_or_throw(fots_date_range_length(value_)); }
    // Parses an interval in ISO 8601, such as "2024-01-01/2024-02-01", "2024-01-01/P1M" or "P1M/2024-02-01".
    [[nodiscard]] static DateRange parse(std::string_view text)
    {
        return DateRange(detail::parsed_or_throw(fots_date_interval_parse(detail::data(text), text.size()), text).range);
    }

    [[nodiscard]] Date start() const noexcept { return Date(value_.start, {}); }
    [[nodiscard]] Date end() const noexcept { return Date(value_.end, {}); }
    [[nodiscard]] std::uint32_t length() const { return detail::value_or_throw(fots_date_range_length(value_)).number; }
    [[nodiscard]] bool contains(Date date) const { return detail::value_or_throw(fots_date_range_contains(value_, date.c())).number == 1; }
    // Returns whether a day is in both ranges.
    [[nodiscard]] bool overlaps(DateRange other) const { return detail::value_or_throw(fots_date_range_overlaps(value_, other.value_)).number == 1; }
    // Returns the days that are in both ranges, if there are any.
    [[nodiscard]] std::optional<DateRange> intersection(DateRange other) const
    {
        const fots_date_range_result found = fots_date_range_intersection(value_, other.value_);
        return detail::is_in_range(found) ? std::optional<DateRange>(DateRange(found.range)) : std::nullopt;
    }
    // Returns how many days of the range are in the other one, and how many days it has.
    [[nodiscard]] std::tuple<std::uint32_t, std::uint32_t> share(DateRange other) const
    {
        const fots_share_result found = detail::value_or_throw(fots_date_range_share(value_, other.value_));
        return {found.common, found.days};
    }

    [[nodiscard]] fots_date_range c() const noexcept { return value_; }

    [[nodiscard]] friend bool operator==(DateRange one, DateRange other) { return one.start() == other.start() && one.end() == other.end(); }
    [[nodiscard]] friend bool operator!=(DateRange one, DateRange other) { return !(one == other); }

private:
    explicit DateRange(fots_date_range value) noexcept : value_(value) {}

    fots_date_range value_;
};

[[nodiscard]] inline std::string to_string(Date date) { return date.calendar_text(); }
inline std::ostream &operator<<(std::ostream &out, Date date) { return out << date.calendar_text(); }

enum class Convention : std::uint32_t {
    Unadjusted = FOTS_UNADJUSTED,
    Following = FOTS_FOLLOWING,
    ModifiedFollowing = FOTS_MODIFIED_FOLLOWING,
    Preceding = FOTS_PRECEDING,
    ModifiedPreceding = FOTS_MODIFIED_PRECEDING
};

namespace detail {

// Returns the first dates of an array.
inline std::vector<Date> first_dates(const std::vector<fots_date> &written, std::size_t length)
{
    std::vector<Date> dates;
    dates.reserve(length);
    for (std::size_t index = 0; index < length; ++index) {
        dates.push_back(Date(written[index], {}));
    }
    return dates;
}

// Returns dates as C has them.
inline std::vector<fots_date> dates_of_c(const std::vector<Date> &dates)
{
    std::vector<fots_date> converted;
    converted.reserve(dates.size());
    for (const Date date : dates) {
        converted.push_back(date.c());
    }
    return converted;
}

} // namespace detail

// A known calendar of holidays.
enum class Calendar : std::uint32_t {
    Target = FOTS_TARGET,
    UsFederal = FOTS_US_FEDERAL,
    Nyse = FOTS_NYSE,
    EnglandAndWales = FOTS_ENGLAND_AND_WALES,
    DeBw = FOTS_DE_BW,
    DeBy = FOTS_DE_BY,
    DeBe = FOTS_DE_BE,
    DeBb = FOTS_DE_BB,
    DeHb = FOTS_DE_HB,
    DeHh = FOTS_DE_HH,
    DeHe = FOTS_DE_HE,
    DeMv = FOTS_DE_MV,
    DeNi = FOTS_DE_NI,
    DeNw = FOTS_DE_NW,
    DeRp = FOTS_DE_RP,
    DeSl = FOTS_DE_SL,
    DeSn = FOTS_DE_SN,
    DeSt = FOTS_DE_ST,
    DeSh = FOTS_DE_SH,
    DeTh = FOTS_DE_TH
};

// The days of a week without holidays, which are in strictly ascending order.
class Workdays {
    // Calls a function with a view of the working days.
    template <class Function, class... Arguments> auto with_view(Function function, Arguments... arguments) const
    {
        const fots_workdays_view view = {weekmask_, 0, holidays_.data(), holidays_.size(), marked_before_.data(), marked_before_.size()};
        return function(&view, arguments...);
    }

public:
    // Takes Monday to Friday.
    explicit Workdays(const std::vector<Date> &holidays = {}) : Workdays({true, true, true, true, true, false, false}, holidays) {}
    // Takes the days that are marked, from Monday to Sunday.
    Workdays(std::array<bool, 7> marks, const std::vector<Date> &holidays)
    {
        weekmask_ = 0;
        for (std::size_t index = 0; index < marks.size(); ++index) {
            weekmask_ |= std::uint32_t{marks[index]} << index;
        }
        holidays_ = detail::dates_of_c(holidays);
        const fots_number_result counted = count();
        if (counted.status == FOTS_INVALID_HOLIDAYS) {
            std::size_t position = 1;
            while (holidays[position - 1] < holidays[position]) {
                ++position;
            }
            throw error(counted.status, position,
                "holidays[" + std::to_string(position) + "] is not after holidays[" + std::to_string(position - 1) + "]");
        }
        detail::value_or_throw(counted);
    }

    // Takes Monday to Friday without the holidays of a calendar from one date through another.
    [[nodiscard]] static Workdays of(Calendar calendar, Date first, Date last)
    {
        std::vector<fots_date> dates(FOTS_MAX_HOLIDAYS);
        const fots_number_result found = detail::value_or_throw(
            fots_calendar_holidays(static_cast<std::uint32_t>(calendar), first.c(), last.c(), dates.data(), dates.size()));
        return without(std::move(dates), found.number);
    }

    // Takes Monday to Friday without the holidays of rules, one in each line, from one date through
    // another. An invalid rule throws an error with the position of its word.
    [[nodiscard]] static Workdays from_rules(std::string_view rules, Date first, Date last)
    {
        std::vector<fots_date> dates(FOTS_MAX_HOLIDAYS);
        const fots_holidays_result found
            = fots_rules_holidays(rules.data(), rules.size(), first.c(), last.c(), dates.data(), dates.size());
        if (found.status != FOTS_OK) {
            throw error(found.status, found.position);
        }
        return without(std::move(dates), found.number);
    }

    [[nodiscard]] bool is_workday(Date date) const { return detail::value_or_throw(with_view(fots_workdays_view_contains, date.c())).number == 1; }
    [[nodiscard]] std::optional<Date> next_workday(Date date) const { return checked_add_workdays(date, 1); }
    [[nodiscard]] std::optional<Date> previous_workday(Date date) const { return checked_add_workdays(date, -1); }
    [[nodiscard]] std::optional<Date> checked_add_workdays(Date date, std::int32_t days) const
    {
        return Date::if_any(with_view(fots_workdays_view_add, date.c(), days));
    }
    [[nodiscard]] std::int32_t workdays_between(Date from, Date to) const
    {
        return detail::value_or_throw(with_view(fots_workdays_view_between, from.c(), to.c())).number;
    }
    [[nodiscard]] std::optional<Date> adjust(Date date, Convention convention) const
    {
        return Date::if_any(with_view(fots_workdays_view_adjust, date.c(), static_cast<std::uint32_t>(convention)));
    }

private:
    // Takes Monday to Friday without the first of the dates.
    static Workdays without(std::vector<fots_date> dates, std::int32_t number)
    {
        dates.resize(static_cast<std::size_t>(number));
        Workdays made;
        made.holidays_ = std::move(dates);
        detail::value_or_throw(made.count());
        return made;
    }
    // Counts the holidays that are days of the week.
    fots_number_result count()
    {
        // One more than needed, so that data() is not null.
        holidays_.reserve(holidays_.size() + 1);
        marked_before_.resize(holidays_.size() + 1);
        return fots_workdays_view_count(weekmask_, holidays_.data(), holidays_.size(), marked_before_.data(), marked_before_.size());
    }
    std::uint32_t weekmask_;
    std::vector<fots_date> holidays_;
    std::vector<std::uint32_t> marked_before_;
};

// The unit of the interval of a rule. Hours and shorter units are in recurrences only.
enum class Frequency : std::uint32_t {
    Daily = FOTS_DAILY,
    Weekly = FOTS_WEEKLY,
    Monthly = FOTS_MONTHLY,
    Yearly = FOTS_YEARLY,
    Hourly = FOTS_HOURLY,
    Minutely = FOTS_MINUTELY,
    Secondly = FOTS_SECONDLY
};

// A weekday of a rule: every one if number is 0, else the n-th, or from the end if negative.
struct ByDay {
    ByDay(Weekday each) : number(0), weekday(each) {}
    ByDay(std::int8_t nth, Weekday day) : number(nth), weekday(day) {}

    std::int8_t number;
    Weekday weekday;
};

// A recurrence rule of RFC 5545. An empty list excludes no day. The days of the rule are the days
// that match and the dates, also those outside start and until, without the exceptions. If a list
// has more than FOTS_MAX_VALUES values, the functions throw FOTS_TOO_MANY_PARTS, and for more than
// FOTS_MAX_DATES dates or exceptions FOTS_TOO_MANY_DATES.
class Rule {
public:
    Rule(Date its_start, Frequency its_frequency) : start(its_start), frequency(its_frequency) {}

    Date start;
    Frequency frequency;
    std::uint32_t interval = 1;
    Weekday week_start = Weekday::Monday;
    std::vector<Month> months{};
    std::vector<std::int8_t> weeks{};
    std::vector<std::int16_t> year_days{};
    std::vector<std::int8_t> month_days{};
    std::vector<ByDay> weekdays{};
    std::vector<std::int16_t> set_positions{};
    std::optional<Date> until{};
    std::vector<Date> dates{};
    std::vector<Date> exceptions{};

    [[nodiscard]] std::optional<Date> first() const { return Date::if_any(with([](const fots_rule *rule) { return fots_rule_first(rule); })); }
    [[nodiscard]] std::optional<Date> next_after(Date date) const
    {
        return Date::if_any(with([date](const fots_rule *rule) { return fots_rule_next_after(rule, date.c()); }));
    }
    [[nodiscard]] std::optional<Date> previous_before(Date date) const
    {
        return Date::if_any(with([date](const fots_rule *rule) { return fots_rule_previous_before(rule, date.c()); }));
    }
    [[nodiscard]] bool contains(Date date) const
    {
        return detail::value_or_throw(with([date](const fots_rule *rule) { return fots_rule_contains(rule, date.c()); })).number == 1;
    }
    // Returns the first days after a date, in order: `count` of them, or fewer if no more follow. Allocates room for `count` days.
    [[nodiscard]] std::vector<Date> days_after(Date date, std::size_t count) const
    {
        // At least one, so that data() is not null.
        std::vector<fots_date> room(std::max(count, std::size_t{1}));
        const fots_days_result written = detail::value_or_throw(
            with([&](const fots_rule *rule) { return fots_rule_days_after(rule, date.c(), room.data(), count); }));
        return detail::first_dates(room, written.length);
    }
    // Returns the first days of the rule, in order: `count` of them, or fewer if no more follow.
    [[nodiscard]] std::vector<Date> first_days(std::size_t count) const
    {
        const std::optional<Date> one = first();
        if (count == 0 || !one) {
            return {};
        }
        std::vector<Date> days = days_after(*one, count - 1);
        days.insert(days.begin(), *one);
        return days;
    }

private:
    // Calls with a rule of C, whose arrays live until the call returns.
    template <class Call> auto with(Call call) const -> decltype(call(static_cast<const fots_rule *>(nullptr)))
    {
        fots_rule rule = fots_rule_new(start.c(), static_cast<std::uint32_t>(frequency));
        rule.until = until.value_or(Date::max()).c();
        rule.interval = interval;
        rule.week_start = static_cast<std::uint32_t>(week_start);
        std::vector<std::uint8_t> numbers;
        for (const Month month : months) {
            numbers.push_back(static_cast<std::uint8_t>(month));
        }
        std::vector<fots_rule_weekday> parts;
        for (const ByDay by : weekdays) {
            parts.push_back(fots_rule_weekday{by.number, static_cast<std::uint8_t>(by.weekday)});
        }
        set(numbers, rule.months, rule.months_length);
        set(weeks, rule.weeks, rule.weeks_length);
        set(year_days, rule.year_days, rule.year_days_length);
        set(month_days, rule.month_days, rule.month_days_length);
        set(parts, rule.weekdays, rule.weekdays_length);
        set(set_positions, rule.set_positions, rule.set_positions_length);
        const std::vector<fots_date> more = detail::dates_of_c(dates), fewer = detail::dates_of_c(exceptions);
        set(more, rule.dates, rule.dates_length);
        set(fewer, rule.exceptions, rule.exceptions_length);
        return call(&rule);
    }

    // Sets a list of a rule of C. An empty one stays as fots_rule_new set it.
    template <class Value> static void set(const std::vector<Value> &values, const Value *&start, std::size_t &length)
    {
        if (!values.empty()) {
            start = values.data();
            length = values.size();
        }
    }
};

// How far a recurrence is counted, for its next page: plain numbers, which you can keep.
using RecurrenceCursor = fots_recurrence_cursor;

// The text of a rule in RFC 5545, such as "FREQ=MONTHLY;BYDAY=-1FR;COUNT=12".
class Recurrence {
public:
    // Parses a text, or throws a parse_rule_error.
    [[nodiscard]] static Recurrence parse(std::string_view text) { return Recurrence(std::string(text)); }

    // Returns the text with its parts in one order.
    [[nodiscard]] const std::string &text() const & noexcept { return text_; }
    [[nodiscard]] std::string text() && noexcept { return std::move(text_); }

    [[nodiscard]] Frequency frequency() const noexcept { return static_cast<Frequency>(parts_.frequency); }
    [[nodiscard]] std::uint32_t interval() const noexcept { return parts_.interval; }
    [[nodiscard]] Weekday week_start() const noexcept { return static_cast<Weekday>(parts_.week_start); }
    [[nodiscard]] std::vector<Month> months() const
    {
        std::vector<Month> months;
        for (std::uint32_t index = 0; index < parts_.months_length; ++index) {
            months.push_back(static_cast<Month>(parts_.months[index]));
        }
        return months;
    }
    [[nodiscard]] std::vector<std::int8_t> weeks() const { return {parts_.weeks, parts_.weeks + parts_.weeks_length}; }
    [[nodiscard]] std::vector<std::int16_t> year_days() const { return {parts_.year_days, parts_.year_days + parts_.year_days_length}; }
    [[nodiscard]] std::vector<std::int8_t> month_days() const { return {parts_.month_days, parts_.month_days + parts_.month_days_length}; }
    [[nodiscard]] std::vector<ByDay> weekdays() const
    {
        std::vector<ByDay> weekdays;
        for (std::uint32_t index = 0; index < parts_.weekdays_length; ++index) {
            const fots_rule_weekday by = parts_.weekdays[index];
            weekdays.push_back(ByDay(by.number, static_cast<Weekday>(by.weekday)));
        }
        return weekdays;
    }
    [[nodiscard]] std::vector<std::int16_t> set_positions() const { return {parts_.set_positions, parts_.set_positions + parts_.set_positions_length}; }
    // Return the last day or the number of times, if given.
    [[nodiscard]] std::optional<Date> until() const
    {
        return parts_.until.julian_day == FOTS_NO_VALUE ? std::nullopt : std::optional(Date(parts_.until, {}));
    }
    [[nodiscard]] std::optional<std::uint32_t> count() const { return parts_.count == 0 ? std::nullopt : std::optional(parts_.count); }

    // Returns the rule from a start, without the number of times.
    [[nodiscard]] Rule rule(Date start) const
    {
        Rule rule(start, frequency());
        rule.interval = interval();
        rule.week_start = week_start();
        rule.months = months();
        rule.weeks = weeks();
        rule.year_days = year_days();
        rule.month_days = month_days();
        rule.weekdays = weekdays();
        rule.set_positions = set_positions();
        rule.until = until();
        return rule;
    }

    // Returns the first days from a start: `count` of them, or fewer if no more follow. Allocates room for `count` days.
    [[nodiscard]] std::vector<Date> days(Date start, std::size_t count) const { return days_from(start, start, count); }
    // Returns the first of these days that are not before `from`.
    [[nodiscard]] std::vector<Date> days_from(Date start, Date from, std::size_t count) const
    {
        RecurrenceCursor first = cursor();
        return next_days(start, from, count, first);
    }

    // Returns the cursor for a first page.
    [[nodiscard]] RecurrenceCursor cursor() const { return detail::recurrence_or_throw(fots_recurrence_cursor_new(text_.data(), text_.size())).cursor; }
    // Returns the first days that a cursor leaves, in the same way, and counts them. Pass the cursor with the same dates for the next page.
    std::vector<Date> next_days(Date start, Date from, std::size_t count, RecurrenceCursor &cursor) const
    {
        // At least one, so that data() is not null.
        std::vector<fots_date> room(std::max(count, std::size_t{1}));
        const fots_recurrence_result written = detail::recurrence_or_throw(
            fots_recurrence_next_days(text_.data(), text_.size(), start.c(), from.c(), &cursor, room.data(), count));
        return detail::first_dates(room, written.length);
    }

    // Compare the parts, by their texts.
    [[nodiscard]] friend bool operator==(const Recurrence &one, const Recurrence &other) { return one.text_ == other.text_; }
    [[nodiscard]] friend bool operator!=(const Recurrence &one, const Recurrence &other) { return one.text_ != other.text_; }

private:
    explicit Recurrence(const std::string &text) : parts_(detail::recurrence_or_throw(fots_recurrence_parse(text.data(), text.size())).recurrence)
    {
        const fots_recurrence_text_result written = detail::recurrence_or_throw(fots_recurrence_text(text.data(), text.size()));
        text_.assign(written.bytes, written.length);
    }

    fots_recurrence parts_;
    std::string text_;
};

inline std::ostream &operator<<(std::ostream &out, const Recurrence &recurrence) { return out << recurrence.text(); }

// Moves a date and time by a duration. The result is empty out of range.
[[nodiscard]] inline std::optional<std::pair<Date, Time>> add_to_pair(Date date, Time time, Duration duration)
{
    const fots_pair_result pair = fots_add_to_pair(date.c(), time.c(), duration.c());
    return detail::is_in_range(pair) ? std::optional(std::pair(Date(pair.date, {}), Time(pair.time, {}))) : std::nullopt;
}

[[nodiscard]] inline std::optional<std::pair<Date, Time>> sub_from_pair(Date date, Time time, Duration duration)
{
    const fots_pair_result pair = fots_sub_from_pair(date.c(), time.c(), duration.c());
    return detail::is_in_range(pair) ? std::optional(std::pair(Date(pair.date, {}), Time(pair.time, {}))) : std::nullopt;
}

// Returns the text in RFC 3339, such as 2024-02-29T23:59:59.25+01:00; empty if it has none.
[[nodiscard]] inline std::optional<std::string> rfc3339_text(Date date, Time time, UtcOffset offset)
{
    const fots_text_result text = fots_moment_text(date.c(), time.c(), offset.c());
    return detail::is_in_range(text) ? std::optional(std::string(text.bytes, text.length)) : std::nullopt;
}

// Parses a date, a time of day and an offset in RFC 3339.
[[nodiscard]] inline std::tuple<Date, Time, UtcOffset> parse_rfc3339(std::string_view text)
{
    const fots_parse_moment_result found = detail::parsed_or_throw(fots_moment_parse(detail::data(text), text.size()), text);
    return {Date(found.date, {}), Time(found.time, {}), UtcOffset(found.offset, {})};
}

// Returns the Unix time: the duration from 1970-01-01 0:00 UTC.
[[nodiscard]] inline Duration unix_duration(Date date, Time time, UtcOffset offset)
{
    return Duration(detail::value_or_throw(fots_unix_time(date.c(), time.c(), offset.c())).duration, {});
}

// Returns the date and time of a Unix time at an offset; empty out of range.
[[nodiscard]] inline std::optional<std::pair<Date, Time>> unix_pair(Duration duration, UtcOffset offset)
{
    const fots_pair_result pair = fots_unix_pair(duration.c(), offset.c());
    return detail::is_in_range(pair) ? std::optional(std::pair(Date(pair.date, {}), Time(pair.time, {}))) : std::nullopt;
}

// Columns, with a status for each row and the number of rows without a result. A column of times has
// nanoseconds since midnight, and text k is the bytes from bounds[k] to bounds[k + 1].
struct TimeColumn {
    std::vector<std::uint64_t> times;
    std::vector<std::uint8_t> statuses;
    std::size_t errors;
};

struct PairColumn {
    std::vector<std::int32_t> dates;
    std::vector<std::uint64_t> times;
    std::vector<std::uint8_t> statuses;
    std::size_t errors;
};

struct DurationColumn {
    std::vector<std::int64_t> seconds;
    std::vector<std::int32_t> nanoseconds;
    std::vector<std::uint8_t> statuses;
    std::size_t errors;
};

struct TextColumn {
    std::string bytes;
    std::vector<std::int32_t> bounds;
    std::vector<std::uint8_t> statuses;
    std::size_t errors;
};

namespace detail {

// Throws a std::invalid_argument if columns differ in length.
inline std::size_t errors_or_throw(std::size_t errors)
{
    if (errors == FOTS_LENGTH_MISMATCH) {
        throw std::invalid_argument("columns of different lengths, or too many rows");
    }
    return errors;
}

// Throws an exception unless two columns have the same length. An empty vector can have a null pointer,
// which the functions for C don't take.
inline void check_lengths(std::size_t one, std::size_t other)
{
    if (one != other) {
        throw std::invalid_argument("columns of different lengths");
    }
}

} // namespace detail

// Rounds times of day to multiples of a unit that divides 24 hours.
[[nodiscard]] inline TimeColumn round_times(const std::vector<std::uint64_t> &times, Duration unit, RoundingMode mode)
{
    TimeColumn found{std::vector<std::uint64_t>(times.size()), std::vector<std::uint8_t>(times.size()), 0};
    if (!times.empty()) {
        found.errors = fots_times_round(times.data(), times.size(), unit.c(), static_cast<std::uint32_t>(mode), found.times.data(),
            found.times.size(), found.statuses.data(), found.statuses.size());
    }
    return found;
}

// Rounds Julian days and times of day in the same way.
[[nodiscard]] inline PairColumn round_pairs(const std::vector<std::int32_t> &dates, const std::vector<std::uint64_t> &times, Duration unit, RoundingMode mode)
{
    PairColumn found{std::vector<std::int32_t>(dates.size()), std::vector<std::uint64_t>(dates.size()),
        std::vector<std::uint8_t>(dates.size()), 0};
    detail::check_lengths(dates.size(), times.size());
    if (!dates.empty()) {
        found.errors = detail::errors_or_throw(fots_pairs_round(dates.data(), dates.size(), times.data(), times.size(), unit.c(),
            static_cast<std::uint32_t>(mode), found.dates.data(), found.dates.size(), found.times.data(), found.times.size(),
            found.statuses.data(), found.statuses.size()));
    }
    return found;
}

// Parses durations, of which text k is the bytes from bounds[k] to bounds[k + 1].
[[nodiscard]] inline DurationColumn parse_durations(std::string_view bytes, const std::vector<std::int32_t> &bounds)
{
    const std::size_t rows = bounds.empty() ? 0 : bounds.size() - 1;
    DurationColumn found{std::vector<std::int64_t>(rows), std::vector<std::int32_t>(rows), std::vector<std::uint8_t>(rows), 0};
    if (rows) {
        found.errors = fots_durations_parse(detail::data(bytes), bytes.size(), bounds.data(), bounds.size(), found.seconds.data(), rows,
            found.nanoseconds.data(), rows, found.statuses.data(), rows);
    }
    return found;
}

// Returns durations as strings. A row without a result has no bytes.
[[nodiscard]] inline TextColumn duration_texts(const std::vector<std::int64_t> &seconds, const std::vector<std::int32_t> &nanoseconds)
{
    const std::size_t rows = seconds.size();
    TextColumn found{std::string(rows * FOTS_MAX_DURATION_LENGTH, ' '), std::vector<std::int32_t>(rows + 1), std::vector<std::uint8_t>(rows), 0};
    detail::check_lengths(rows, nanoseconds.size());
    if (rows) {
        found.errors = detail::errors_or_throw(fots_durations_texts(seconds.data(), rows, nanoseconds.data(), nanoseconds.size(),
            &found.bytes[0], found.bytes.size(), found.bounds.data(), rows + 1, found.statuses.data(), rows));
    }
    found.bytes.resize(static_cast<std::size_t>(found.bounds.back()));
    return found;
}

class OffsetDateTime;
class ZonedDateTime;

// A date and a time of day without an offset.
class PlainDateTime : public detail::Ordered<PlainDateTime> {
public:
    PlainDateTime(Date date, Time time) : value_(detail::value_or_throw(fots_moment_new(date.c(), time.c(), fots_offset{0})).moment) {}
    // Returns what the clocks of a zone show now.
    [[nodiscard]] static PlainDateTime now(const Zone &zone);
    // Parses a date and a time of day, such as "2024-02-29 23:59:59.25" or "2024-W09-4T9:05".
    [[nodiscard]] static PlainDateTime parse(std::string_view text) { return from(fots_pair_parse(detail::data(text), text.size()), text); }
    // Parses a text in all formats of ISO 8601, such as "20240229T2259" or "2024-02-29".
    [[nodiscard]] static PlainDateTime parse_iso(std::string_view text) { return from(fots_pair_parse_iso(detail::data(text), text.size()), text); }
    // Parses the text of a value by a format, and no other text.
    [[nodiscard]] static PlainDateTime parse(std::string_view text, const Format &format)
    {
        return from(fots_pair_parse_format(detail::data(text), text.size(), format.c()), text, format);
    }
    [[nodiscard]] static PlainDateTime parse(std::string_view text, const NamedFormat &format)
    {
        const fots_language_names names = detail::names_for_c(format.names());
        return from(fots_pair_parse_names(detail::data(text), text.size(), format.c(), &names), text, format);
    }
    [[nodiscard]] static PlainDateTime parse(std::string_view text, const LenientFormat &format)
    {
        return from(fots_pair_parse_leniently(detail::data(text), text.size(), format.c(), format.pivot()), text, format);
    }

    // Parses an interval in ISO 8601, such as "2024-01-01T08:00/PT90M", and returns its ends.
    [[nodiscard]] static std::pair<PlainDateTime, PlainDateTime> parse_interval(std::string_view text)
    {
        const fots_parse_pair_range_result found = detail::parsed_or_throw(fots_pair_interval_parse(detail::data(text), text.size()), text);
        return {{Date(found.start_date, {}), Time(found.start_time, {})}, {Date(found.end_date, {}), Time(found.end_time, {})}};
    }

    [[nodiscard]] Date date() const noexcept { return Date(value_.date, {}); }
    [[nodiscard]] Time time() const noexcept { return Time(value_.time, {}); }
    [[nodiscard]] PlainDateTime replace_date(Date date) const { return {date, time()}; }
    [[nodiscard]] PlainDateTime replace_time(Time time) const { return {date(), time}; }

    // Rounds to a multiple of a unit since midnight, which divides 24 hours.
    [[nodiscard]] PlainDateTime round(Duration unit, RoundingMode mode) const
    {
        const fots_pair_result found =
            detail::value_or_throw(fots_pair_round(value_.date, value_.time, unit.c(), static_cast<std::uint32_t>(mode)));
        return {Date(found.date, {}), Time(found.time, {})};
    }

    [[nodiscard]] std::optional<PlainDateTime> checked_add(Duration duration) const { return if_any(fots_moment_checked_add(value_, duration.c())); }
    [[nodiscard]] std::optional<PlainDateTime> checked_sub(Duration duration) const { return if_any(fots_moment_checked_sub(value_, duration.c())); }
    // Return the date-time a period later, or some periods later at once, without a drift.
    [[nodiscard]] std::optional<PlainDateTime> checked_add_period(const Period &period) const { return nth_period(period, 1); }
    [[nodiscard]] std::optional<PlainDateTime> nth_period(const Period &period, std::int32_t n) const
    {
        return if_any(fots_pair_nth_period(value_.date, value_.time, period.c(), n));
    }
    // The step that a date-time is in, or none if it is before this one, or if the period isn't positive.
    [[nodiscard]] std::optional<std::int32_t> step_of(const Period &period, PlainDateTime other) const
    {
        const fots_number_result found = fots_pair_step_of(value_.date, value_.time, period.c(), other.value_.date, other.value_.time);
        return found.status == FOTS_OK ? std::optional<std::int32_t>(found.number) : std::nullopt;
    }
    // Returns the period to another date-time: whole units, the largest of which is given, and then the
    // exact rest.
    [[nodiscard]] Period period_until(PlainDateTime other, CalendarUnit unit) const
    {
        return Period(detail::value_or_throw(fots_pair_period_until(value_.date, value_.time, other.value_.date, other.value_.time,
                          static_cast<std::uint32_t>(unit))).period, {});
    }
    [[nodiscard]] PlainDateTime saturating_add(Duration duration) const { return from(fots_moment_saturating_add(value_, duration.c())); }
    [[nodiscard]] PlainDateTime saturating_sub(Duration duration) const { return from(fots_moment_saturating_sub(value_, duration.c())); }

    [[nodiscard]] friend PlainDateTime operator+(PlainDateTime one, Duration duration)
    {
        return from(fots_moment_checked_add(one.value_, duration.c()));
    }
    [[nodiscard]] friend PlainDateTime operator-(PlainDateTime one, Duration duration)
    {
        return from(fots_moment_checked_sub(one.value_, duration.c()));
    }
    [[nodiscard]] friend Duration operator-(PlainDateTime one, PlainDateTime other)
    {
        return Duration(detail::value_or_throw(fots_moment_duration_since(one.value_, other.value_)).duration, {});
    }

    // Returns the text by a format, such as "2024-02-29 23:59" by "%F %R".
    [[nodiscard]] std::string format(const Format &format) const
    {
        return detail::written([&](char *bytes, std::size_t length) { return fots_pair_format(value_.date, value_.time, format.c(), bytes, length); });
    }
    // Returns the text by a format with names, such as "29 février 2024, 19:30" by "%-d %B %Y, %R".
    [[nodiscard]] std::string format(const NamedFormat &format) const
    {
        const fots_language_names names = detail::names_for_c(format.names());
        return detail::written<FOTS_MAX_NAME_LENGTH>([&](char *bytes, std::size_t length) { return fots_pair_format_names(value_.date, value_.time, format.c(), &names, bytes, length); });
    }

    // Return this date and time at an offset.
    [[nodiscard]] OffsetDateTime assume_offset(UtcOffset offset) const;
    [[nodiscard]] OffsetDateTime assume_utc() const;

    [[nodiscard]] std::pair<std::int32_t, fots_time> key() const noexcept { return {value_.date.julian_day, value_.time}; }

private:
    explicit PlainDateTime(fots_moment value) noexcept : value_(value) {}
    static PlainDateTime from(fots_moment_result result) { return PlainDateTime(detail::value_or_throw(result).moment); }
    template <class... Of> static PlainDateTime from(fots_parse_moment_result result, const Of &...of)
    {
        return PlainDateTime(detail::moment_or_throw(result, of...));
    }
    static std::optional<PlainDateTime> if_any(fots_moment_result result)
    {
        return detail::is_in_range(result) ? std::optional<PlainDateTime>(PlainDateTime(result.moment)) : std::nullopt;
    }
    static std::optional<PlainDateTime> if_any(fots_pair_result result)
    {
        return detail::is_in_range(result) ? std::optional(PlainDateTime(Date(result.date, {}), Time(result.time, {}))) : std::nullopt;
    }

    // At offset 0.
    fots_moment value_;
};

// A date and a time of day at an offset from UTC. Compares by instant.
class OffsetDateTime : public detail::Ordered<OffsetDateTime> {
public:
    explicit OffsetDateTime(fots_moment value) : value_(value) { detail::value_or_throw(fots_moment_unix_timestamp(value)); }
    OffsetDateTime(fots_moment value, detail::Unchecked) noexcept : value_(value) {}

    [[nodiscard]] static OffsetDateTime new_in_offset(Date date, Time time, UtcOffset offset)
    {
        return from(fots_moment_new(date.c(), time.c(), offset.c()));
    }
    [[nodiscard]] static OffsetDateTime new_utc(Date date, Time time) { return new_in_offset(date, time, UtcOffset::utc()); }
    [[nodiscard]] static OffsetDateTime from_unix_timestamp(std::int64_t seconds)
    {
        const auto set = [&](fots_components &of) { of.timestamp = seconds; };
        return OffsetDateTime(detail::made_or_throw(fots_moment_from_unix_timestamp(seconds), set).moment, {});
    }
    [[nodiscard]] static OffsetDateTime from_unix_duration(Duration duration) { return from(fots_moment_from_unix_time(duration.c())); }
    // Returns the current time at UTC, by std::chrono::system_clock.
    [[nodiscard]] static OffsetDateTime now_utc() { return from_unix_duration(detail::unix_time_now()); }
    // Parses a date, a time of day and an offset, such as "2024-02-29 9:05 +01:00".
    [[nodiscard]] static OffsetDateTime parse(std::string_view text)
    {
        return OffsetDateTime(detail::moment_or_throw(fots_offset_date_time_parse(detail::data(text), text.size()), text), {});
    }
    // Parses a text in all formats of ISO 8601, such as "20240229T2259+01".
    [[nodiscard]] static OffsetDateTime parse_iso(std::string_view text)
    {
        return OffsetDateTime(detail::moment_or_throw(fots_moment_parse_iso(detail::data(text), text.size()), text), {});
    }
    // Parses the text of a value by a format, and no other text.
    [[nodiscard]] static OffsetDateTime parse(std::string_view text, const Format &format)
    {
        return OffsetDateTime(detail::moment_or_throw(fots_moment_parse_format(detail::data(text), text.size(), format.c()), text, format), {});
    }
    [[nodiscard]] static OffsetDateTime parse(std::string_view text, const NamedFormat &format)
    {
        const fots_language_names names = detail::names_for_c(format.names());
        const fots_parse_moment_result found = fots_moment_parse_names(detail::data(text), text.size(), format.c(), &names);
        return OffsetDateTime(detail::moment_or_throw(found, text, format), {});
    }
    [[nodiscard]] static OffsetDateTime parse(std::string_view text, const LenientFormat &format)
    {
        const fots_parse_moment_result found = fots_moment_parse_leniently(detail::data(text), text.size(), format.c(), format.pivot());
        return OffsetDateTime(detail::moment_or_throw(found, text, format), {});
    }

    [[nodiscard]] Date date() const noexcept { return Date(value_.date, {}); }
    [[nodiscard]] Time time() const noexcept { return Time(value_.time, {}); }
    [[nodiscard]] UtcOffset offset() const noexcept { return UtcOffset(value_.offset, {}); }
    [[nodiscard]] PlainDateTime local() const { return {date(), time()}; }

    // Return the Unix time in whole seconds, rounded down, or as a duration.
    [[nodiscard]] std::int64_t unix_timestamp() const { return detail::value_or_throw(fots_moment_unix_timestamp(value_)).number; }
    [[nodiscard]] Duration unix_duration() const { return Duration(detail::value_or_throw(fots_moment_unix_time(value_)).duration, {}); }

    // Return the same instant at another offset.
    [[nodiscard]] std::optional<OffsetDateTime> checked_to_offset(UtcOffset offset) const { return if_any(fots_moment_to_offset(value_, offset.c())); }
    [[nodiscard]] OffsetDateTime to_offset(UtcOffset offset) const { return from(fots_moment_to_offset(value_, offset.c())); }
    [[nodiscard]] std::optional<OffsetDateTime> checked_to_utc() const { return checked_to_offset(UtcOffset::utc()); }
    [[nodiscard]] OffsetDateTime to_utc() const { return to_offset(UtcOffset::utc()); }
    // Returns the same instant in a time zone.
    [[nodiscard]] OffsetDateTime in_zone(const Zone &zone) const;
    // Returns the text of the same instant in a time zone, such as "03:00 CEST" by "%H:%M %Z".
    [[nodiscard]] std::string format(const Format &format, const Zone &zone) const;
    // Returns the same date and time at another offset, which is another instant.
    [[nodiscard]] OffsetDateTime replace_offset(UtcOffset offset) const { return from(fots_moment_replace_offset(value_, offset.c())); }

    // Rounds the local date-time to a multiple of a unit since midnight, which divides 24 hours.
    [[nodiscard]] OffsetDateTime round(Duration unit, RoundingMode mode) const
    {
        return from(fots_moment_round(value_, unit.c(), static_cast<std::uint32_t>(mode)));
    }

    [[nodiscard]] std::optional<OffsetDateTime> checked_add(Duration duration) const { return if_any(fots_moment_checked_add(value_, duration.c())); }
    [[nodiscard]] std::optional<OffsetDateTime> checked_sub(Duration duration) const { return if_any(fots_moment_checked_sub(value_, duration.c())); }
    [[nodiscard]] OffsetDateTime saturating_add(Duration duration) const { return from(fots_moment_saturating_add(value_, duration.c())); }
    [[nodiscard]] OffsetDateTime saturating_sub(Duration duration) const { return from(fots_moment_saturating_sub(value_, duration.c())); }

    [[nodiscard]] friend OffsetDateTime operator+(OffsetDateTime moment, Duration duration)
    {
        return from(fots_moment_checked_add(moment.value_, duration.c()));
    }
    [[nodiscard]] friend OffsetDateTime operator-(OffsetDateTime moment, Duration duration)
    {
        return from(fots_moment_checked_sub(moment.value_, duration.c()));
    }
    [[nodiscard]] friend Duration operator-(OffsetDateTime moment, OffsetDateTime other)
    {
        return Duration(detail::value_or_throw(fots_moment_duration_since(moment.value_, other.value_)).duration, {});
    }

    // Returns the text by a format, such as "29/Feb/2024:23:59:59 +0530".
    [[nodiscard]] std::string format(const Format &format) const
    {
        return detail::written([&](char *bytes, std::size_t length) { return fots_moment_format(value_, format.c(), bytes, length); });
    }
    // Returns the text by a format with names, such as "29 février 2024, 19:30 +0100" by "%-d %B %Y, %R %z".
    [[nodiscard]] std::string format(const NamedFormat &format) const
    {
        const fots_language_names names = detail::names_for_c(format.names());
        return detail::written<FOTS_MAX_NAME_LENGTH>([&](char *bytes, std::size_t length) { return fots_moment_format_names(value_, format.c(), &names, bytes, length); });
    }

    [[nodiscard]] fots_moment c() const noexcept { return value_; }
    [[nodiscard]] std::pair<std::int64_t, std::int32_t> key() const { return unix_duration().key(); }

private:
    static OffsetDateTime from(fots_moment_result result) { return OffsetDateTime(detail::value_or_throw(result).moment, {}); }
    static std::optional<OffsetDateTime> if_any(fots_moment_result result)
    {
        return detail::is_in_range(result) ? std::optional<OffsetDateTime>(OffsetDateTime(result.moment, {})) : std::nullopt;
    }

    fots_moment value_;
};

inline OffsetDateTime PlainDateTime::assume_offset(UtcOffset offset) const
{
    return OffsetDateTime::new_in_offset(date(), time(), offset);
}

inline OffsetDateTime PlainDateTime::assume_utc() const { return assume_offset(UtcOffset::utc()); }

// What a reading in a gap or a fold means.
enum class Policy : std::uint32_t { Compatible = FOTS_COMPATIBLE, Earlier = FOTS_EARLIER, Later = FOTS_LATER, Reject = FOTS_REJECT };

// How often the clocks of a zone show a reading: once, never or twice.
enum class LocalKind : std::uint32_t { Single = FOTS_SINGLE, Gap = FOTS_GAP, Fold = FOTS_FOLD };

// What Zone::resolve returns. For a gap, the Unix times are the ones of Policy::Earlier and
// Policy::Later, at which clocks don't show the reading.
struct Local {
    LocalKind kind;
    std::int64_t earlier, later;
    UtcOffset earlier_offset, later_offset;
};

// The result of Zone::instants: for each reading a Unix time and FOTS_OK, or the reason why it has
// none. The number of errors counts the reasons.
struct InstantColumn {
    std::vector<std::int64_t> seconds;
    std::vector<std::uint8_t> statuses;
    std::size_t errors;
};

// A time zone.
class Zone {
public:
    // Creates the zone of a TZif file, such as /usr/share/zoneinfo/Europe/Berlin. Throws a
    // std::system_error if that isn't a regular file of at most 65536 bytes that can be read.
    [[nodiscard]] static Zone from_file(const std::filesystem::path &path) { return from_bytes(detail::bytes_of_file(path)); }
    // Returns the zone with a name, such as "Europe/Berlin": of its file in the folder that the
    // variable TZDIR names, or else in /usr/share/zoneinfo, or with FOTSEVINDRE_ZONE_DATA in the
    // program. It is read once and kept. Throws a std::system_error like from_file, and a
    // std::invalid_argument for another name than of letters, digits and _-+/, from a letter on.
    static const Zone &named(const std::string &name)
    {
        static std::mutex mutex;
        // Never destroyed, so that references stay valid when the program ends.
        static std::map<std::string, Zone> &zones = *new std::map<std::string, Zone>;
        const std::lock_guard<std::mutex> lock(mutex);
        const auto found = zones.find(name);
        return found != zones.end() ? found->second : zones.emplace(name, from_bytes(detail::bytes_of_zone(name))).first->second;
    }
    // Creates the zone of the bytes of a TZif file.
    [[nodiscard]] static Zone from_bytes(std::string bytes)
    {
        const fots_zone_parts_result found = fots_zone_file_parts(reinterpret_cast<const std::uint8_t *>(bytes.data()), bytes.size());
        return Zone(std::move(bytes), found);
    }
    // Creates the zone of a POSIX text, such as CET-1CEST,M3.5.0,M10.5.0/3.
    [[nodiscard]] static Zone from_posix(std::string text)
    {
        const fots_zone_parts_result found = fots_zone_posix_parts(text.data(), text.size());
        return Zone(std::move(text), found);
    }

    // Return the offset, whether this is daylight saving time, and the abbreviation at a Unix time.
    [[nodiscard]] UtcOffset offset_at(std::int64_t seconds) const
    {
        return UtcOffset(detail::value_or_throw(with(fots_zone_offset, seconds)).offset, {});
    }
    [[nodiscard]] bool is_daylight_at(std::int64_t seconds) const { return local_type_at(seconds).is_daylight != 0; }
    [[nodiscard]] std::string abbreviation_at(std::int64_t seconds) const
    {
        const fots_local_type_result found = local_type_at(seconds);
        return bytes_.substr(found.abbreviation, found.abbreviation_length);
    }

    // Return the Unix time of the first change after another one, or of the last one that is not
    // after it; empty if there is none.
    [[nodiscard]] std::optional<std::int64_t> next_change(std::int64_t seconds) const { return if_any(with(fots_zone_next_change, seconds)); }
    [[nodiscard]] std::optional<std::int64_t> previous_change(std::int64_t seconds) const
    {
        return if_any(with(fots_zone_previous_change, seconds));
    }

    // Returns exactly the instants at which clocks show a reading.
    [[nodiscard]] Local resolve(PlainDateTime reading) const
    {
        const fots_local_result found = detail::value_or_throw(with(fots_zone_resolve, reading.date().c(), reading.time().c()));
        return {static_cast<LocalKind>(found.kind), found.earlier, found.later, UtcOffset(found.earlier_offset, {}),
            UtcOffset(found.later_offset, {})};
    }

    // Returns the date-time of a reading, or throws an error.
    [[nodiscard]] OffsetDateTime date_time(PlainDateTime reading, Policy policy = Policy::Compatible) const
    {
        const fots_moment_result found =
            with(fots_zone_moment, reading.date().c(), reading.time().c(), static_cast<std::uint32_t>(policy));
        return OffsetDateTime(detail::value_or_throw(found).moment, {});
    }

    // Returns the offsets at Unix times, in seconds.
    [[nodiscard]] std::vector<std::int32_t> offsets(const std::vector<std::int64_t> &seconds) const
    {
        std::vector<std::int32_t> found(seconds.size());
        std::vector<std::uint8_t> statuses(seconds.size());
        // Without a row, data() may be null.
        if (!seconds.empty()) {
            with(fots_zone_offsets, seconds.data(), seconds.size(), found.data(), found.size(), statuses.data(), statuses.size());
        }
        return found;
    }

    // Returns the Unix times at which clocks show readings, by a policy. A reading is the seconds by
    // the clock since 1970-01-01 0:00.
    [[nodiscard]] InstantColumn instants(const std::vector<std::int64_t> &readings, Policy policy = Policy::Compatible) const
    {
        InstantColumn found{std::vector<std::int64_t>(readings.size()), std::vector<std::uint8_t>(readings.size()), 0};
        if (!readings.empty()) {
            found.errors = with(fots_zone_instants, readings.data(), readings.size(), static_cast<std::uint32_t>(policy), found.seconds.data(),
                found.seconds.size(), found.statuses.data(), found.statuses.size());
        }
        return found;
    }

    // Returns the date-time of the first instant at which the clocks have reached a date, and the
    // length of the day from there to the start of the next one.
    [[nodiscard]] ZonedDateTime start_of_day(Date date) const &;
    ZonedDateTime start_of_day(Date date) const && = delete;
    [[nodiscard]] Duration day_length(Date date) const { return Duration(detail::value_or_throw(with(fots_zoned_day_length, date.c())).duration, {}); }

    // Return the Unix times some days or months after Unix times, and of the starts of their days, by
    // the clocks of the zone.
    [[nodiscard]] InstantColumn add_days(const std::vector<std::int64_t> &seconds, const std::vector<std::int64_t> &days, Policy policy = Policy::Compatible) const
    {
        return moved(fots_zoned_add_days, seconds, days, policy);
    }
    [[nodiscard]] InstantColumn add_months(const std::vector<std::int64_t> &seconds, const std::vector<std::int32_t> &months, Policy policy = Policy::Compatible) const
    {
        return moved(fots_zoned_add_months, seconds, months, policy);
    }
    [[nodiscard]] InstantColumn starts_of_day(const std::vector<std::int64_t> &seconds) const
    {
        InstantColumn found{std::vector<std::int64_t>(seconds.size()), std::vector<std::uint8_t>(seconds.size()), 0};
        if (!seconds.empty()) {
            found.errors = with(fots_zoned_starts_of_day, seconds.data(), seconds.size(), found.seconds.data(), found.seconds.size(),
                found.statuses.data(), found.statuses.size());
        }
        return found;
    }

    // Returns the struct of C, which uses the bytes of this zone.
    [[nodiscard]] fots_zone c() const noexcept { return {reinterpret_cast<const std::uint8_t *>(bytes_.data()), bytes_.size(), parts_}; }

private:
    Zone(std::string bytes, const fots_zone_parts_result &found)
        : bytes_(std::move(bytes)), parts_(detail::parsed_or_throw(found, bytes_).parts)
    {
    }

    // Returns the column of a function with as many steps as Unix times, or throws a std::invalid_argument.
    template <class Call, class Step>
    InstantColumn moved(Call call, const std::vector<std::int64_t> &seconds, const std::vector<Step> &steps, Policy policy) const
    {
        if (seconds.size() != steps.size()) {
            throw std::invalid_argument("columns of different lengths");
        }
        InstantColumn found{std::vector<std::int64_t>(seconds.size()), std::vector<std::uint8_t>(seconds.size()), 0};
        if (!seconds.empty()) {
            found.errors = with(call, seconds.data(), seconds.size(), steps.data(), steps.size(), static_cast<std::uint32_t>(policy),
                found.seconds.data(), found.seconds.size(), found.statuses.data(), found.statuses.size());
        }
        return found;
    }

    // Calls a function with the struct of C.
    template <class Result, class... Parameters, class... Arguments>
    Result with(Result (*call)(const fots_zone *, Parameters...), Arguments... arguments) const
    {
        const fots_zone zone = c();
        return call(&zone, arguments...);
    }

    fots_local_type_result local_type_at(std::int64_t seconds) const
    {
        return detail::value_or_throw(with(fots_zone_local_type, seconds));
    }
    static std::optional<std::int64_t> if_any(fots_int64_result result)
    {
        return detail::is_in_range(result) ? std::optional(result.number) : std::nullopt;
    }

    std::string bytes_;
    fots_zone_parts parts_;
};

inline OffsetDateTime OffsetDateTime::in_zone(const Zone &zone) const
{
    const fots_zone held = zone.c();
    return from(fots_moment_in_zone(value_, &held));
}

inline std::string OffsetDateTime::format(const Format &format, const Zone &zone) const
{
    const fots_zone held = zone.c();
    return detail::written(
        [&](char *bytes, std::size_t length) { return fots_moment_format_in_zone(value_, &held, format.c(), bytes, length); });
}

// An instant in a time zone, with the date and the time of day that its clocks show then. It refers
// to the zone, which must outlive it in its place, so a temporary zone doesn't compile. Compares by
// instant, whatever the zones are.
class ZonedDateTime : public detail::Ordered<ZonedDateTime> {
public:
    // Creates the date-time in a zone at the instant of another date-time.
    ZonedDateTime(OffsetDateTime moment, const Zone &zone) : ZonedDateTime(moment.in_zone(zone).c(), &zone) {}
    ZonedDateTime(OffsetDateTime, const Zone &&) = delete;

    // Returns the current time in a zone, by std::chrono::system_clock.
    [[nodiscard]] static ZonedDateTime now(const Zone &zone) { return from_unix_duration(detail::unix_time_now(), zone); }
    static ZonedDateTime now(const Zone &&) = delete;
    [[nodiscard]] static ZonedDateTime from_unix_duration(Duration duration, const Zone &zone) { return from(&zone, fots_zoned_at, duration.c()); }
    static ZonedDateTime from_unix_duration(Duration, const Zone &&) = delete;
    // Creates the date-time that a local one means in a zone, or throws FOTS_SKIPPED_TIME or
    // FOTS_REPEATED_TIME by Policy::Reject.
    [[nodiscard]] static ZonedDateTime from_local(PlainDateTime local, const Zone &zone, Policy policy = Policy::Compatible)
    {
        return from(&zone, fots_zoned_from_local, local.date().c(), local.time().c(), static_cast<std::uint32_t>(policy));
    }
    static ZonedDateTime from_local(PlainDateTime, const Zone &&, Policy = Policy::Compatible) = delete;

    [[nodiscard]] const Zone &zone() const noexcept { return *zone_; }
    [[nodiscard]] Date date() const noexcept { return Date(value_.date, {}); }
    [[nodiscard]] Time time() const noexcept { return Time(value_.time, {}); }
    [[nodiscard]] UtcOffset offset() const noexcept { return UtcOffset(value_.offset, {}); }
    [[nodiscard]] PlainDateTime local() const { return {date(), time()}; }
    [[nodiscard]] OffsetDateTime to_offset_date_time() const noexcept { return OffsetDateTime(value_, {}); }
    [[nodiscard]] std::int64_t unix_timestamp() const { return to_offset_date_time().unix_timestamp(); }
    [[nodiscard]] Duration unix_duration() const { return to_offset_date_time().unix_duration(); }

    // Returns the same instant in another zone.
    [[nodiscard]] ZonedDateTime in_zone(const Zone &zone) const { return {to_offset_date_time(), zone}; }
    ZonedDateTime in_zone(const Zone &&) const = delete;

    // Move to another local date-time, date or time of day. They keep the offset if the clocks show
    // it then, and otherwise go by the policy.
    [[nodiscard]] ZonedDateTime with_local(PlainDateTime local, Policy policy = Policy::Compatible) const
    {
        return from(zone_, fots_zoned_with_local, value_, local.date().c(), local.time().c(), static_cast<std::uint32_t>(policy));
    }
    [[nodiscard]] ZonedDateTime with_date(Date date, Policy policy = Policy::Compatible) const { return with_local({date, time()}, policy); }
    [[nodiscard]] ZonedDateTime with_time(Time time, Policy policy = Policy::Compatible) const { return with_local({date(), time}, policy); }

    // Returns the date-time on another date, such as the next working day. The time of day stays, by the
    // policy on the new date. On its own date it stays as it is.
    [[nodiscard]] ZonedDateTime moved_to(Date date, Policy policy = Policy::Compatible) const
    {
        return from(zone_, fots_zoned_moved_to, value_, date.c(), static_cast<std::uint32_t>(policy));
    }

    // Returns the date-time a period later: the date is moved, the time of day stays, by the policy
    // on the new date, and then the duration moves the instant.
    [[nodiscard]] ZonedDateTime add_period(const Period &period, Policy policy = Policy::Compatible) const
    {
        return from(zone_, fots_zoned_add_period, value_, period.c(), static_cast<std::uint32_t>(policy));
    }
    [[nodiscard]] friend ZonedDateTime operator+(const ZonedDateTime &one, const Period &period) { return one.add_period(period); }
    // Returns the date-time some periods later at once, without a drift.
    [[nodiscard]] ZonedDateTime nth_period(const Period &period, std::int32_t n, Policy policy = Policy::Compatible) const
    {
        return from(zone_, fots_zoned_nth_period, value_, period.c(), n, static_cast<std::uint32_t>(policy));
    }
    // Returns the period to another date-time, which is seen in this zone: whole units, the largest of
    // which is given, up to the last day that doesn't pass it, and then the exact rest.
    [[nodiscard]] Period period_until(const ZonedDateTime &other, CalendarUnit unit, Policy policy = Policy::Compatible) const
    {
        const fots_zone held = zone_->c();
        return Period(detail::value_or_throw(fots_zoned_period_until(&held, value_, other.in_zone(*zone_).value_, static_cast<std::uint32_t>(unit),
                          static_cast<std::uint32_t>(policy))).period, {});
    }
    // Durations move the instant.
    [[nodiscard]] friend ZonedDateTime operator+(const ZonedDateTime &one, Duration duration)
    {
        return from(one.zone_, fots_zoned_checked_add, one.value_, duration.c());
    }
    [[nodiscard]] friend ZonedDateTime operator-(const ZonedDateTime &one, Duration duration)
    {
        return from(one.zone_, fots_zoned_checked_sub, one.value_, duration.c());
    }
    [[nodiscard]] friend Duration operator-(const ZonedDateTime &one, const ZonedDateTime &other)
    {
        return one.to_offset_date_time() - other.to_offset_date_time();
    }

    // Rounds to a multiple of a unit since the midnight of the date, by what the clocks show. Keeps the
    // offset if the clocks show the result at it. To 24 hours it is the start of the day or of the next.
    [[nodiscard]] ZonedDateTime round(Duration unit, RoundingMode mode) const
    {
        return from(zone_, fots_zoned_round, value_, unit.c(), static_cast<std::uint32_t>(mode));
    }

    // Return the start of the day, and its length.
    [[nodiscard]] ZonedDateTime start_of_day() const { return zone_->start_of_day(date()); }
    [[nodiscard]] Duration day_length() const { return zone_->day_length(date()); }
    // Return the first and the last instant of the day, ISO week, month, quarter or year.
    [[nodiscard]] ZonedDateTime start_of(CalendarUnit unit) const { return from(zone_, fots_zoned_start_of, value_, static_cast<std::uint32_t>(unit)); }
    [[nodiscard]] ZonedDateTime end_of(CalendarUnit unit) const { return from(zone_, fots_zoned_end_of, value_, static_cast<std::uint32_t>(unit)); }

    // Returns the text by a format, such as "03:00 CEST" by "%H:%M %Z".
    [[nodiscard]] std::string format(const Format &format) const { return to_offset_date_time().format(format, *zone_); }

    [[nodiscard]] fots_moment c() const noexcept { return value_; }
    [[nodiscard]] std::pair<std::int64_t, std::int32_t> key() const { return unix_duration().key(); }

private:
    friend class Zone;

    ZonedDateTime(fots_moment value, const Zone *zone) noexcept : value_(value), zone_(zone) {}

    // Calls a function with the struct of C.
    template <class... Parameters, class... Arguments>
    static ZonedDateTime from(const Zone *zone, fots_moment_result (*call)(const fots_zone *, Parameters...), Arguments... arguments)
    {
        const fots_zone held = zone->c();
        return {detail::value_or_throw(call(&held, arguments...)).moment, zone};
    }

    fots_moment value_;
    const Zone *zone_;
};

inline PlainDateTime PlainDateTime::now(const Zone &zone) { return ZonedDateTime::now(zone).local(); }
inline Date Date::today(const Zone &zone) { return PlainDateTime::now(zone).date(); }
inline Time Time::now(const Zone &zone) { return PlainDateTime::now(zone).time(); }

inline ZonedDateTime Zone::start_of_day(Date date) const & { return ZonedDateTime::from(this, fots_zoned_start_of_day, date.c()); }

// A recurrence with times of day, its start, other readings (RDATE) and readings to leave out
// (EXDATE), at most FOTS_MAX_DATES each, in any order.
class RecurrenceSet {
public:
    RecurrenceSet(Recurrence its_recurrence, PlainDateTime its_start) : recurrence(std::move(its_recurrence)), start(its_start) {}

    Recurrence recurrence;
    PlainDateTime start;
    std::vector<PlainDateTime> dates{};
    std::vector<PlainDateTime> exceptions{};

    // Returns the first readings that are not before one: `count` of them, or fewer if no more follow. Allocates room for `count`.
    [[nodiscard]] std::vector<PlainDateTime> readings_from(PlainDateTime from, std::size_t count) const
    {
        RecurrenceCursor first = recurrence.cursor();
        return next_readings(from, count, first);
    }
    // Returns the first moments of these readings in a zone that are after one, in the same way. In a gap or a fold a reading means Policy::Compatible.
    [[nodiscard]] std::vector<OffsetDateTime> moments_after(const Zone &zone, OffsetDateTime after, std::size_t count) const
    {
        RecurrenceCursor first = recurrence.cursor();
        return next_moments(zone, after, count, first);
    }

    // Return the same, with a cursor that holds what is counted of COUNT. For the next page pass the cursor, and a nanosecond after the last
    // reading, or the last moment.
    std::vector<PlainDateTime> next_readings(PlainDateTime from, std::size_t count, RecurrenceCursor &cursor) const
    {
        std::vector<PlainDateTime> readings;
        for (const fots_moment found : written(count, [&](const fots_recurrence_set *set, fots_moment *room) {
                 return fots_recurrence_next_readings(set, from.assume_utc().c(), &cursor, room, count);
             })) {
            readings.emplace_back(Date(found.date, {}), Time(found.time, {}));
        }
        return readings;
    }
    std::vector<OffsetDateTime> next_moments(const Zone &zone, OffsetDateTime after, std::size_t count, RecurrenceCursor &cursor) const
    {
        const fots_zone held = zone.c();
        std::vector<OffsetDateTime> moments;
        for (const fots_moment found : written(count, [&](const fots_recurrence_set *set, fots_moment *room) {
                 return fots_recurrence_next_moments(set, &held, after.c(), &cursor, room, count);
             })) {
            moments.push_back(OffsetDateTime(found, {}));
        }
        return moments;
    }

private:
    // Returns what a function writes, with a set of C whose arrays live until it returns.
    template <class Call> std::vector<fots_moment> written(std::size_t count, Call call) const
    {
        const std::string &text = recurrence.text();
        fots_recurrence_set set = fots_recurrence_set_new(text.data(), text.size(), start.assume_utc().c());
        const std::vector<fots_moment> more = moments_of_c(dates), fewer = moments_of_c(exceptions);
        set.dates = more.data();
        set.dates_length = dates.size();
        set.exceptions = fewer.data();
        set.exceptions_length = exceptions.size();
        // At least one, so that data() is not null.
        std::vector<fots_moment> room(std::max(count, std::size_t{1}));
        const fots_recurrence_result found = call(&set, room.data());
        room.resize(detail::value_or_throw(found).length);
        return room;
    }

    static std::vector<fots_moment> moments_of_c(const std::vector<PlainDateTime> &readings)
    {
        std::vector<fots_moment> moments;
        moments.reserve(readings.size() + 1); // so that data() is not null
        for (const PlainDateTime reading : readings) {
            moments.push_back(reading.assume_utc().c());
        }
        return moments;
    }
};

// A kind of start of an event: a date, a local time, or a time in UTC.
enum class EventKind : std::uint32_t { date = FOTS_EVENT_DATE, local = FOTS_EVENT_LOCAL, utc = FOTS_EVENT_UTC };

// An event of a calendar file (RFC 5545): the lines of a VEVENT. A function for its set throws a
// parse_event_error for the first invalid line DTSTART, RRULE, RDATE or EXDATE.
class Event {
public:
    // Takes lines without folds, which end with LF or CR LF.
    explicit Event(std::string its_lines) : lines_(std::move(its_lines)) {}

    [[nodiscard]] const std::string &lines() const & noexcept { return lines_; }
    [[nodiscard]] std::string lines() && noexcept { return std::move(lines_); }

    // Returns the value of the first line with a name in any case, such as "SUMMARY" or "DTEND", if
    // there is one. Escapes stay.
    [[nodiscard]] std::optional<std::string> value(std::string_view name) const
    {
        return written([&](char *bytes, std::size_t room) {
            return fots_event_value(lines_.data(), lines_.size(), detail::data(name), name.size(), bytes, room);
        });
    }
    // Returns the name of the zone (TZID), if a line of the set names one.
    [[nodiscard]] std::optional<std::string> zone() const
    {
        detail::event_or_throw(fots_event_start(lines_.data(), lines_.size()));
        return written([&](char *bytes, std::size_t room) { return fots_event_zone(lines_.data(), lines_.size(), bytes, room); });
    }

    [[nodiscard]] EventKind kind() const { return static_cast<EventKind>(detail::event_or_throw(fots_event_start(lines_.data(), lines_.size())).kind); }
    // Returns the start. A date is its midnight.
    [[nodiscard]] PlainDateTime start() const { return plain(detail::event_or_throw(fots_event_start(lines_.data(), lines_.size())).start); }

    // Returns the lines of the set in one form: DTSTART, RRULE, RDATE and EXDATE, each with CR LF. They
    // have the same set. "dtstart:20240101" becomes "DTSTART;VALUE=DATE:20240101" and
    // "RRULE:FREQ=DAILY;COUNT=1".
    [[nodiscard]] std::string recurrence_lines() const
    {
        std::string bytes(lines_.size() + 512, '\0');
        fots_event_set_result found = fots_event_recurrence_lines(lines_.data(), lines_.size(), &bytes[0], bytes.size());
        while (found.status == FOTS_BUFFER_TOO_SHORT) {
            bytes.resize(2 * bytes.size());
            found = fots_event_recurrence_lines(lines_.data(), lines_.size(), &bytes[0], bytes.size());
        }
        bytes.resize(detail::event_or_throw(found).length);
        return bytes;
    }

    // Return the first days, readings or moments of the set: `count` of them, or fewer if no more
    // follow. Allocate room for `count`. Days are for EventKind::date, readings for the other kinds,
    // and moments for EventKind::local. Readings of EventKind::utc are in UTC.
    [[nodiscard]] std::vector<Date> days_from(Date from, std::size_t count) const
    {
        // At least one, so that data() is not null.
        std::vector<fots_date> room(std::max(count, std::size_t{1}));
        const fots_event_set_result found = detail::event_or_throw(fots_event_days(lines_.data(), lines_.size(), from.c(), room.data(), count));
        return detail::first_dates(room, found.length);
    }
    [[nodiscard]] std::vector<PlainDateTime> readings_from(PlainDateTime from, std::size_t count) const
    {
        std::vector<fots_moment> room(std::max(count, std::size_t{1}));
        room.resize(detail::event_or_throw(fots_event_readings(lines_.data(), lines_.size(), from.assume_utc().c(), room.data(), count)).length);
        std::vector<PlainDateTime> readings;
        for (const fots_moment found : room) {
            readings.push_back(plain(found));
        }
        return readings;
    }
    [[nodiscard]] std::vector<OffsetDateTime> moments_after(const Zone &zone, OffsetDateTime after, std::size_t count) const
    {
        const fots_zone held = zone.c();
        std::vector<fots_moment> room(std::max(count, std::size_t{1}));
        room.resize(detail::event_or_throw(fots_event_moments(lines_.data(), lines_.size(), &held, after.c(), room.data(), count)).length);
        std::vector<OffsetDateTime> moments;
        for (const fots_moment found : room) {
            moments.push_back(OffsetDateTime(found, {}));
        }
        return moments;
    }

private:
    static PlainDateTime plain(fots_moment moment) { return PlainDateTime(Date(moment.date, {}), Time(moment.time, {})); }

    // Returns what a function writes, which is part of the lines, or nullopt without it.
    template <class Call> std::optional<std::string> written(Call call) const
    {
        std::string bytes(lines_.size(), '\0');
        const fots_length_result found = call(&bytes[0], bytes.size());
        if (!detail::is_in_range(found)) {
            return std::nullopt;
        }
        bytes.resize(found.length);
        return bytes;
    }

    std::string lines_;
};

// Returns a text with its lines folded (RFC 5545): CR LF and a space come before the 76th byte of a
// line, and then before each 74 bytes. A fold can be within a character of several bytes.
[[nodiscard]] inline std::string fold(std::string_view text)
{
    std::string folded(text.size() + text.size() / 24, '\0');
    folded.resize(detail::value_or_throw(fots_fold(detail::data(text), text.size(), &folded[0], folded.size())).length);
    return folded;
}

// Returns the events of a calendar file (RFC 5545), or throws an error with its position in the file
// without folds: FOTS_UNCLOSED_EVENT or FOTS_OTHER_END.
[[nodiscard]] inline std::vector<Event> events(std::string_view text)
{
    std::string unfolded(text.size(), '\0');
    unfolded.resize(detail::value_or_throw(fots_unfold(detail::data(text), text.size(), &unfolded[0], unfolded.size())).length);
    std::vector<Event> found;
    std::size_t start = 0;
    while (true) {
        const fots_event_result event = fots_event_first(unfolded.data() + start, unfolded.size() - start);
        if (event.status == FOTS_RESULT_OUT_OF_RANGE) {
            return found;
        }
        if (event.status != FOTS_OK) {
            throw error(event.status, start + event.position);
        }
        found.emplace_back(unfolded.substr(start + event.position, event.length));
        start += event.next;
    }
}

} // namespace fotsevindre

template <> struct std::hash<fotsevindre::Date> {
    [[nodiscard]] std::size_t operator()(fotsevindre::Date date) const noexcept { return std::hash<std::int32_t>()(date.key()); }
};

#endif
