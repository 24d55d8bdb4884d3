-- What is decided at the edges. Each query returns the rows whose result isn't the expected one.
\pset format unaligned
SET timezone = 'UTC';
SET datestyle = 'ISO';
SET intervalstyle = 'postgres';
CREATE FUNCTION pg_temp.error_of(query text) RETURNS text LANGUAGE plpgsql AS $$
DECLARE message text; detail text; state text;
BEGIN
    EXECUTE query;
    RETURN 'no error';
EXCEPTION WHEN OTHERS THEN
    GET STACKED DIAGNOSTICS message = MESSAGE_TEXT, detail = PG_EXCEPTION_DETAIL, state = RETURNED_SQLSTATE;
    RETURN state || ' ' || message || CASE WHEN detail = '' THEN '' ELSE ' / ' || detail END;
END $$;

-- infinity stays what it is from a date to a date, and is an error elsewhere
SELECT * FROM (VALUES
    (1, cal_add_months('infinity', 1)::text, 'infinity'), (2, cal_add_years('-infinity', 1)::text, '-infinity'),
    (3, cal_add_workdays('infinity', -5)::text, 'infinity'), (4, cal_adjust('-infinity', 'following')::text, '-infinity'),
    (5, cal_end_of('infinity', 'month')::text, 'infinity'), (6, cal_next_weekday('infinity', 1)::text, 'infinity'),
    (7, cal_instant('infinity', 'UTC')::text, 'infinity'), (8, cal_local('-infinity', 'UTC')::text, '-infinity'),
    (9, cal_add_period_zoned('infinity', '1 day', 'UTC')::text, 'infinity'), (10, cal_round_local('infinity', '1 hour')::text, 'infinity'),
    (11, pg_temp.error_of($$SELECT cal_period('infinity', '2024-01-01')$$), '22008 date must be finite'),
    (12, pg_temp.error_of($$SELECT cal_iso_week('infinity')$$), '22008 date must be finite'),
    (13, pg_temp.error_of($$SELECT cal_is_workday('-infinity')$$), '22008 date must be finite'),
    (14, pg_temp.error_of($$SELECT cal_local_kind('infinity', 'UTC')$$), '22008 timestamp must be finite'),
    (15, pg_temp.error_of($$SELECT cal_series('2024-01-01', 'infinity', '1 day')$$), '22008 date must be finite'),
    (16, pg_temp.error_of($$SELECT cal_days('FREQ=DAILY', '2024-01-01', daterange('2024-01-01', 'infinity'))$$), '22023 the recurrence has no end'),
    (17, (SELECT count(*) FROM cal_days('FREQ=DAILY', '2024-01-01', daterange('-infinity', '2024-01-05')))::text, '4'),
    (18, (SELECT count(*) FROM cal_days('FREQ=DAILY;COUNT=3', '2024-01-01', daterange('infinity', 'infinity', '[]')))::text, '0'),
    (19, (SELECT count(*) FROM cal_times_zoned('FREQ=DAILY;COUNT=3', '2024-01-01', 'UTC', '[-infinity,infinity]'))::text, '3')
) AS row(id, result, expected) WHERE result IS DISTINCT FROM expected;

-- the functions go from 4714-11-24 BC to 999999-12-31, with a year 0 in texts for 1 BC
SELECT * FROM (VALUES
    (1, cal_add_months('999999-11-30', 1)::text, '999999-12-30'),
    (2, pg_temp.error_of($$SELECT cal_add_months('999999-12-01', 1)$$), '22008 add months: the result is out of range, or does not exist'),
    (3, pg_temp.error_of($$SELECT cal_quarter('1000000-01-01')$$), '22008 date out of range / The functions go to the year 999999.'),
    (4, cal_add_years('0001-06-01', -1)::text, '0001-06-01 BC'), (5, cal_format('0001-06-01 BC', '%Y-%m-%d'), '0000-06-01'),
    (6, cal_week_text('0045-03-15 BC'), '-0044-W11-4'), (7, cal_parse('0000-02-29')::text, '0001-02-29 BC'),
    (8, cal_add_months('4714-12-24 BC', -1)::text, '4714-11-24 BC'),
    (9, pg_temp.error_of($$SELECT cal_add_months('4714-11-24 BC', -1)$$), '22008 add months: the result is out of range, or does not exist'),
    (15, cal_local('1969-12-31 23:59:59.5Z', 'Asia/Kolkata')::text, '1970-01-01 05:29:59.5'),
    (10, cal_local('294276-12-31 12:00Z', 'UTC')::text, '294276-12-31 12:00:00'),
    (11, pg_temp.error_of($$SELECT cal_instant('294276-12-31 23:30', 'Etc/GMT+5')$$), '22008 local time: the result is out of range, or does not exist'),
    (12, cal_instant('4714-11-24 00:00:00 BC', 'UTC')::text, '4714-11-24 00:00:00+00 BC'),
    (13, (SELECT count(*) FROM cal_days('FREQ=YEARLY', '999990-01-01', daterange(NULL, '1000005-01-01')))::text, '10'),
    (14, (SELECT count(*) FROM cal_series('999990-01-01', '999999-12-31', '1 year'))::text, '10')
) AS row(id, result, expected) WHERE result IS DISTINCT FROM expected;

-- errors: a text that isn't one, a value out of range, another argument; and where
SELECT * FROM (VALUES
    (1, pg_temp.error_of($$SELECT cal_parse('2023-02-29')$$), '22008 invalid date: "2023-02-29" / day 29 is out of range 1 to 28 (February 2023)'),
    (2, pg_temp.error_of($$SELECT cal_parse('2024-02-2x')$$), '22007 invalid date: "2024-02-2x" / unexpected byte at character 10'),
    (3, pg_temp.error_of($$SELECT cal_parse('2024-02')$$), '22007 invalid date: "2024-02" / unexpected end at character 8'),
    (4, pg_temp.error_of($$SELECT cal_parse('2024–02-29')$$), '22007 invalid date: "2024–02-29" / unexpected byte at character 5'),
    (5, pg_temp.error_of($$SELECT cal_parse('Wed 2024-02-29', '%a %Y-%m-%d')$$), '22007 invalid date: "Wed 2024-02-29" / weekday contradicts the other components'),
    (6, pg_temp.error_of($$SELECT cal_parse('05', '%m')$$), '22023 format: the texts of a format don''t determine such a value'),
    (7, pg_temp.error_of($$SELECT cal_valid('05', '%m')$$), '22023 format: the texts of a format don''t determine such a value'),
    (8, pg_temp.error_of($$SELECT cal_format('2024-02-29', '%d %Q')$$), '22023 invalid format: "%d %Q" / unknown item at character 4'),
    (9, pg_temp.error_of($$SELECT cal_format('2024-02-29', '%H')$$), '22023 format: the format shows something that the value doesn''t have'),
    (10, pg_temp.error_of($$SELECT cal_adjust('2024-02-29', 'next')$$), '22023 unknown convention "next"; expected unadjusted, following, modified following, preceding or modified preceding'),
    (11, pg_temp.error_of($$SELECT cal_next_weekday('2024-02-29', 0)$$), '22023 next weekday: invalid weekday; expected 1 (Monday) to 7 (Sunday)'),
    (12, pg_temp.error_of($$SELECT cal_nth_weekday(2024, 13, 1, 1)$$), '22008 nth weekday: month is out of range'),
    (13, cal_nth_weekday(2024, 2, 5, 5)::text, NULL),
    (14, pg_temp.error_of($$SELECT cal_instant('2024-03-31 02:30', 'Europe/Berlin', 'reject')$$), '22008 local time: the clocks of the zone skip the date and time'),
    (15, pg_temp.error_of($$SELECT cal_instant('2024-10-27 02:30', 'Europe/Berlin', 'reject')$$), '22008 local time: the clocks of the zone show the date and time twice'),
    (16, pg_temp.error_of($$SELECT cal_days('FREQ=DAILY;BYDAY=XX', '2024-01-01')$$), '22023 invalid recurrence: "FREQ=DAILY;BYDAY=XX" / invalid value at character 12'),
    (17, pg_temp.error_of($$SELECT cal_times_local('FREQ=DAILY', '2024-01-01')$$), '22023 the recurrence has no end'),
    (18, pg_temp.error_of($$SELECT cal_series('2024-01-01', '2024-02-01', '0 days')$$), '22023 series: invalid period; expected parts of one sign and a valid duration'),
    (19, pg_temp.error_of($$SELECT cal_series('2024-01-01', '2024-02-01', '1 hour')$$), '22023 series: a date has no time of day, so a period of it has no duration'),
    (20, pg_temp.error_of($$SELECT cal_add_period('2024-01-01', '1 month -1 day')$$), '22023 add period: invalid period; expected parts of one sign and a valid duration'),
    (21, pg_temp.error_of($$SELECT cal_duration_text('1 day')$$), '22023 expected an interval of hours, minutes and seconds'),
    (22, pg_temp.error_of($$SELECT cal_parse_duration('P1D')$$), '22007 invalid duration: "P1D" / unexpected byte at character 2'),
    (23, pg_temp.error_of($$SELECT cal_parse_period('P999999999Y')$$), '22015 interval out of range'),
    (24, pg_temp.error_of($$SELECT cal_round_local('2024-01-01', '7 hours')$$), '22023 round: invalid rounding unit; expected a positive duration, which divides 24 h for times of day'),
    (30, pg_temp.error_of($$SELECT cal_days('FREQ=HOURLY;COUNT=3', '2024-10-27')$$), '22023 invalid recurrence: "FREQ=HOURLY;COUNT=3" / invalid frequency; expected 1 (daily) to 4 (yearly)'),
    (31, (SELECT string_agg(t::text, ' ') FROM cal_times_zoned('FREQ=HOURLY;COUNT=3', '2024-10-27 01:30', 'Europe/Berlin') AS t), '2024-10-26 23:30:00+00 2024-10-27 00:30:00+00 2024-10-27 02:30:00+00'),
    (32, pg_temp.error_of($$SELECT cal_easter(1000000)$$), '22008 Easter: year is out of range'),
    (27, (SELECT string_agg(d::text, ' ') FROM cal_days('FREQ=DAILY;UNTIL=20240105', '2024-01-01', '[2024-01-02,2024-01-04]') AS d), '2024-01-02 2024-01-03 2024-01-04'),
    (28, (SELECT string_agg(t::text, ' ') FROM cal_times_local('FREQ=DAILY', '2024-01-01 09:00', '(2024-01-02 09:00,2024-01-04 09:00]') AS t), '2024-01-03 09:00:00 2024-01-04 09:00:00'),
    (29, (SELECT string_agg(t::text, ' ') FROM cal_times_zoned('FREQ=DAILY', '2024-01-01 09:00', 'UTC', '[2024-01-02 09:00Z,2024-01-04 09:00Z)') AS t), '2024-01-02 09:00:00+00 2024-01-03 09:00:00+00'),
    (25, cal_add_months(NULL, 1)::text, NULL), (26, cal_workdays('2024-01-01', '2024-02-01', NULL)::text, NULL)
) AS row(id, result, expected) WHERE result IS DISTINCT FROM expected;

-- the names of a language
SELECT * FROM (VALUES
    (1, cal_format('2024-02-29', '%A, %-d %B %Y', 'fr'), 'jeudi, 29 février 2024'), (2, cal_format_local('2024-02-29 19:30', '%p%-I:%M', 'ja'), '午後7:30'),
    (3, cal_parse('jeudi, 29 février 2024', '%A, %-d %B %Y', 'fr')::text, '2024-02-29'),
    (4, cal_parse_local('29. März 2024, 9:05', '%-d. %B %Y, %-H:%M', 'de')::text, '2024-03-29 09:05:00'),
    (5, cal_parse_instant('1 января 1970 00:00 +0100', '%-d %B %Y %R %z', 'ru')::text, '1969-12-31 23:00:00+00'),
    (6, pg_temp.error_of($$SELECT cal_parse('29 fevrier 2024', '%-d %B %Y', 'fr')$$), '22007 invalid date: "29 fevrier 2024" / unexpected byte at character 5'),
    (7, pg_temp.error_of($$SELECT cal_parse('30 février 2024', '%-d %B %Y', 'fr')$$), '22008 invalid date: "30 février 2024" / day is out of range'),
    (8, pg_temp.error_of($$SELECT cal_parse('Pazar 2024-03-03', '%Atesi %F', 'tr')$$), '22023 format: ambiguous names; expected names that end before what comes after them'),
    (11, pg_temp.error_of($$SELECT cal_parse('2024 292月', '%Y %-d%B', 'ja')$$), '22023 format: ambiguous number; expected another byte after it'),
    (9, pg_temp.error_of($$SELECT cal_format('2024-02-29', '%B', 'fra')$$), '22023 language: unknown language; expected ar, de, en, es, fr, it, ja, pl, pt, ru, tr or zh'), (10, cal_format('2024-02-29', '%B', NULL), NULL)
) AS row(id, result, expected) WHERE result IS DISTINCT FROM expected;

-- why a string isn't valid: the words of the error, NULL for a valid one, and an error for a format that can't say
SELECT * FROM (VALUES
    (1, cal_error('2024-02-29'), NULL), (2, cal_error(NULL), NULL), (3, cal_error('2023-02-29'), 'day 29 is out of range 1 to 28 (February 2023)'),
    (4, cal_error('2024-13-01'), 'month 13 is out of range 1 to 12'), (5, cal_error('2024-02-2x'), 'unexpected byte at character 10'),
    (6, cal_error('2024–02-29'), 'unexpected byte at character 5'), (7, cal_error(''), 'unexpected end at character 1'),
    (8, cal_error('29.02.2024', '%d.%m.%Y'), NULL), (9, cal_error('31.04.2024', '%d.%m.%Y'), 'day 31 is out of range 1 to 30 (April 2024)'),
    (10, cal_error('Wed 2024-02-29', '%a %Y-%m-%d'), 'weekday contradicts the other components'),
    (11, cal_error_local('2024-02-29 9:05'), NULL), (12, cal_error_local('2024-02-29 24:00'), 'hour 24 is out of range 0 to 23'),
    (13, cal_error_local('9:65 29.02.2024', '%-H:%M %d.%m.%Y'), 'minute 65 is out of range 0 to 59'),
    (14, cal_error_instant('2024-02-29T23:59:59Z'), NULL), (15, cal_error_instant('2024-02-29T23:59:59'), 'unexpected end at character 20'),
    (16, cal_error_instant('2024-02-29 9:05 +26:00', '%Y-%m-%d %-H:%M %:z'), 'offset hour 26 is out of range -25 to 25'),
    (17, pg_temp.error_of($$SELECT cal_error('05', '%m')$$), '22023 format: the texts of a format don''t determine such a value'),
    (18, pg_temp.error_of($$SELECT cal_error('05', '%Q')$$), '22023 invalid format: "%Q" / unknown item at character 1'),
    (19, (SELECT string_agg(t || ': ' || cal_error(t), '; ' ORDER BY t) FROM unnest(ARRAY['2024-02-29', NULL, '2023-02-29', '29.2.']) AS t WHERE NOT cal_valid(t)),
        '2023-02-29: day 29 is out of range 1 to 28 (February 2023); 29.2.: unexpected byte at character 3')
) AS row(id, result, expected) WHERE result IS DISTINCT FROM expected;

-- other dates and exceptions: in any order, twice, in both, before the start, outside the range, in a gap, NULL, infinity, too many
SELECT * FROM (VALUES
    (1, (SELECT string_agg(d::text, ' ') FROM cal_days('FREQ=DAILY;COUNT=4', '2024-01-01', rdates => '{2024-02-01,2023-12-25,2024-01-03,2023-12-25,2024-01-09}', exdates => '{2024-01-09,2024-01-02}') AS d), '2023-12-25 2024-01-01 2024-01-03 2024-01-04 2024-02-01'),
    (2, (SELECT string_agg(d::text, ' ') FROM cal_days('FREQ=DAILY', '2024-01-01', '[2024-01-02,2024-01-04]', '{2024-01-04,2024-01-02,2024-01-05,2024-01-01}', '{2024-01-03}') AS d), '2024-01-02 2024-01-04'),
    (3, (SELECT string_agg(t::text, ' ') FROM cal_times_local('FREQ=DAILY;BYHOUR=9,17;COUNT=4', '2024-01-01 09:00', rdates => '{2023-12-25 08:00}', exdates => '{2024-01-01 17:00}') AS t), '2023-12-25 08:00:00 2024-01-01 09:00:00 2024-01-02 09:00:00 2024-01-02 17:00:00'),
    (4, (SELECT string_agg(t::text, ' ') FROM cal_times_zoned('FREQ=DAILY;COUNT=3', '2024-03-30 02:30', 'Europe/Berlin', rdates => '{2024-03-31 04:30,2024-03-31 03:30}') AS t), '2024-03-30 01:30:00+00 2024-03-31 01:30:00+00 2024-03-31 02:30:00+00 2024-04-01 00:30:00+00'),
    (5, (SELECT string_agg(t::text, ' ') FROM cal_times_zoned('FREQ=DAILY;COUNT=3', '2024-03-30 02:30', 'Europe/Berlin', exdates => '{2024-03-31 02:30}') AS t), '2024-03-30 01:30:00+00 2024-04-01 00:30:00+00'),
    (6, (SELECT string_agg(t::text, ' ') FROM cal_times_zoned('FREQ=DAILY;COUNT=3', '2024-03-30 02:30', 'Europe/Berlin', exdates => '{2024-03-31 03:30}') AS t), '2024-03-30 01:30:00+00 2024-03-31 01:30:00+00 2024-04-01 00:30:00+00'),
    (7, (SELECT count(*) FROM cal_days('FREQ=DAILY;COUNT=4', '2024-01-01', 'empty', '{2024-01-01}'))::text, '0'),
    (8, (SELECT count(*) FROM cal_days('FREQ=DAILY;COUNT=4', '2024-01-01', rdates => NULL))::text, '0'),
    (9, (SELECT count(*) FROM cal_days('FREQ=DAILY;COUNT=1030', '2024-01-01', exdates => (SELECT array_agg('2024-01-01'::date + n) FROM generate_series(1, 1024) AS n)))::text, '6'),
    (10, (SELECT count(*) FROM cal_times_local('FREQ=DAILY;COUNT=1', '2024-01-01', rdates => '{2024-01-01 00:00:00.000001}'))::text, '2'),
    (11, pg_temp.error_of($$SELECT cal_days('FREQ=DAILY;COUNT=4', '2024-01-01', rdates => '{NULL}')$$), '22004 rdates and exdates must not be null'),
    (12, pg_temp.error_of($$SELECT cal_days('FREQ=DAILY;COUNT=4', '2024-01-01', exdates => '{infinity}')$$), '22008 date must be finite'),
    (13, pg_temp.error_of($$SELECT cal_times_zoned('FREQ=DAILY;COUNT=4', '2024-01-01', 'UTC', rdates => '{-infinity}')$$), '22008 timestamp must be finite'),
    (14, pg_temp.error_of($$SELECT cal_days('FREQ=DAILY;COUNT=4', '2024-01-01', exdates => (SELECT array_agg('2024-01-01'::date + n) FROM generate_series(1, 1025) AS n))$$), '22023 recurrence: too many dates or exceptions of a rule; expected at most 1024'),
    (15, pg_temp.error_of($$SELECT cal_days('FREQ=DAILY', '2024-01-01', rdates => '{2024-01-01}')$$), '22023 the recurrence has no end')
) AS row(id, result, expected) WHERE result IS DISTINCT FROM expected;

-- lines of calendar files: sets in one form, and folds, which are bytes
SELECT * FROM (VALUES
    (1, cal_recurrence_lines('dtstart:20240101'), E'DTSTART;VALUE=DATE:20240101\r\nRRULE:FREQ=DAILY;COUNT=1\r\n'),
    (2, cal_recurrence_lines(E'EXDATE:19960402T010000Z,19960403T010000Z\nSUMMARY:x\nrrule:byday=-1su;freq=yearly\nDTSTART:19960401T010000Z'),
        E'DTSTART:19960401T010000Z\r\nRRULE:FREQ=YEARLY;BYDAY=-1SU\r\nEXDATE:19960402T010000Z,19960403T010000Z\r\n'),
    (3, length(cal_recurrence_lines('DTSTART;TZID=' || repeat('z', 300) || E':20240101T090000\nRDATE:20240102,20240103T090000' || repeat(',20240102,20240103T090000', 3)))::text, '1781'),
    (4, pg_temp.error_of($$SELECT cal_recurrence_lines('UID:1')$$), '22023 invalid recurrence: "UID:1" / missing start at character 6'),
    (5, pg_temp.error_of($$SELECT cal_recurrence_lines('DTSTART:20230229')$$), '22023 invalid recurrence: "DTSTART:20230229" / invalid value at character 1'),
    (6, cal_recurrence_lines(NULL), NULL), (7, cal_fold(NULL)::text, NULL), (8, cal_fold('')::text, '\x'),
    (9, encode(cal_fold(repeat('x', 75)), 'escape'), repeat('x', 75)), (10, encode(cal_fold(repeat('x', 76)), 'escape'), repeat('x', 75) || E'\r\n x'),
    (11, encode(cal_fold(repeat('x', 74) || 'é'), 'hex'), encode(convert_to(repeat('x', 74), 'UTF8'), 'hex') || 'c30d0a20a9')
) AS row(id, result, expected) WHERE result IS DISTINCT FROM expected;
-- zones: no name leaves the folder
SELECT left(name, 32) AS name, regexp_replace(pg_temp.error_of(format('SELECT cal_local(now(), %L)', name)), 'time zone ".*"', '..') AS error
FROM unnest(ARRAY['../etc/passwd', '/etc/passwd', 'Europe/../../../../etc/passwd', 'Europe//Berlin', 'Europe', 'Europe/', 'tzdata.zi', './UTC', '',
    'europe/berlin', 'No/Such', repeat('A', 300)]) WITH ORDINALITY AS names(name, at) ORDER BY at;

-- holidays in any order, twice, in a matrix, none, NULL, infinity, of calendars and rules, more than 1024, compressed, out of line, and in PL/pgSQL
SELECT * FROM (VALUES
    (1, cal_workdays('2024-12-20', '2025-01-03', '{2025-01-01,2024-12-25,2024-12-26,2024-12-25}')::text, '7'),
    (2, cal_workdays('2024-12-20', '2025-01-03', '{{2025-01-01,2024-12-25},{2024-12-26,2024-12-25}}')::text, '7'),
    (3, cal_workdays('2024-12-20', '2025-01-03', '{}')::text, '10'), (4, cal_workdays('2024-12-20', '2025-01-03', weekmask => 127)::text, '14'),
    (5, pg_temp.error_of($$SELECT cal_workdays('2024-12-20', '2025-01-03', '{2025-01-01,NULL}')$$), '22004 holidays must not be null'),
    (6, pg_temp.error_of($$SELECT cal_workdays('2024-12-20', '2025-01-03', '{infinity}')$$), '22008 date must be finite'),
    (7, pg_temp.error_of($$SELECT cal_workdays('2024-12-20', '2025-01-03', weekmask => 128)$$), '22023 working days: invalid weekmask; expected 0 to 127, with a bit for each weekday'),
    (8, (SELECT cal_workdays('2000-01-01', '2060-01-01', array_agg('2000-01-01'::date + 2 * n ORDER BY -n), 127) FROM generate_series(0, 9999) AS n)::text, '11915'),
    (9, cal_add_workdays('2024-12-24', 1, '{2024-12-25,2024-12-26}')::text, '2024-12-27'),
    (10, cal_holidays('target', '2024-01-01', '2024-12-31')::text, '{2024-01-01,2024-03-29,2024-04-01,2024-05-01,2024-12-25,2024-12-26}'),
    (11, cal_holidays(E'easter-2\n12-25 SA-1 SU+1 # Christmas', '2021-01-01', '2022-12-31')::text, '{2021-04-02,2021-12-24,2022-04-15,2022-12-26}'),
    (12, cal_holidays('nyse', '2024-01-02', '2024-01-01')::text, '{}'), (13, cal_add_workdays('2024-03-28', 1, cal_holidays('target'))::text, '2024-04-02'),
    (14, pg_temp.error_of($$SELECT cal_holidays('12-25 13')$$), '22023 invalid holidays: "12-25 13" / invalid rule of a holiday at character 7'),
    (15, pg_temp.error_of($$SELECT cal_holidays('us-federal', '1971-01-01', '2199-12-31')$$), '22023 invalid holidays: "us-federal" / too many holidays; expected at most 1024'),
    (16, pg_temp.error_of($$SELECT cal_holidays('nyse', last => 'infinity')$$), '22008 date must be finite'), (17, cal_holidays(NULL)::text, NULL)
) AS row(id, result, expected) WHERE result IS DISTINCT FROM expected;

CREATE TEMP TABLE calendar (name text, holidays date[]);
INSERT INTO calendar SELECT 'compressed', array_agg('2000-01-01'::date + 7 * (n / 10)) FROM generate_series(1, 1000) AS n;
INSERT INTO calendar SELECT 'random', array_agg(DISTINCT '2000-01-01'::date + hashint4(n) % 20000) FROM generate_series(1, 1000) AS n;
ALTER TABLE calendar ALTER holidays SET STORAGE EXTERNAL;
INSERT INTO calendar SELECT 'external', array_agg('2000-01-01'::date + 7 * n) FROM generate_series(1, 1000) AS n;
SELECT name, pg_column_size(holidays) < 4 * cardinality(holidays) AS compressed,
    count(*) FILTER (WHERE cal_workdays('2001-05-05', '2001-05-05'::date + n, holidays, 127) <> n - (SELECT count(DISTINCT h) FROM unnest(holidays) AS h WHERE h >= '2001-05-05' AND h < '2001-05-05'::date + n)) AS differences
FROM calendar, generate_series(0, 300, 7) AS n GROUP BY name, holidays ORDER BY name;
-- calendars in turn, more than a call keeps
SELECT count(*) AS differences FROM generate_series(0, 199) AS n,
    LATERAL (SELECT array_agg('2024-01-01'::date + (n % 12) + d) AS holidays FROM generate_series(0, n % 12) AS d) AS made
    WHERE cal_workdays('2024-01-01', '2024-03-01', holidays, 127) <> 60 - cardinality(holidays);
-- calendars of one size, and weekmasks, in turn
SELECT count(*) AS differences FROM generate_series(0, 99) AS n
    WHERE cal_workdays('2024-01-01', '2024-03-01', CASE n % 2 WHEN 0 THEN '{2024-01-02}'::date[] ELSE '{2024-06-01}' END, 127) <> 59 + n % 2
       OR cal_workdays('2024-01-01', '2024-01-08', '{}', CASE n % 2 WHEN 0 THEN 31 ELSE 127 END) <> 5 + 2 * (n % 2);
DO $$
DECLARE one date[] := '{2024-01-01}'; other date[]; total int := 0;
BEGIN
    FOR n IN 1..50 LOOP
        other := one || ('2024-01-01'::date + n);
        total := total + cal_workdays('2024-01-01', '2024-04-01', other, 127) - 91 + 2;
        one[1] := '2024-02-01'::date + n;
        total := total + cal_workdays('2024-01-01', '2024-04-01', one, 127) - 91 + 1;
    END LOOP;
    ASSERT total = 0;
END $$;

-- what the page says about the built-in functions
SELECT '2024-01-03'::date + age('2024-03-01', '2024-01-03') AS age, to_date('2024-02-29x', 'YYYY-MM-DD') AS to_date,
    (SELECT max(d)::date FROM generate_series('2024-01-31', '2024-03-31', interval '1 month') AS d) AS series,
    timestamp '2024-03-31 02:30' AT TIME ZONE 'Europe/Berlin' AS gap, timestamp '2024-10-27 02:30' AT TIME ZONE 'Europe/Berlin' AS fold,
    timestamp '2024-07-01 00:00' AT TIME ZONE 'CET' AS cet, cal_instant('2024-07-01 00:00', 'CET') AS summer;
SET timezone = 'Europe/Berlin';
SELECT max(t) AS late FROM generate_series('2024-03-30 02:30+01'::timestamptz, '2024-04-02', interval '1 day') AS t;
SELECT max(t) AS in_time FROM cal_series_zoned('2024-03-30 02:30+01', '2024-04-02', interval '1 day', 'Europe/Berlin') AS t;
