-- Random dates, strings and working days against the built-in functions that are right, and against a
-- count by hand. Each query prints the number of differences. ROWS says how many rows.
\pset format unaligned
\getenv rows ROWS
SET timezone = 'UTC';
SET datestyle = 'ISO';
SET intervalstyle = 'postgres';
SELECT setseed(0.25);

CREATE TEMP TABLE pairs AS
    SELECT '1600-01-01'::date + (random() * 250000)::int AS a, '1600-01-01'::date + (random() * 250000)::int AS b,
           (random() * 4000)::int - 2000 AS n, 1 + (random() * 6)::int AS weekday
    FROM generate_series(1, :rows);

-- months and years
SELECT count(*) FROM pairs WHERE cal_add_months(a, n) IS DISTINCT FROM (a + n * interval '1 month')::date;
SELECT count(*) FROM pairs WHERE cal_add_years(a, n / 12) IS DISTINCT FROM (a + n / 12 * interval '1 year')::date;
SELECT count(*) FROM pairs WHERE cal_add_period(a, make_interval(months => abs(n), days => abs(n))) IS DISTINCT FROM (a + make_interval(months => abs(n), days => abs(n)))::date;
SELECT count(*) FROM pairs WHERE a + cal_period(a, b) IS DISTINCT FROM b;
SELECT count(*) FROM pairs WHERE a + cal_period(a, b, 'month') IS DISTINCT FROM b OR a + cal_period(a, b, 'week') IS DISTINCT FROM b OR a + cal_period(a, b, 'day') IS DISTINCT FROM b;
-- A month more would pass the date.
SELECT count(*) FROM pairs WHERE a <= b AND ((a + cal_months_between(a, b) * interval '1 month')::date <= b
    AND (a + (cal_months_between(a, b) + 1) * interval '1 month')::date > b) IS NOT TRUE;
SELECT count(*) FROM pairs WHERE a > b AND ((a + cal_months_between(a, b) * interval '1 month')::date >= b
    AND (a + (cal_months_between(a, b) - 1) * interval '1 month')::date < b) IS NOT TRUE;
SELECT count(*) FROM pairs WHERE a <= b AND cal_years_between(a, b) IS DISTINCT FROM cal_months_between(a, b) / 12;
-- age() has the same years, with 1 March for a birthday of 29 February.
SELECT count(*) FROM pairs WHERE a <= b AND cal_age(a, b) IS DISTINCT FROM extract(year FROM age(b, a));
SELECT count(*) FROM pairs WHERE a <= b AND cal_age(a, b, 'february') IS DISTINCT FROM cal_years_between(a, b);

-- weekdays, weeks and quarters
SELECT count(*) FROM pairs WHERE cal_weekday(a) IS DISTINCT FROM extract(isodow FROM a) OR cal_iso_week(a) IS DISTINCT FROM extract(week FROM a)
    OR cal_iso_year(a) IS DISTINCT FROM extract(isoyear FROM a) OR cal_week_text(a) IS DISTINCT FROM to_char(a, 'IYYY-"W"IW-ID') OR cal_quarter(a) IS DISTINCT FROM extract(quarter FROM a);
SELECT count(*) FROM pairs WHERE cal_from_iso_week(cal_iso_year(a), cal_iso_week(a), cal_weekday(a)) IS DISTINCT FROM a;
SELECT count(*) FROM pairs CROSS JOIN unnest(ARRAY['day', 'week', 'month', 'quarter', 'year']) AS unit
    WHERE cal_start_of(a, unit) IS DISTINCT FROM date_trunc(unit, a)::date
       OR cal_end_of(a, unit) IS DISTINCT FROM (date_trunc(unit, a) + CASE unit WHEN 'quarter' THEN interval '3 months' ELSE ('1 ' || unit)::interval END)::date - 1;
-- Of seven days in a row, one has the weekday.
SELECT count(*) FROM pairs, LATERAL (SELECT cal_next_weekday(a, weekday) AS next, cal_previous_weekday(a, weekday) AS previous) AS days
    WHERE next NOT BETWEEN a + 1 AND a + 7 OR extract(isodow FROM next) IS DISTINCT FROM weekday OR previous NOT BETWEEN a - 7 AND a - 1 OR extract(isodow FROM previous) IS DISTINCT FROM weekday;
SELECT count(*) FROM pairs WHERE cal_weekday_on_or_after(a, weekday) IS DISTINCT FROM cal_next_weekday(a - 1, weekday)
    OR cal_weekday_on_or_before(a, weekday) IS DISTINCT FROM cal_previous_weekday(a + 1, weekday);
WITH month AS (SELECT DISTINCT date_trunc('month', a)::date AS first FROM pairs),
     days AS (SELECT first, d::date AS day, row_number() OVER (PARTITION BY first, extract(isodow FROM d) ORDER BY d) AS n,
                     row_number() OVER (PARTITION BY first, extract(isodow FROM d) ORDER BY d DESC) AS back
              FROM month, generate_series(first, first + interval '1 month - 1 day', '1 day') AS d)
SELECT count(*) FROM days WHERE cal_nth_weekday(extract(year FROM day)::int, extract(month FROM day)::int, extract(isodow FROM day)::int, n::int) IS DISTINCT FROM day
    OR (back = 1 AND cal_nth_weekday(extract(year FROM day)::int, extract(month FROM day)::int, extract(isodow FROM day)::int, -1) IS DISTINCT FROM day);

-- Easter of each year, by the formulas of Meeus: the western one, and the orthodox one as a Julian date
SELECT count(*) FROM generate_series(1, 9999) AS y,
    LATERAL (SELECT y % 19 AS a, y / 100 AS b, y % 100 AS c) AS one,
    LATERAL (SELECT (19 * a + b - b / 4 - (b - (b + 8) / 25 + 1) / 3 + 15) % 30 AS h) AS two,
    LATERAL (SELECT (32 + 2 * (b % 4) + 2 * (c / 4) - h - c % 4) % 7 AS l) AS three,
    LATERAL (SELECT h + l - 7 * ((a + 11 * h + 22 * l) / 451) + 114 AS western) AS four,
    LATERAL (SELECT (19 * a + 15) % 30 AS d) AS five,
    LATERAL (SELECT d + (2 * (y % 4) + 4 * (y % 7) - d + 34) % 7 + 114 AS orthodox) AS six
    WHERE cal_easter(y) IS DISTINCT FROM make_date(y, western / 31, western % 31 + 1)
       OR cal_julian_easter(y) IS DISTINCT FROM make_date(y, orthodox / 31, 1) + orthodox % 31 + y / 100 - y / 400 - 2;

-- texts: no text that to_date prints is rejected, and no other day comes back
SELECT count(*) FROM pairs WHERE cal_parse(to_char(a, 'YYYY-MM-DD')) IS DISTINCT FROM a OR cal_format(a, '%Y-%m-%d') IS DISTINCT FROM to_char(a, 'YYYY-MM-DD')
    OR cal_format(a, '%d/%m/%Y %j %a %B') IS DISTINCT FROM to_char(a, 'DD/MM/YYYY DDD Dy FMMonth') OR cal_parse(to_char(a, 'DD.MM.YYYY'), '%d.%m.%Y') IS DISTINCT FROM a;
SELECT count(*) FROM (SELECT (2000 + random() * 8)::int AS y, (random() * 14)::int AS m, (random() * 33)::int AS d FROM pairs) AS parts,
    LATERAL (SELECT to_char(y, 'FM0000') || '-' || to_char(m, 'FM00') || '-' || to_char(d, 'FM00') AS t) AS texts
    WHERE cal_valid(t) IS DISTINCT FROM (m BETWEEN 1 AND 12 AND d BETWEEN 1 AND 31 AND
        CASE WHEN m BETWEEN 1 AND 12 THEN d <= extract(day FROM make_date(y, m, 1) + interval '1 month - 1 day') ELSE false END)
       OR cal_valid(t) IS DISTINCT FROM (cal_error(t) IS NULL);
SELECT count(*) FROM (SELECT (random() * 26)::int AS h, (random() * 63)::int AS m, (random() * 63)::int AS s FROM pairs) AS parts,
    LATERAL (SELECT to_char(h, 'FM00') || ':' || to_char(m, 'FM00') || ':' || to_char(s, 'FM00') AS t, h < 24 AND m < 60 AND s < 60 AS is_valid) AS texts
    WHERE cal_valid_local('2024-02-29 ' || t) IS DISTINCT FROM is_valid OR cal_valid_instant('2024-02-29T' || t || 'Z') IS DISTINCT FROM is_valid
       OR (cal_error_local('2024-02-29 ' || t) IS NULL) IS DISTINCT FROM is_valid OR (cal_error_instant('2024-02-29T' || t || 'Z') IS NULL) IS DISTINCT FROM is_valid;
SELECT count(*) FROM (SELECT '1900-01-01'::timestamp + random() * interval '150 years' AS t FROM pairs) AS times
    WHERE cal_parse_local(t::text) IS DISTINCT FROM t OR cal_parse_instant(to_char(t, 'YYYY-MM-DD"T"HH24:MI:SS.US"Z"')) IS DISTINCT FROM t AT TIME ZONE 'UTC'
       OR cal_format_local(t, '%Y-%m-%d %H:%M:%S') IS DISTINCT FROM to_char(t, 'YYYY-MM-DD HH24:MI:SS')
       OR cal_round_local(t, '15 minutes', 'floor') IS DISTINCT FROM date_bin('15 minutes', t, '1900-01-01')
       OR cal_round_local(t, '15 minutes', 'ceil') IS DISTINCT FROM date_bin('15 minutes', t + interval '00:14:59.999999', '1900-01-01')
       OR cal_round_local(t, '15 minutes') IS DISTINCT FROM date_bin('15 minutes', t + interval '00:07:30', '1900-01-01');
SELECT count(*) FROM (SELECT make_interval(months => (random() * 999)::int, days => (random() * 99)::int, secs => (random() * 99999999)::int / 1000.0) AS p FROM pairs) AS periods
    WHERE cal_parse_period(cal_period_text(p)) IS DISTINCT FROM p OR cal_period_text(p)::interval IS DISTINCT FROM p;
SELECT count(*) FROM pairs WHERE cal_recurrence_text('count=' || abs(n) + 1 || ';freq=daily;interval=' || weekday + 1)
    IS DISTINCT FROM 'FREQ=DAILY;INTERVAL=' || weekday + 1 || ';COUNT=' || abs(n) + 1;

-- day counts: actual/360 is days, and 30/360 as by its formula
SELECT count(*) FROM pairs WHERE cal_day_count(a, b, 'act/360') IS DISTINCT FROM (b - a) / 360.0 OR cal_day_count(a, b, 'act/365') IS DISTINCT FROM (b - a) / 365.0;
SELECT count(*) FROM pairs,
    LATERAL (SELECT extract(day FROM a) AS d1, extract(day FROM b) AS d2, 360 * (extract(year FROM b) - extract(year FROM a))
                    + 30 * (extract(month FROM b) - extract(month FROM a)) AS months) AS parts
    WHERE a <= b AND (cal_day_count(a, b, '30e/360') IS DISTINCT FROM (months + least(d2, 30) - least(d1, 30)) / 360.0
        OR cal_day_count(a, b, '30/360') IS DISTINCT FROM (months + CASE WHEN d1 >= 30 THEN least(d2, 30) ELSE d2 END - least(d1, 30)) / 360.0);
-- Each day is one of 365 or 366 in its year.
CREATE TEMP TABLE part AS
    SELECT d::date AS day, sum(CASE WHEN extract(day FROM make_date(extract(year FROM d)::int, 3, 1) - 1) = 29 THEN 365 ELSE 366 END) OVER (ORDER BY d ROWS UNBOUNDED PRECEDING) AS upto
    FROM generate_series('1599-12-31'::date, '2285-01-01', '1 day') AS d;
SELECT count(*) FROM pairs JOIN part AS one ON one.day = a - 1 JOIN part AS other ON other.day = b - 1
    WHERE a < b AND cal_day_count(a, b, 'act/act') IS DISTINCT FROM (other.upto - one.upto)::numeric / (365 * 366);

-- working days, counted one day at a time
CREATE TEMP TABLE holiday AS SELECT DISTINCT '2000-01-01'::date + (random() * 14000)::int AS day FROM generate_series(1, 400);
CREATE TEMP TABLE day AS
    SELECT d::date AS day, work, sum(work::int) OVER (ORDER BY d) AS upto, sum(work::int) OVER (ORDER BY d) - work::int AS before
    FROM generate_series('2000-01-01'::date, '2040-01-01', '1 day') AS d,
    LATERAL (SELECT extract(isodow FROM d) < 6 AND d::date NOT IN (SELECT day FROM holiday) AS work) AS works;
CREATE INDEX ON day (day);
CREATE INDEX ON day (upto) WHERE work;
ANALYZE day;
CREATE TEMP TABLE work AS
    SELECT '2001-01-01'::date + (random() * 7000)::int AS a, '2001-01-01'::date + (random() * 7000)::int AS b, (random() * 2000)::int AS n FROM pairs;
SELECT array_agg(day) AS holidays FROM holiday \gset
SELECT count(*) FROM work JOIN day AS one ON one.day = a JOIN day AS other ON other.day = b
    WHERE cal_workdays(a, b, :'holidays') IS DISTINCT FROM other.before - one.before;
SELECT count(*) FROM work JOIN day ON day.day = a WHERE cal_is_workday(a, :'holidays') IS DISTINCT FROM day.work;
SELECT count(*) FROM work JOIN day AS one ON one.day = a JOIN day AS other ON other.work AND other.upto = one.upto + n
    WHERE n > 0 AND cal_add_workdays(a, n, :'holidays') IS DISTINCT FROM other.day;
SELECT count(*) FROM work JOIN day AS one ON one.day = a JOIN day AS other ON other.work AND other.upto = one.before
    WHERE cal_add_workdays(a, -1, :'holidays') IS DISTINCT FROM other.day;
SELECT count(*) FROM work JOIN day AS one ON one.day = a JOIN day AS next ON next.work AND next.upto = one.before + 1
        JOIN day AS last ON last.work AND last.upto = one.upto,
    LATERAL (SELECT extract(month FROM next.day) = extract(month FROM a) AS is_next, extract(month FROM last.day) = extract(month FROM a) AS is_last) AS months
    WHERE cal_adjust(a, 'unadjusted', :'holidays') IS DISTINCT FROM a OR cal_adjust(a, 'following', :'holidays') IS DISTINCT FROM next.day OR cal_adjust(a, 'preceding', :'holidays') IS DISTINCT FROM last.day
       OR cal_adjust(a, 'modified following', :'holidays') IS DISTINCT FROM CASE WHEN is_next THEN next.day ELSE last.day END
       OR cal_adjust(a, 'modified preceding', :'holidays') IS DISTINCT FROM CASE WHEN is_last THEN last.day ELSE next.day END;
