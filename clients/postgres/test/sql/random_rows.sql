-- Random series and recurrences against generate_series, and against days selected by the built-in
-- functions. Each query prints the number of differences. ROWS says how many rows each function returns.
\pset format unaligned
\getenv rows ROWS
SET timezone = 'UTC';
SET datestyle = 'ISO';
SET intervalstyle = 'postgres';
SELECT setseed(0.5);

CREATE TEMP TABLE start AS
    SELECT '1600-01-01'::date + (random() * 250000)::int AS a, (random() * 4000)::int - 2000 AS n FROM generate_series(1, :rows / 25 + 1);

-- series, where generate_series doesn't drift
SELECT count(*) FROM (SELECT a, n FROM start LIMIT :rows / 1000 + 1) AS starts,
    LATERAL (SELECT array_agg(d) AS days FROM cal_series(a, a + 3 * abs(n), '3 days') AS d) AS one,
    LATERAL (SELECT array_agg(d::date) AS days FROM generate_series(a, a + 3 * abs(n), '3 days') AS d) AS other
    WHERE one.days IS DISTINCT FROM other.days;
SELECT count(*) FROM (SELECT a FROM start LIMIT :rows / 33 + 1) AS starts,
    LATERAL (SELECT array_agg(d) AS days FROM cal_series(a, a + 1000, '1 month') AS d) AS one,
    LATERAL (SELECT array_agg((a + n * interval '1 month')::date ORDER BY n) AS days FROM generate_series(0, 40) AS n WHERE a + n * interval '1 month' <= a + 1000) AS other
    WHERE one.days IS DISTINCT FROM other.days;
SELECT count(*) FROM (SELECT a::timestamp AS a, n FROM start LIMIT :rows / 1000 + 1) AS starts,
    LATERAL (SELECT array_agg(t) AS times FROM cal_series_local(a, a + abs(n) * interval '7 hours', '7 hours') AS t) AS one,
    LATERAL (SELECT array_agg(t) AS times FROM generate_series(a, a + abs(n) * interval '7 hours', '7 hours') AS t) AS other
    WHERE one.times IS DISTINCT FROM other.times;

-- recurrences: days that the built-in functions select, with COUNT and bounds
SELECT count(*) FROM (SELECT a FROM start LIMIT :rows / 77 + 1) AS starts,
    LATERAL (SELECT array_agg(d) AS days FROM cal_days('FREQ=WEEKLY;BYDAY=TU,SA;COUNT=120', a, daterange(a + 30, a + 300)) AS d) AS one,
    LATERAL (SELECT array_agg(d::date ORDER BY d) AS days FROM generate_series(a + 30, a + 299, '1 day') AS d WHERE extract(isodow FROM d) IN (2, 6)) AS other
    WHERE one.days IS DISTINCT FROM other.days;
CREATE TEMP TABLE last_workday AS SELECT max(d)::date AS day FROM generate_series('1599-12-01'::date, '2290-12-31', '1 day') AS d
    WHERE extract(isodow FROM d) < 6 GROUP BY date_trunc('month', d);
CREATE INDEX ON last_workday (day);
ANALYZE last_workday;
SELECT count(*) FROM (SELECT a FROM start LIMIT :rows / 32 + 1) AS starts,
    LATERAL (SELECT array_agg(d) AS days FROM cal_days('FREQ=MONTHLY;BYDAY=MO,TU,WE,TH,FR;BYSETPOS=-1', a, daterange(NULL, a + 1000)) AS d) AS one,
    LATERAL (SELECT array_agg(day ORDER BY day) AS days FROM last_workday WHERE day BETWEEN a AND a + 999) AS other
    WHERE one.days IS DISTINCT FROM other.days;
SELECT count(*) FROM (SELECT a FROM start LIMIT :rows / 1800 + 1) AS starts, unnest(ARRAY['Europe/Berlin', 'America/New_York', 'Australia/Lord_Howe']) AS zone,
    LATERAL (SELECT array_agg(t) AS times FROM cal_times_zoned('FREQ=DAILY;BYHOUR=9,17;COUNT=800', a + time '09:00', zone,
        tstzrange((a + 100)::timestamp AT TIME ZONE zone, (a + 400)::timestamp AT TIME ZONE zone)) AS t) AS one,
    LATERAL (SELECT array_agg((a + d + h) AT TIME ZONE zone ORDER BY d, h) AS times FROM generate_series(100, 399) AS d, unnest(ARRAY[time '09:00', time '17:00']) AS h) AS other
    WHERE one.times IS DISTINCT FROM other.times;
-- other dates and exceptions, of rules that have the next 280 days, or 100
SELECT count(*) FROM (SELECT a, n FROM start LIMIT :rows / 90 + 1) AS starts,
    LATERAL (SELECT array_agg(a + k * abs(n) % 310 - 20) AS more, array_agg(a + k * abs(n + 7) % 310 - 20) AS less FROM generate_series(1, 40) AS k) AS lists,
    LATERAL (SELECT array_agg(d) AS days FROM cal_days('FREQ=WEEKLY;BYDAY=TU,SA;COUNT=80', a, daterange(a - 10, a + 290), more, less) AS d) AS one,
    LATERAL (SELECT array_agg(d::date ORDER BY d) AS days FROM generate_series(a - 10, a + 289, '1 day') AS d
        WHERE ((d BETWEEN a AND a + 279 AND extract(isodow FROM d) IN (2, 6)) OR d::date = ANY (more)) AND d::date <> ALL (less)) AS other
    WHERE one.days IS DISTINCT FROM other.days;
SELECT count(*) FROM (SELECT a, n FROM start LIMIT :rows / 600 + 1) AS starts, unnest(ARRAY['Europe/Berlin', 'America/New_York', 'Australia/Lord_Howe']) AS zone,
    LATERAL (SELECT array_agg(a + k * abs(n) % 110 - 5 + k % 3 * interval '4 hours' + interval '9 hours') AS more,
        array_agg(a + k * abs(n + 7) % 110 - 5 + k % 3 * interval '4 hours' + interval '9 hours') AS less FROM generate_series(1, 40) AS k) AS lists,
    LATERAL (SELECT array_agg(t) AS times FROM cal_times_local('FREQ=DAILY;BYHOUR=9,17;COUNT=200', a + time '09:00', tsrange(a - 3, a + 104), more, less) AS t) AS local,
    LATERAL (SELECT array_agg(t) AS times FROM cal_times_zoned('FREQ=DAILY;BYHOUR=9,17;COUNT=200', a + time '09:00', zone,
        tstzrange((a - 3)::timestamp AT TIME ZONE zone, (a + 104)::timestamp AT TIME ZONE zone), more, less) AS t) AS zoned,
    LATERAL (SELECT array_agg(t ORDER BY t) AS locals, array_agg(t AT TIME ZONE zone ORDER BY t) AS instants FROM generate_series(-3, 103) AS d, generate_series(9, 17, 4) AS h,
        LATERAL (SELECT a + d + h * interval '1 hour' AS t) AS times WHERE ((d BETWEEN 0 AND 99 AND h IS DISTINCT FROM 13) OR t = ANY (more)) AND t <> ALL (less)) AS other
    WHERE local.times IS DISTINCT FROM other.locals OR zoned.times IS DISTINCT FROM other.instants;
