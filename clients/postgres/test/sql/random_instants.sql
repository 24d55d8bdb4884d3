-- Random instants: the starts and ends of units, and the changes, of zones without a change at midnight,
-- and durations. Each query prints the number of differences. ROWS says how many rows.
\pset format unaligned
\getenv rows ROWS
SET timezone = 'UTC';
SET datestyle = 'ISO';
SET intervalstyle = 'postgres';
SELECT setseed(1);

CREATE TEMP TABLE instant AS
    SELECT (ARRAY['Europe/Berlin', 'America/New_York', 'Asia/Tokyo', 'Asia/Kolkata', 'Australia/Lord_Howe'])[1 + (id % 5)::int] AS zone,
        date_trunc('second', '1990-01-01Z'::timestamptz + random() * interval '45 years') AS i
    FROM generate_series(1, :rows) AS id;
SELECT count(*) FROM instant CROSS JOIN unnest(ARRAY['day', 'week', 'month', 'quarter', 'year']) AS unit
    WHERE cal_start_of_zoned(i, unit, zone) IS DISTINCT FROM date_trunc(unit, i, zone)
       OR cal_end_of_zoned(i, unit, zone) + interval '1 microsecond' IS DISTINCT FROM date_trunc(unit, date_trunc(unit, i, zone) + CASE unit WHEN 'day' THEN interval '30 hours'
           WHEN 'week' THEN interval '174 hours' WHEN 'month' THEN interval '32 days' WHEN 'quarter' THEN interval '93 days' ELSE interval '367 days' END, zone);
SELECT count(*) FROM instant WHERE cal_format_zoned(i, zone, '%Y-%m-%d %H:%M:%S') IS DISTINCT FROM to_char(i AT TIME ZONE zone, 'YYYY-MM-DD HH24:MI:SS');
SELECT count(*) FROM instant, LATERAL (SELECT (i AT TIME ZONE zone)::date AS day) AS days
    WHERE cal_day_length(day, zone) IS DISTINCT FROM (day + 1)::timestamp AT TIME ZONE zone - day::timestamp AT TIME ZONE zone;
-- The offset is the same up to the next change, and since the previous one, and another one past them.
SELECT count(*) FROM instant, LATERAL (SELECT cal_next_change(i, zone) AS next, cal_previous_change(i, zone) AS previous, interval '1 second' AS s) AS changes,
    LATERAL (SELECT i AT TIME ZONE zone - i AT TIME ZONE 'UTC' AS now, next AT TIME ZONE zone - next AT TIME ZONE 'UTC' AS after,
        (next - s) AT TIME ZONE zone - (next - s) AT TIME ZONE 'UTC' AS until, previous AT TIME ZONE zone - previous AT TIME ZONE 'UTC' AS since,
        (previous - s) AT TIME ZONE zone - (previous - s) AT TIME ZONE 'UTC' AS before) AS offsets
    WHERE zone NOT LIKE 'Asia/%' AND (next <= i OR previous > i OR until IS DISTINCT FROM now OR since IS DISTINCT FROM now OR after = now OR before = now);
SELECT count(*) FROM instant WHERE zone LIKE 'Asia/%' AND cal_next_change(i, zone) IS NOT NULL;
SELECT count(*) FROM instant WHERE cal_add_period_zoned(i, '40 days 5 hours', zone, 'later') IS DISTINCT FROM (i AT TIME ZONE zone + interval '40 days') AT TIME ZONE zone + interval '5 hours'
    AND cal_local_kind(i AT TIME ZONE zone + interval '40 days', zone) IS DISTINCT FROM 'fold';
SELECT count(*) FROM (SELECT i, zone FROM instant LIMIT :rows / 300 + 1) AS starts,
    LATERAL (SELECT array_agg(t) AS times FROM cal_series_zoned(i, i + interval '300 days', '1 day', zone, 'later') AS t) AS one,
    LATERAL (SELECT array_agg(t ORDER BY n) AS times FROM generate_series(0, 300) AS n, LATERAL (SELECT (i AT TIME ZONE zone + n * interval '1 day') AT TIME ZONE zone AS t) AS found
        WHERE t <= i + interval '300 days') AS other
    WHERE one.times IS DISTINCT FROM other.times AND 'fold' <> ALL (SELECT cal_local_kind(i AT TIME ZONE zone + n * interval '1 day', zone) FROM generate_series(0, 300) AS n);
SELECT count(*) FROM (SELECT make_interval(secs => (random() * 99999999)::int / 10.0) AS d, 1 + (random() * 5000)::int AS unit FROM generate_series(1, :rows)) AS durations
    WHERE cal_round_duration(d, make_interval(secs => unit)) IS DISTINCT FROM make_interval(secs => unit * floor(extract(epoch FROM d) / unit + 0.5)) OR cal_parse_duration(cal_duration_text(d)) IS DISTINCT FROM d;
-- trunc and half even of both signs, also of half of a unit
SELECT count(*) FROM (SELECT (random() * 20000)::int - 10000 AS n, 2 * (1 + (random() * 2500)::int) AS unit, (random() * 5000)::int AS rest FROM generate_series(1, :rows)) AS durations,
    LATERAL (SELECT n * unit + rest % unit AS d, make_interval(secs => unit) AS u) AS duration
    WHERE cal_round_duration(make_interval(secs => d), u, 'trunc') IS DISTINCT FROM make_interval(secs => d / unit * unit)
       OR cal_round_duration(make_interval(secs => d), u, 'half even') IS DISTINCT FROM make_interval(secs => unit * round(d::float8 / unit))
       OR cal_round_duration(make_interval(secs => n * unit + unit / 2), u, 'half even') IS DISTINCT FROM make_interval(secs => unit * round(n + 0.5::float8));
