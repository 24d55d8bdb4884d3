-- Random local times of all zones, also near changes, against AT TIME ZONE. Each query prints the number
-- of differences. ROWS says how many rows.
\pset format unaligned
\getenv rows ROWS
SET timezone = 'UTC';
SET datestyle = 'ISO';
SET intervalstyle = 'postgres';
SELECT setseed(0.75);

CREATE TEMP TABLE zone AS SELECT name, row_number() OVER (ORDER BY name) AS id FROM pg_timezone_names
    WHERE name ~ '^[A-Z][A-Za-z_]+/[A-Z]' AND name !~ '^(Etc|SystemV)/';
CREATE TEMP TABLE local AS
    SELECT name AS zone, date_trunc('second', '1880-01-01'::timestamp + random() * interval '170 years') AS t, (random() * 80)::int - 40 AS n
    FROM (SELECT 1 + (random() * (SELECT count(*) - 1 FROM zone))::int AS id FROM generate_series(1, :rows * 6 / 10)) AS drawn JOIN zone USING (id);
-- As many rows within two hours of a change.
INSERT INTO local SELECT zone, cal_local(cal_next_change(t AT TIME ZONE 'UTC', zone), zone) + ((random() * 240)::int - 120) * interval '1 minute', n
    FROM local WHERE cal_next_change(t AT TIME ZONE 'UTC', zone) < '2050-01-01';
SELECT count(*) > :rows AS enough FROM local;
SELECT count(*) FROM local WHERE cal_instant(t, zone, 'later') IS DISTINCT FROM t AT TIME ZONE zone;
SELECT count(*) FROM local WHERE cal_local(t AT TIME ZONE 'UTC', zone) IS DISTINCT FROM (t AT TIME ZONE 'UTC') AT TIME ZONE zone;
-- The instants are those at which the built-in clocks show the time.
SELECT count(*) FROM local,
    LATERAL (SELECT cal_instants(t, zone) AS instants) AS found,
    LATERAL (SELECT coalesce(array_agg(DISTINCT i ORDER BY i), '{}') AS instants FROM unnest(ARRAY[cal_instant(t, zone, 'earlier'), cal_instant(t, zone, 'later')]) AS i
             WHERE i AT TIME ZONE zone = t) AS shown
    WHERE found.instants IS DISTINCT FROM shown.instants OR cal_local_kind(t, zone) IS DISTINCT FROM (ARRAY['gap', 'single', 'fold'])[1 + cardinality(shown.instants)];
SELECT count(*) FROM local, LATERAL (SELECT cal_instant(t, zone) AS i) AS start
    WHERE (i + cal_period_zoned(i, cal_instant(t + n * interval '1 day', zone), zone, 'day')) IS NULL
       OR cal_add_period_zoned(i, cal_period_zoned(i, cal_instant(t + n * interval '1 day 1 hour', zone), zone), zone) IS DISTINCT FROM cal_instant(t + n * interval '1 day 1 hour', zone);
