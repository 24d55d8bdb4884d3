-- Indexes on expressions, generated columns, CHECK, parallel plans, and a later version.
\pset format unaligned
SET timezone = 'UTC';
SET datestyle = 'ISO';
SET intervalstyle = 'postgres';
CREATE TABLE invoice (id int PRIMARY KEY, day text CHECK (cal_valid(day)), start date NOT NULL,
    due date GENERATED ALWAYS AS (cal_add_workdays(cal_add_months(start, 1), 0, '{2024-12-25,2024-12-26,2025-01-01}')) STORED);
INSERT INTO invoice (id, day, start) SELECT n, '2024-02-29', '2024-01-31'::date + n FROM generate_series(0, 60000) AS n;
SELECT id, start, due FROM invoice WHERE id IN (0, 1, 30, 299, 300) ORDER BY id;
INSERT INTO invoice (id, day, start) VALUES (-1, '2023-02-29', '2024-01-31');
INSERT INTO invoice (id, day, start) VALUES (-1, '2024-2-29', '2024-01-31');
CREATE INDEX by_week ON invoice (cal_week_text(start));
CREATE INDEX by_month ON invoice (cal_start_of(start, 'month'));
ANALYZE invoice;
EXPLAIN (COSTS off) SELECT count(*) FROM invoice WHERE cal_week_text(start) = '2024-W09-4';
SELECT count(*) FROM invoice WHERE cal_week_text(start) = '2024-W09-4';
SELECT count(*) FROM invoice WHERE cal_start_of(start, 'month') = '2024-02-01';
-- An index on what a zone's file says isn't possible.
CREATE INDEX by_instant ON invoice (cal_instant(start::timestamp, 'Europe/Berlin'));

-- parallel workers, each with its own calendars and zones
SET max_parallel_workers_per_gather = 2;
SET parallel_setup_cost = 0;
SET parallel_tuple_cost = 0;
SET min_parallel_table_scan_size = 0;
EXPLAIN (COSTS off) SELECT sum(cal_workdays(start, due, '{2024-12-25}')) FROM invoice;
SELECT sum(cal_workdays(start, due, '{2024-12-25}')) AS workdays,
    count(DISTINCT cal_format_zoned(cal_instant(start::timestamp, 'Europe/Berlin'), 'Europe/Berlin', '%z')) AS offsets FROM invoice \gset parallel_
SET max_parallel_workers_per_gather = 0;
SELECT sum(cal_workdays(start, due, '{2024-12-25}')) = :parallel_workdays AS same, :parallel_offsets AS offsets FROM invoice;
-- Functions that aren't parallel safe, and those that are immutable although they read a zone: none.
SELECT proname FROM pg_proc WHERE proname LIKE 'cal\_%' AND (proparallel <> 's' OR NOT proisstrict OR (provolatile = 'i') = ('zone' = ANY (coalesce(proargnames, '{}'))));

-- a later version, with the objects that use the functions in place
ALTER EXTENSION fotsevindre UPDATE TO 'next';
SELECT extversion FROM pg_extension WHERE extname = 'fotsevindre';
SELECT cal_next_version(), count(*) FROM invoice WHERE cal_week_text(start) = '2024-W09-4';
DROP EXTENSION fotsevindre;
DROP TABLE invoice;
DROP EXTENSION fotsevindre;
CREATE SCHEMA other;
CREATE EXTENSION fotsevindre VERSION '0.2.0' SCHEMA other;
SELECT other.cal_add_months('2024-01-31', 1);
