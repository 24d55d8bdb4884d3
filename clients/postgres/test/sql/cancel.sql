-- The server can stop each loop: after 500 milliseconds, and within a second.
\pset format unaligned
SET timezone = 'UTC';
SET datestyle = 'ISO';
SET intervalstyle = 'postgres';
CREATE TEMP TABLE clock (t timestamptz);
\set all_times 'FREQ=YEARLY;BYMONTHDAY=1,2,3,4,5,6,7,8,9,10,11,12,13,14,15,16,17,18,19,20,21,22,23,24,25,26,27,28,29,30,31;BYHOUR=0,1,2,3,4,5,6,7,8,9,10,11,12,13,14,15,16,17,18,19,20,21,22,23;BYMINUTE=0,1,2,3,4,5,6,7,8,9,10,11,12,13,14,15,16,17,18,19,20,21,22,23,24,25,26,27,28,29,30,31,32,33,34,35,36,37,38,39,40,41,42,43,44,45,46,47,48,49,50,51,52,53,54,55,56,57,58,59;BYSECOND=0,1,2,3,4,5,6,7,8,9,10,11,12,13,14,15,16,17,18,19,20,21,22,23,24,25,26,27,28,29,30,31,32,33,34,35,36,37,38,39,40,41,42,43,44,45,46,47,48,49,50,51,52,53,54,55,56,57,58,59;BYSETPOS=-1,1,366,-366'
SET statement_timeout = 500;
INSERT INTO clock VALUES (clock_timestamp());
SELECT count(*) FROM cal_days('FREQ=DAILY', '0001-01-01', daterange(NULL, '900000-01-01'));
INSERT INTO clock VALUES (clock_timestamp());
SELECT count(*) FROM cal_days('FREQ=DAILY;COUNT=4000000000', '0001-01-01', daterange('999990-01-01', NULL));
INSERT INTO clock VALUES (clock_timestamp());
SELECT count(*) FROM cal_days('FREQ=YEARLY;BYDAY=MO,TU,WE,TH,FR;BYSETPOS=261,-261,262', '0001-01-01', daterange(NULL, '999999-01-01'));
INSERT INTO clock VALUES (clock_timestamp());
SELECT count(*) FROM cal_times_local('FREQ=DAILY;BYHOUR=1,2,3,4,5,6;COUNT=4000000000', '0001-01-01', tsrange('290000-01-01', NULL));
INSERT INTO clock VALUES (clock_timestamp());
SELECT count(*) FROM cal_times_local(:'all_times', '0001-01-01', tsrange(NULL, '290000-01-01'));
INSERT INTO clock VALUES (clock_timestamp());
SELECT count(*) FROM cal_times_zoned('FREQ=DAILY;BYHOUR=1,2,3,4,5,6;COUNT=4000000000', '0001-01-01', 'Europe/Berlin', tstzrange('290000-01-01', NULL));
INSERT INTO clock VALUES (clock_timestamp());
SELECT count(*) FROM cal_times_zoned(:'all_times', '0001-01-01', 'Europe/Berlin', tstzrange(NULL, '290000-01-01'));
INSERT INTO clock VALUES (clock_timestamp());
SELECT count(*) FROM cal_times_local('FREQ=SECONDLY;COUNT=4294967295', '0001-01-01', tsrange('9000-01-01', NULL));
INSERT INTO clock VALUES (clock_timestamp());
SELECT count(*) FROM cal_times_local('FREQ=SECONDLY;COUNT=4294967295', '0001-01-01');
INSERT INTO clock VALUES (clock_timestamp());
SELECT count(*) FROM cal_times_zoned('FREQ=SECONDLY;COUNT=4294967295', '0001-01-01', 'Europe/Berlin');
INSERT INTO clock VALUES (clock_timestamp());
SELECT count(*) FROM cal_times_zoned('FREQ=SECONDLY;COUNT=4294967295', '0001-01-01', 'Europe/Berlin', tstzrange('9000-01-01', NULL));
INSERT INTO clock VALUES (clock_timestamp());
SELECT count(*) FROM cal_times_zoned(:'all_times' || ';COUNT=4000000', '0001-01-01', 'Europe/Berlin', tstzrange('290000-01-01', NULL));
INSERT INTO clock VALUES (clock_timestamp());
SELECT count(*) FROM cal_days('FREQ=DAILY;COUNT=4000000000', '0001-01-01', daterange('999990-01-01', NULL), '{0001-01-01}', (SELECT array_agg('0001-01-01'::date + n) FROM generate_series(1, 1024) AS n));
INSERT INTO clock VALUES (clock_timestamp());
SELECT count(*) FROM cal_times_zoned(:'all_times', '0001-01-01', 'Europe/Berlin', tstzrange(NULL, '290000-01-01'), '{0001-01-01}', (SELECT array_agg('0001-01-01'::timestamp + n * interval '1 second') FROM generate_series(1, 1024) AS n));
INSERT INTO clock VALUES (clock_timestamp());
SELECT count(*) FROM cal_times_zoned('FREQ=SECONDLY', '0001-01-01', 'Europe/Berlin', tstzrange(NULL, '9000-01-01'), '{0001-01-01}', (SELECT array_agg('0001-01-01'::timestamp + n * interval '1 second') FROM generate_series(1, 1024) AS n));
INSERT INTO clock VALUES (clock_timestamp());
SELECT count(*) FROM cal_series('0001-01-01', '999999-01-01', '1 day');
INSERT INTO clock VALUES (clock_timestamp());
SELECT count(*) FROM cal_series_local('0001-01-01', '290000-01-01', '1 microsecond');
INSERT INTO clock VALUES (clock_timestamp());
SELECT count(*) FROM cal_series_zoned('0001-01-01', '290000-01-01', '1 second', 'Europe/Berlin');
INSERT INTO clock VALUES (clock_timestamp());
RESET statement_timeout;
SELECT count(*) AS queries, count(*) FILTER (WHERE length > interval '1 second') AS too_long
FROM (SELECT t - lag(t) OVER (ORDER BY t) AS length FROM clock) AS lengths WHERE length IS NOT NULL;
-- Nothing matches, which takes no time.
SELECT count(*) FROM cal_days('FREQ=DAILY;BYMONTH=2;BYMONTHDAY=30', '2024-01-01', daterange(NULL, '999999-01-01'));
SELECT count(*) FROM cal_times_zoned('FREQ=DAILY;BYMONTH=2;BYMONTHDAY=30;COUNT=9', '2024-01-01', 'Europe/Berlin');
SELECT count(*) FROM cal_times_local('FREQ=SECONDLY;INTERVAL=1000003;BYYEARDAY=366;BYHOUR=3;BYMINUTE=4;BYSECOND=5', '2024-01-01', tsrange(NULL, '290000-01-01'));
