-- Moves by months, weeks and parts of a year.
SET timezone = 'America/New_York';
SELECT add_months(date '2024-01-31', 1), add_months(date '2024-02-29', -12), add_months(date '2024-02-29', 0);
SELECT add_months(timestamp '2024-01-31 23:59:59.999999', 1), add_months(timestamp '1999-03-31 00:00', -1);
-- The time of day stays, so the offset changes.
SELECT add_months(timestamptz '2024-01-31 12:30-05', 6);
-- A move by nothing stays in its hour, which this clock shows twice.
SET timezone = 'Europe/Berlin';
SELECT add_months(timestamptz '2024-10-27 02:30+02', 0);
SELECT add_months(timestamptz '2024-10-27 02:30+01', 0);
SET timezone = 'America/New_York';
SELECT add_months(date '0001-01-31 BC', 1), add_months(date '4714-11-24 BC', 12 * 4713), add_months(date '262142-12-31', -1);
SELECT add_months(timestamp '4714-11-24 00:00:00 BC', 1), add_months(timestamp '262142-12-31 12:00', -3145704);
SELECT iso_week(date '2020-12-31'), iso_week(date '2024-12-30'), iso_week(date '0001-01-01 BC');
SELECT iso_week(timestamp '2021-01-03 23:59:59.5'), iso_week(timestamp '1969-12-28 23:59:59.999999');
-- It is Sunday in New York, and Monday in Greenwich.
SELECT iso_week(timestamptz '2021-01-04 03:00+00');
SELECT year_fraction('actual/actual', '2023-07-01', '2024-07-01'), year_fraction('Actual/360', '2024-01-01', '2024-12-31');
SELECT year_fraction('actual/365', '2024-12-31', '2024-01-01'), year_fraction('30/360', '2024-01-31', '2024-03-31');
SELECT year_fraction('30/360', '2024-02-29', '2024-03-31'), year_fraction('30E/360', '2024-02-29', '2024-03-31');
-- What is refused.
SELECT add_months(date '2024-01-31', 2147483647);
SELECT add_months(date '4714-11-24 BC', -1);
SELECT add_months(date '262142-12-01', 1);
SELECT add_months(date '262143-01-01', -1);
SELECT add_months(date 'infinity', 1);
SELECT add_months(timestamp '4714-11-24 BC', -1);
SELECT add_months(timestamp '262142-12-31', 1);
SELECT add_months(timestamp '262143-01-01', -1);
SELECT add_months(timestamp '-infinity', 1);
SELECT add_months(timestamptz 'infinity', 1);
SELECT iso_week(date '-infinity');
SELECT iso_week(date '5874897-12-31');
SELECT iso_week(timestamptz '-infinity');
SELECT year_fraction('actual', '2024-01-01', '2024-12-31');
SELECT year_fraction('', '2024-01-01', '2024-12-31');
SELECT year_fraction('30/360', '2024-01-01', 'infinity');
-- The plan of an index has the function.
CREATE TEMPORARY TABLE days AS SELECT date '2024-01-01' + n AS day FROM generate_series(0, 3000) n;
CREATE INDEX ON days (iso_week(day));
ANALYZE days;
SET enable_seqscan = off;
EXPLAIN (COSTS OFF) SELECT * FROM days WHERE iso_week(day) = 53;
SELECT count(*), min(day) FROM days WHERE iso_week(day) = 53;
-- Easter.
SELECT easter(2024), easter(1583), easter(-4711), easter(262142);
SELECT easter(262143);
SELECT easter(-4713);
SELECT easter(2147483647);
