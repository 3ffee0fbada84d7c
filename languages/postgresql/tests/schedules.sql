-- Schedules, without a zone and by the clock of the session's zone.
SET timezone = 'Europe/Berlin';
SELECT next_due('0 9 * * mon-fri', timestamp '2024-03-01 08:59:59.999999'), next_due('0 9 * * mon-fri', timestamp '2024-03-01 09:00');
SELECT next_due('30 4 1,15 * fri', timestamp '2024-02-09 04:30'), next_due('@daily', timestamp '1969-12-30 23:59:59.5');
SELECT next_due('0 0 30 2 *', timestamp '2024-01-01') IS NULL, next_due('@daily', timestamp '0001-12-31 BC');
SELECT next_due('@daily', timestamp '1969-12-31 12:00');
SELECT next_due('@daily', timestamp '262142-12-31') IS NULL, next_due('59 23 * * *', timestamp '262142-12-31');
-- The clock shows no 02:30 on 31 March, and two on 27 October. What is planned for the one fires as the gap ends, and for the others at the first.
SELECT next_due('30 2 * * *', timestamptz '2024-03-30 12:00'), next_due('0 3 * * *', timestamptz '2024-03-30 12:00');
SELECT next_due('30 2 * * *', timestamptz '2024-10-26 12:00'), next_due('30 2 * * *', timestamptz '2024-10-27 02:30+02');
SELECT next_due('30 2 * * *', timestamptz '2024-10-27 02:30+01'), next_due('0 2 27 10 *', timestamptz '2024-10-27 02:00+02');
SELECT next_due('0 3 * * *', timestamptz '2024-10-27 00:00+02');
SELECT next_due('0 0 29 2 *', timestamptz '2096-03-01'), next_due('0 0 30 2 *', timestamptz '2024-01-01') IS NULL;
SELECT next_due('@daily', timestamptz '1800-01-01 12:00');
SET timezone = 'UTC';
SELECT next_due('@daily', timestamptz '262142-12-31 00:00') IS NULL, next_due('30 2 * * *', timestamptz '2024-03-30 06:00');
SET timezone = 'Europe/Berlin';
SELECT next_due('30 2 * * *', timestamptz '2024-03-30 12:00');
-- What begins with * in the hours or the minutes goes by what the clock shows.
SELECT next_due('0 */2 * * *', timestamptz '2024-03-31 00:30');
SELECT count(*) FROM due_between('*/5 2 * * *', timestamptz '2024-10-26 12:00', timestamptz '2024-10-27 12:00');
SELECT count(*) FROM due_between('@daily', timestamptz '2000-01-01', timestamptz '2030-01-01');
SELECT * FROM due_between('*/20 * * * *', timestamp '2024-01-01', timestamp '2024-01-01 01:00');
SELECT * FROM due_between('*/30 * * * *', timestamptz '2024-03-31 01:00', timestamptz '2024-03-31 04:00');
SELECT * FROM due_between('*/30 * * * *', timestamptz '2024-10-27 01:30', timestamptz '2024-10-27 03:00');
SELECT count(*), count(DISTINCT due), max(due) FROM due_between('* * * * *', timestamp '2024-03-01', timestamp '2024-03-01 03:12') due;
SELECT count(*) FROM due_between('* * * * *', timestamp '2024-03-01', timestamp '2024-03-01 01:04');
SELECT count(*) FROM due_between('* * * * *', timestamptz '2024-03-31', timestamptz '2024-04-01');
SELECT count(*) FROM due_between('@daily', timestamp '2024-03-02', timestamp '2024-03-01');
SELECT count(*) FROM due_between('@daily', timestamptz '2024-03-02', timestamptz '2024-03-01');
SELECT due_between('@daily', timestamp '2024-01-01', timestamp '200000-01-01') LIMIT 2;
SELECT j, due FROM (VALUES ('@daily'), ('@yearly')) jobs (j), due_between(j, timestamp '2023-12-31', timestamp '2024-01-02') due;
-- One call site, several schedules.
SELECT next_due(j, timestamp '2024-01-01') FROM (VALUES ('@daily'), ('@yearly'), ('@daily'), ('0 0 * * *')) jobs (j);
-- What is refused.
SELECT next_due('0 25 * * *', timestamp '2024-01-01');
SELECT next_due('', timestamp '2024-01-01');
SELECT next_due('0 0 * * * *', timestamp '2024-01-01');
SELECT next_due('é 0 * * *', timestamp '2024-01-01');
SELECT next_due('0 é,x * * *', timestamp '2024-01-01');
SELECT next_due('@dayly', timestamptz '2024-01-01');
SELECT next_due('0 0 * * ' || repeat('1,', 500) || '8', timestamp '2024-01-01');
SELECT next_due('@daily', timestamp 'infinity');
SELECT next_due('@daily', timestamptz '-infinity');
SELECT next_due('@daily', timestamp '294276-12-31');
SELECT * FROM due_between('0 0 0 * *', timestamp '2024-01-01', timestamp '2024-01-02');
SELECT * FROM due_between('@daily', timestamp '-infinity', timestamp '2024-01-02');
SELECT * FROM due_between('@daily', timestamptz '2024-01-01', timestamptz 'infinity');
SELECT * FROM due_between('@daily', timestamp '2024-01-01', timestamp '294276-12-31');
