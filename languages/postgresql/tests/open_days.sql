-- Open days: of calendars in the tables, and of arrays.
INSERT INTO business_calendars (name) VALUES ('bank');
INSERT INTO business_calendars VALUES ('shop', '{7}'), ('Gulf', '{5,6}'), ('always', '{}'), ('never', '{1,2,3,4,5,6,7}');
INSERT INTO business_holidays VALUES ('bank', '2024-03-29', 'Good Friday'), ('bank', '2024-04-01', 'Easter Monday'),
    ('bank', '2024-03-30', NULL), ('shop', '2024-03-31', NULL), ('Gulf', '2024-04-10', NULL);
SELECT name, add_open_days(date '2024-03-28', 2, name), open_days(date '2024-03-25', date '2024-04-08', name)
FROM business_calendars WHERE name <> 'never' ORDER BY name;
SELECT add_open_days(date '2024-03-30', 0, 'bank'), add_open_days(date '2024-03-30', 1, 'bank'), add_open_days(date '2024-03-30', -1, 'bank');
SELECT open_days(date '2024-04-08', date '2024-03-25', 'bank'), open_days(date '2024-04-08', date '2024-04-08', 'bank');
SELECT how, roll(date '2024-03-30', how, 'bank'), roll(date '2024-04-10', how, 'Gulf')
FROM unnest('{unadjusted,following,preceding,modified-following,modified-preceding,nearest-isda,Nearest-QuantLib}'::text[]) how;
SELECT open_days(date '2024-03-25', date '2024-04-08', 'never'), roll(date '2024-03-30', 'unadjusted', 'never');
-- Arrays are in any order, with days twice and on the weekend.
SELECT add_open_days(date '2024-03-28', 2, '{2024-04-01,2024-03-29,2024-03-30,2024-03-29}'::date[]);
SELECT add_open_days(date '2024-03-28', 2, '{}'::date[]), add_open_days(date '2024-03-28', 2, '{}'::date[], '{}');
SELECT add_open_days(date '2024-03-28', 2, '{}'::date[], '{5,6}'), open_days(date '2024-03-25', date '2024-04-08', '{2024-04-01}'::date[], '{7}');
SELECT roll(date '2024-03-31', 'preceding', '{2024-03-29}'::date[]), roll(date '2024-03-31', 'following', '{2024-03-29}'::date[], '{1,7}');
SELECT add_open_days(date '2024-03-28', 1, h, w) FROM (VALUES ('{2024-03-29}'::date[], '{6,7}'::integer[]), ('{}', '{6,7}'), ('{}', '{5,6}'),
    ('{2024-03-29}', '{6,7}'), ('{{2024-03-29},{2024-04-01}}', '{6,7}')) v (h, w);
SELECT add_open_days(date '2024-03-28', 1, array_agg(day)) FROM generate_series(date '2024-03-28', date '2028-01-26', '1 day') s, date(s) day;
-- What is refused.
SELECT add_open_days(date '2024-03-28', 2, 'banc');
SELECT add_open_days(date '2024-03-28', 2, repeat('x', 100));
SELECT add_open_days(date '2024-03-28', 1, 'never');
SELECT add_open_days(date '2024-03-28', 2147483647, 'bank');
SELECT add_open_days(date '4714-11-24 BC', -1, 'bank');
SELECT add_open_days(date 'infinity', 1, 'bank');
SELECT open_days(date '2024-03-28', date '-infinity', 'bank');
SELECT roll(date 'infinity', 'following', 'bank');
SELECT roll(date '2024-03-31', 'up', 'bank');
SELECT roll(date '2024-03-31', '', 'bank');
SELECT roll(date '2024-03-31', 'following', 'never');
SELECT add_open_days(date '2024-03-28', 1, '{2024-03-29,NULL}'::date[]);
SELECT add_open_days(date '2024-03-28', 1, '{infinity}'::date[]);
SELECT add_open_days(date '2024-03-28', 1, '{}'::date[], '{0}');
SELECT add_open_days(date '2024-03-28', 1, '{}'::date[], '{8}');
SELECT add_open_days(date '2024-03-28', 1, '{}'::date[], '{NULL}');
SELECT add_open_days(date '2024-03-28', 1, array_agg(day)) FROM generate_series(date '2024-03-28', date '2028-01-27', '1 day') s, date(s) day;
INSERT INTO business_calendars VALUES ('wrong', '{8}');
INSERT INTO business_holidays VALUES ('bank', 'infinity');
INSERT INTO business_holidays VALUES ('nobody', '2024-01-01');
INSERT INTO business_calendars VALUES (repeat('x', 64));
-- A statement sees the calendar as it was when it began, also within a transaction, and after a part of it is taken back.
BEGIN ISOLATION LEVEL REPEATABLE READ;
SELECT add_open_days(date '2024-03-28', 1, 'bank');
SAVEPOINT before;
DELETE FROM business_holidays WHERE calendar = 'bank';
SELECT add_open_days(date '2024-03-28', 1, 'bank');
ROLLBACK TO before;
SELECT add_open_days(date '2024-03-28', 1, 'bank');
COMMIT;
DO $$
DECLARE
    before date;
BEGIN
    FOR i IN 1..2 LOOP
        before := add_open_days(date '2024-03-28', 1, 'bank');
        RAISE NOTICE '% %', i, before;
        DELETE FROM business_holidays WHERE calendar = 'bank';
    END LOOP;
END
$$;
UPDATE business_calendars SET name = 'bench' WHERE name = 'bank';
SELECT add_open_days(date '2024-03-28', 1, 'bank');
DELETE FROM business_calendars;
SELECT count(*) FROM business_holidays;
