-- The calendars that the library knows, and how they get into the tables.
SELECT string_agg(day::text, ' ') FROM given_holidays('target', 2024, 2024) day;
SELECT string_agg(day::text, ' ') FROM given_holidays('us_federal', 2021, 2022) day;
SELECT string_agg(day::text, ' ') FROM given_holidays('England_and_Wales', 2022, 2022) day;
SELECT string_agg(day::text, ' ') FROM given_holidays('nyse', 2021, 2021) day;
SELECT max(day) FROM given_holidays('fedwire', 2021, 2021) day;
SELECT string_agg(day::text, ' ') FROM given_holidays('germany', 2017, 2017) day;
SELECT string_agg(day::text, ' ') FROM given_holidays('france', 2024, 2024) day;
SELECT string_agg(day::text, ' ') FROM given_holidays('japan', 2026, 2026) day;
SELECT count(*) FROM given_holidays('target', 2024, 2023);
SELECT count(*), min(day), max(day) FROM given_holidays('us_federal', 1900, 2100) day;
SELECT fill_calendar('target', 2024, 2025), fill_calendar('target', 2024, 2024), fill_calendar('us_federal', 2024, 2024);
SELECT add_open_days(date '2024-03-28', 2, 'target'), open_days(date '2024-01-01', date '2025-01-01', 'us_federal');
SELECT * FROM business_calendars ORDER BY name;
-- An answer that looks at another year is an error.
SELECT add_open_days(date '2025-12-30', 1, 'target'), open_days(date '2025-01-01', date '2026-01-01', 'target');
SELECT add_open_days(date '2025-12-30', 2, 'target');
SELECT add_open_days(date '2026-01-01', -1, 'target');
SELECT add_open_days(date '2024-01-02', -1, 'target');
SELECT open_days(date '2025-01-01', date '2026-01-02', 'target');
SELECT open_days(date '2024-01-01', date '2023-12-31', 'target');
SELECT roll(date '2023-12-31', 'following', 'target');
SELECT roll(date '2024-01-01', 'preceding', 'target');
SELECT roll(date '2024-01-01', 'nearest-quantlib', 'target');
SELECT roll(date '2024-01-01', 'following', 'target'), roll(date '2025-12-31', 'nearest-quantlib', 'target');
-- The years become more, and those between are filled too, but not those of before.
DELETE FROM business_holidays WHERE day = '2024-05-01';
SELECT fill_calendar('target', 2028, 2028), fill_calendar('us_federal', 2020, 2021), fill_calendar('us_federal', 2021, 2022);
SELECT c.*, count(*) FROM business_calendars c JOIN business_holidays h ON h.calendar = c.name GROUP BY c.name ORDER BY c.name;
SELECT add_open_days(date '2025-12-30', 2, 'target'), open_days(date '2024-01-01', date '2029-01-01', 'target');
SELECT fill_calendar('japan', 1990, 2007);
SELECT * FROM business_calendars WHERE name = 'japan';
SELECT given_first_year('japan', 1990, 2007), given_first_year('Japan', 2009, 2010);
-- A calendar of rows of one's own has no years, until it has some.
INSERT INTO business_calendars (name) VALUES ('own'), ('nyse');
INSERT INTO business_holidays VALUES ('own', '2024-03-29');
SELECT add_open_days(date '1800-03-28', 1, 'own'), add_open_days(date '2300-03-28', 1, 'own');
UPDATE business_calendars SET first_year = 2024 WHERE name = 'own';
SELECT add_open_days(date '2300-03-28', 1, 'own');
SELECT add_open_days(date '2024-01-01', -1, 'own');
UPDATE business_calendars SET first_year = NULL, last_year = 2024 WHERE name = 'own';
SELECT add_open_days(date '1800-03-28', 1, 'own');
SELECT add_open_days(date '2024-12-31', 1, 'own');
SELECT fill_calendar('nyse', 2024, 2024);
SELECT open_days(date '2024-01-01', date '2025-01-01', 'nyse');
SELECT open_days(date '2024-01-01', date '2025-01-02', 'nyse');
SELECT fill_calendar('us_federal', 1971, 2170) > 1000;
SELECT open_days(date '2024-01-01', date '2025-01-01', 'us_federal');
-- What is refused.
SELECT fill_calendar('quantlib', 2024, 2024);
SELECT fill_calendar('target', 1990, 1998);
SELECT fill_calendar('target', 2024, 2023);
SELECT fill_calendar('target', 2024, 262142);
UPDATE business_calendars SET last_year = 2023 WHERE name = 'target';
SELECT given_first_year('quantlib', 2024, 2024);
SELECT * FROM given_holidays('', 2024, 2024);
SELECT * FROM given_holidays('target', -4713, 2024);
SELECT * FROM given_holidays('target', 2024, 2147483647);
SELECT count(*) FROM business_calendars WHERE name = 'quantlib';
