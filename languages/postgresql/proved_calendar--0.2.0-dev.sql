-- proved_calendar--0.2.0-dev.sql: what CREATE EXTENSION makes.
\echo Use "CREATE EXTENSION proved_calendar" to load this file. \quit

-- Dates. What an instant's date is depends on the session's zone, so those functions are STABLE.

CREATE FUNCTION add_months(day date, months integer) RETURNS date
AS 'MODULE_PATHNAME', 'proved_add_months_of_date' LANGUAGE C IMMUTABLE STRICT PARALLEL SAFE;
CREATE FUNCTION add_months(moment timestamp, months integer) RETURNS timestamp
AS 'MODULE_PATHNAME', 'proved_add_months_of_timestamp' LANGUAGE C IMMUTABLE STRICT PARALLEL SAFE;
CREATE FUNCTION add_months(moment timestamptz, months integer) RETURNS timestamptz
AS 'MODULE_PATHNAME', 'proved_add_months_of_timestamptz' LANGUAGE C STABLE STRICT PARALLEL SAFE;

CREATE FUNCTION iso_week(day date) RETURNS integer
AS 'MODULE_PATHNAME', 'proved_iso_week_of_date' LANGUAGE C IMMUTABLE STRICT PARALLEL SAFE;
CREATE FUNCTION iso_week(moment timestamp) RETURNS integer
AS 'MODULE_PATHNAME', 'proved_iso_week_of_timestamp' LANGUAGE C IMMUTABLE STRICT PARALLEL SAFE;
CREATE FUNCTION iso_week(moment timestamptz) RETURNS integer
AS 'MODULE_PATHNAME', 'proved_iso_week_of_timestamptz' LANGUAGE C STABLE STRICT PARALLEL SAFE;

CREATE FUNCTION easter(year integer) RETURNS date
AS 'MODULE_PATHNAME', 'proved_easter' LANGUAGE C IMMUTABLE STRICT PARALLEL SAFE;

CREATE FUNCTION year_fraction(day_count text, "from" date, until date) RETURNS double precision
AS 'MODULE_PATHNAME', 'proved_year_fraction' LANGUAGE C IMMUTABLE STRICT PARALLEL SAFE;

-- Schedules. Those of instants go by the clock of the session's zone, so they are STABLE.

CREATE FUNCTION next_due(schedule text, after timestamp) RETURNS timestamp
AS 'MODULE_PATHNAME', 'proved_next_due_of_timestamp' LANGUAGE C IMMUTABLE STRICT PARALLEL SAFE;
CREATE FUNCTION next_due(schedule text, after timestamptz) RETURNS timestamptz
AS 'MODULE_PATHNAME', 'proved_next_due_of_timestamptz' LANGUAGE C STABLE STRICT PARALLEL SAFE;

CREATE FUNCTION due_between(schedule text, after timestamp, until timestamp) RETURNS SETOF timestamp
AS 'MODULE_PATHNAME', 'proved_due_between_of_timestamp' LANGUAGE C IMMUTABLE STRICT PARALLEL SAFE ROWS 100;
CREATE FUNCTION due_between(schedule text, after timestamptz, until timestamptz) RETURNS SETOF timestamptz
AS 'MODULE_PATHNAME', 'proved_due_between_of_timestamptz' LANGUAGE C STABLE STRICT PARALLEL SAFE ROWS 100;

-- Recurrence rules.

CREATE FUNCTION rule_dates(rule text, start date, until date) RETURNS SETOF date
AS 'MODULE_PATHNAME', 'proved_rule_dates' LANGUAGE C IMMUTABLE STRICT PARALLEL SAFE ROWS 100;

-- Calendars, which users fill. Weekdays count from 1 for Monday to 7. The years are those of which the holidays are known, and NULL for all.

CREATE TABLE business_calendars (
    name text PRIMARY KEY CHECK (octet_length(name) <= 63),
    weekend integer[] NOT NULL DEFAULT '{6,7}' CHECK (weekend <@ '{1,2,3,4,5,6,7}'),
    first_year integer,
    last_year integer,
    CHECK (first_year <= last_year)
);

CREATE TABLE business_holidays (
    calendar text REFERENCES business_calendars ON UPDATE CASCADE ON DELETE CASCADE,
    day date CHECK (day BETWEEN '4714-11-24 BC' AND '262142-12-31'),
    title text,
    PRIMARY KEY (calendar, day)
);

SELECT pg_catalog.pg_extension_config_dump('business_calendars', '');
SELECT pg_catalog.pg_extension_config_dump('business_holidays', '');
GRANT SELECT ON business_calendars, business_holidays TO PUBLIC;

CREATE FUNCTION given_holidays(calendar text, first_year integer, last_year integer) RETURNS SETOF date
AS 'MODULE_PATHNAME', 'proved_given_holidays' LANGUAGE C IMMUTABLE STRICT PARALLEL SAFE ROWS 100;

CREATE FUNCTION given_first_year(calendar text, first_year integer, last_year integer) RETURNS integer
AS 'MODULE_PATHNAME', 'proved_given_first_year' LANGUAGE C IMMUTABLE STRICT PARALLEL SAFE;

-- It is bound to the tables, in whatever schema they are. The first statement locks the row of the calendar, so that the second one sees the years
-- that it has. Years between these and the new ones are filled too.
CREATE FUNCTION fill_calendar(name text, first_year integer, last_year integer) RETURNS bigint LANGUAGE sql STRICT
BEGIN ATOMIC
    INSERT INTO business_calendars AS c (name) VALUES (fill_calendar.name) ON CONFLICT (name) DO UPDATE SET weekend = c.weekend;
    WITH asked AS (
        SELECT given_first_year(fill_calendar.name, fill_calendar.first_year, fill_calendar.last_year) AS first
    ), filled AS (
        SELECT least(asked.first, c.last_year + 1) AS first, greatest(fill_calendar.last_year, c.first_year - 1) AS last
        FROM business_calendars c, asked WHERE c.name = fill_calendar.name
    ), widened AS (
        UPDATE business_calendars c
        SET first_year = least(asked.first, c.first_year), last_year = greatest(fill_calendar.last_year, c.last_year)
        FROM asked WHERE c.name = fill_calendar.name
    ), added AS (
        INSERT INTO business_holidays (calendar, day)
        SELECT fill_calendar.name, day FROM filled, given_holidays(fill_calendar.name, filled.first, filled.last) day
        ON CONFLICT DO NOTHING RETURNING 1
    )
    SELECT count(*) FROM added;
END;

-- Open days. Those of a calendar by its name read the tables, so they are STABLE.

CREATE FUNCTION add_open_days(day date, days integer, calendar text) RETURNS date
AS 'MODULE_PATHNAME', 'proved_add_open_days_named' LANGUAGE C STABLE STRICT PARALLEL SAFE;
CREATE FUNCTION add_open_days(day date, days integer, holidays date[], weekend integer[] DEFAULT '{6,7}') RETURNS date
AS 'MODULE_PATHNAME', 'proved_add_open_days_listed' LANGUAGE C IMMUTABLE STRICT PARALLEL SAFE;

CREATE FUNCTION open_days("from" date, until date, calendar text) RETURNS bigint
AS 'MODULE_PATHNAME', 'proved_open_days_named' LANGUAGE C STABLE STRICT PARALLEL SAFE;
CREATE FUNCTION open_days("from" date, until date, holidays date[], weekend integer[] DEFAULT '{6,7}') RETURNS bigint
AS 'MODULE_PATHNAME', 'proved_open_days_listed' LANGUAGE C IMMUTABLE STRICT PARALLEL SAFE;

CREATE FUNCTION roll(day date, convention text, calendar text) RETURNS date
AS 'MODULE_PATHNAME', 'proved_roll_named' LANGUAGE C STABLE STRICT PARALLEL SAFE;
CREATE FUNCTION roll(day date, convention text, holidays date[], weekend integer[] DEFAULT '{6,7}') RETURNS date
AS 'MODULE_PATHNAME', 'proved_roll_listed' LANGUAGE C IMMUTABLE STRICT PARALLEL SAFE;
