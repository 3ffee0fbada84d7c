#!/usr/bin/env python3
"""Times functions of the PostgreSQL extension, beside the same functions in PL/pgSQL, in one run.

    benches/postgresql_speed.py [ROWS]      (20,000 rows, if left out)

It makes the package and starts a server as checks/packages/postgresql.py does. Each function in PL/pgSQL is written as a user of PostgreSQL
would, by PostgreSQL's own dates, and its answers to all rows have to be those of the extension before any is timed. A time is the
least of five, of the whole query as EXPLAIN ANALYZE tells it, with the scan of the table. What is printed is a ratio, so a busy machine
matters less.
"""
import os
import re
import sys
import tempfile

TOP = os.path.dirname(os.path.dirname(os.path.abspath(__file__)))
sys.path[:0] = [TOP, f"{TOP}/tools"]
from library import make_package  # noqa: E402
from packages import postgresql  # noqa: E402
from checks.packages.postgresql_server import Server  # noqa: E402

PLAIN = """
CREATE TABLE closed (day date PRIMARY KEY);
INSERT INTO closed SELECT make_date(y, m, d) FROM generate_series(1990, 2045) y, (VALUES (1, 1), (5, 1), (12, 25), (12, 26)) v (m, d)
WHERE extract(isodow FROM make_date(y, m, d)) < 6;
INSERT INTO business_calendars (name) VALUES ('office');
INSERT INTO business_holidays SELECT 'office', day FROM closed;
CREATE TABLE asked AS SELECT date '1995-01-01' + (n * 7919 % 15000)::integer AS day, n % 30 + 1 AS n, n % 12 AS months FROM generate_series(1, {rows}) n;
ANALYZE;

CREATE FUNCTION plain_add_months(day date, months integer) RETURNS date LANGUAGE plpgsql IMMUTABLE STRICT AS $$
BEGIN
    RETURN day + make_interval(months => months);
END $$;

CREATE FUNCTION plain_iso_week(day date) RETURNS integer LANGUAGE plpgsql IMMUTABLE STRICT AS $$
BEGIN
    RETURN extract(week FROM day);
END $$;

CREATE FUNCTION plain_easter(year integer) RETURNS date LANGUAGE plpgsql IMMUTABLE STRICT AS $$
DECLARE
    golden integer := year % 19;
    century integer := year / 100;
    moon integer := (19 * golden + century - century / 4 - (century - (century + 8) / 25 + 1) / 3 + 15) % 30;
    weekday integer := (32 + 2 * (century % 4) + 2 * (year % 100 / 4) - moon - year % 100 % 4) % 7;
    late integer := (golden + 11 * moon + 22 * weekday) / 451;
    place integer := moon + weekday - 7 * late + 114;
BEGIN
    RETURN make_date(year, place / 31, place % 31 + 1);
END $$;

CREATE FUNCTION plain_add_open_days(day date, n integer) RETURNS date LANGUAGE plpgsql STABLE STRICT AS $$
BEGIN
    WHILE n > 0 LOOP
        day := day + 1;
        IF extract(isodow FROM day) < 6 AND NOT EXISTS (SELECT FROM closed c WHERE c.day = plain_add_open_days.day) THEN
            n := n - 1;
        END IF;
    END LOOP;
    RETURN day;
END $$;

CREATE FUNCTION plain_open_days(first date, until date) RETURNS bigint LANGUAGE plpgsql STABLE STRICT AS $$
BEGIN
    RETURN (SELECT count(*) FROM generate_series(first, until - 1, interval '1 day') s WHERE extract(isodow FROM s) < 6)
        - (SELECT count(*) FROM closed c WHERE c.day >= first AND c.day < until);
END $$;

CREATE FUNCTION plain_roll(day date) RETURNS date LANGUAGE plpgsql STABLE STRICT AS $$
DECLARE
    start date := day;
    step integer := 1;
BEGIN
    WHILE extract(isodow FROM day) > 5 OR EXISTS (SELECT FROM closed c WHERE c.day = plain_roll.day) LOOP
        day := day + step;
        IF extract(month FROM day) <> extract(month FROM start) THEN
            day := start;
            step := -1;
        END IF;
    END LOOP;
    RETURN day;
END $$;

CREATE FUNCTION plain_year_fraction(first date, until date) RETURNS double precision LANGUAGE plpgsql IMMUTABLE STRICT AS $$
DECLARE
    one integer := least(extract(day FROM first), 30);
    other integer := CASE WHEN one = 30 THEN least(extract(day FROM until), 30) ELSE extract(day FROM until) END;
BEGIN
    RETURN (360 * (extract(year FROM until) - extract(year FROM first)) + 30 * (extract(month FROM until) - extract(month FROM first)) + other - one)::double precision / 360;
END $$;

-- the first minute of 09:00 on a workday
CREATE FUNCTION plain_next_due(after timestamp) RETURNS timestamp LANGUAGE plpgsql IMMUTABLE STRICT AS $$
DECLARE
    due timestamp := date_trunc('day', after) + interval '9 hours';
BEGIN
    WHILE due <= after OR extract(isodow FROM due) > 5 LOOP
        due := due + interval '1 day';
    END LOOP;
    RETURN due;
END $$;

-- the last Fridays of months
CREATE FUNCTION plain_rule_dates(start date, until date) RETURNS SETOF date LANGUAGE plpgsql IMMUTABLE STRICT AS $$
DECLARE
    month date := date_trunc('month', start);
    day date;
BEGIN
    LOOP
        day := (month + interval '1 month')::date - 1;
        day := day - (extract(isodow FROM day)::integer + 2) % 7;
        EXIT WHEN day > until;
        IF day >= start THEN
            RETURN NEXT day;
        END IF;
        month := month + interval '1 month';
    END LOOP;
END $$;

CREATE FUNCTION plain_due_between(after timestamp, until timestamp) RETURNS SETOF timestamp LANGUAGE plpgsql IMMUTABLE STRICT AS $$
DECLARE
    due timestamp := plain_next_due(after);
BEGIN
    WHILE due <= until LOOP
        RETURN NEXT due;
        due := plain_next_due(due);
    END LOOP;
END $$;
"""
# A function of the extension, and the same in PL/pgSQL.
PAIRS = {
    "add_months": ("add_months(day, months)", "plain_add_months(day, months)"),
    "iso_week": ("iso_week(day)", "plain_iso_week(day)"),
    "easter": ("easter(2000 + n)", "plain_easter(2000 + n)"),
    "add_open_days": ("add_open_days(day, n, 'office')", "plain_add_open_days(day, n)"),
    "open_days": ("open_days(day, day + 365, 'office')", "plain_open_days(day, day + 365)"),
    "roll": ("roll(day, 'modified-following', 'office')", "plain_roll(day)"),
    "year_fraction": ("year_fraction('30/360', day, day + 100)", "plain_year_fraction(day, day + 100)"),
    "next_due": ("next_due('0 9 * * mon-fri', day::timestamp)", "plain_next_due(day)"),
}
# Those that PL/pgSQL finds day by day are asked over the first thousand rows.
WALKS = ("add_open_days", "open_days", "roll")
SETS = {
    "rule_dates": ("rule_dates('FREQ=MONTHLY;BYDAY=-1FR', day, day + 1000)", "plain_rule_dates(day, day + 1000)"),
    "due_between": ("due_between('0 9 * * mon-fri', day::timestamp, day::timestamp + interval '365 days')", "plain_due_between(day, day::timestamp + interval '365 days')"),
}


def took(server, query):
    """The least of five times of a query, in milliseconds."""
    told = server.ask("SET max_parallel_workers_per_gather = 0; SET jit = off;" + f"EXPLAIN (ANALYZE, TIMING OFF, SUMMARY ON) {query};" * 5)
    times = [float(it) for it in re.findall(r"Execution Time: ([\d.]+) ms", told)]
    if len(times) != 5:
        sys.exit(f"{query}: {told}")
    return min(times)


def measure(server, name, queries):
    """Compares the answers, and prints the times of a pair and their ratio."""
    one, other = (server.ask(f"SELECT md5(string_agg(it::text, ' ')) FROM ({it}) q") for it in queries)
    if one != other or len(one) != 32:
        sys.exit(f"{name}: the answers differ: {one} and {other}")
    ours, theirs = (took(server, it) for it in queries)
    print(f"{name:14} {ours:10.2f} ms {theirs:10.2f} ms in PL/pgSQL, {theirs / ours:8.1f} times", flush=True)


def main():
    rows = int(sys.argv[1]) if len(sys.argv) > 1 else 20_000
    with tempfile.TemporaryDirectory(prefix="extension-") as room:
        os.chmod(room, 0o755)
        made, _ = make_package(room, "postgresql")
        with Server(postgresql.find_config()) as server:
            server.install(os.path.dirname(made[0]))
            print(server.ask("CREATE EXTENSION proved_calendar;" + PLAIN.format(rows=rows)), end="")
            for name, calls in PAIRS.items():
                rows = "(SELECT * FROM asked LIMIT 1000) a" if name in WALKS else "asked"
                measure(server, name, [f"SELECT {it} it FROM {rows}" for it in calls])
            for name, calls in SETS.items():
                measure(server, name, [f"SELECT it FROM (SELECT * FROM asked LIMIT 200) a, {it} it" for it in calls])


if __name__ == "__main__":
    main()
