"""How the PostgreSQL extension is used: by parallel workers, after a restart, in a dump, in sessions side by side, and at length."""
import re
import subprocess
import time

from checks.packages.postgresql_server import Session

FORCED = """
SET parallel_setup_cost = 0; SET parallel_tuple_cost = 0; SET min_parallel_table_scan_size = 0; SET max_parallel_workers_per_gather = 4;
"""
# A question to each function over a table of days.
CALLS = {
    "add_months": "add_months(day, 1) - day", "iso_week": "iso_week(day)", "year_fraction": "round(1000 * year_fraction('30/360', day, day + 100))",
    "next_due": "extract(epoch FROM next_due('0 9 * * mon-fri', day::timestamp))", "add_open_days": "add_open_days(day, 3, 'office') - day",
    "open_days": "open_days(day, day + 30, 'office')", "roll": "roll(day, 'following', 'office') - day",
    "next_due of instants": "extract(epoch FROM next_due('0 9 * * mon-fri', day::timestamptz))", "listed": "add_open_days(day, 3, '{2024-12-25}'::date[]) - day",
}
SETS = {
    "due_between": "due_between('@daily', day::timestamp, day + interval '4 days')", "rule_dates": "rule_dates('FREQ=DAILY', day, day + 4)",
    "given_holidays": "given_holidays('target', extract(year FROM day)::integer, extract(year FROM day)::integer)",
}
FILL = """
CREATE TABLE many AS SELECT date '1990-01-01' + (n % 20000)::integer AS day FROM generate_series(1, 100000) n;
ALTER TABLE many SET (parallel_workers = 4);
ANALYZE many;
INSERT INTO business_calendars (name) VALUES ('office');
INSERT INTO business_holidays SELECT 'office', make_date(y, m, d) FROM generate_series(1990, 2045) y, (VALUES (1, 1), (5, 1), (12, 25)) v (m, d);
"""


def try_workers(results, server):
    """Each function is run by workers, and their answers are those of one process."""
    server.ask(FILL)
    queries = {name: f"SELECT sum({call}) FROM many" for name, call in CALLS.items()}
    queries |= {name: f"SELECT count(*) + count(DISTINCT it) FROM many, {call} it WHERE extract(day FROM day) = 1" for name, call in SETS.items()}
    for name, query in queries.items():
        told = server.ask(f"{FORCED}EXPLAIN (ANALYZE, COSTS OFF, TIMING OFF) {query}")
        results.count(re.search(r"Workers Launched: [1-9]", told), f"{name}: no workers in the plan\n{told}")
        is_below = re.search(rf"Gather.*(?:Partial Aggregate|Function Scan on {name})", told, re.S)
        results.count(is_below, f"{name}: the workers do not call it\n{told}")
        alone, together = (server.ask(f"{how}{query}") for how in ("SET max_parallel_workers_per_gather = 0;", FORCED))
        results.count(alone == together and re.fullmatch(r"[\d.]+", alone), f"{name}: workers answer {together}, and one process {alone}")
    print(f"parallel plans: {len(queries)}", flush=True)


def try_restart(results, server):
    """What was filled in is there after a restart, in indexes and generated columns too."""
    server.ask("CREATE TABLE kept (day date, week integer GENERATED ALWAYS AS (iso_week(day)) STORED); INSERT INTO kept VALUES ('2024-12-30')")
    server.ask("CREATE INDEX by_month ON many (add_months(day, 1))")
    query = """SELECT week, add_open_days(day, 2, 'office') FROM kept; SET enable_seqscan = off;
        SELECT count(*) FROM many WHERE add_months(day, 1) = '2024-02-29'"""
    before = server.ask(query)
    server.restart()
    after = server.ask(query)
    results.count(before == after == "1|2025-01-02\n15", f"before a restart {before}, and after it {after}")


def try_dump(results, server):
    """A dump has the rows of the user's calendars, and makes another database of the same answers."""
    server.ask("SELECT fill_calendar('target', 2024, 2026)")
    ran = subprocess.run(["pg_dump", *server.words(), "-t", "business_*", "-e", "proved_calendar"], capture_output=True, text=True)
    results.count(ran.returncode == 0 and "COPY public.business_holidays" in ran.stdout, f"pg_dump: {ran.stderr}{ran.stdout[:500]}")
    server.ask("CREATE DATABASE restored", "-d", "postgres")
    said = server.ask(ran.stdout, "-d", "restored", "-v", "ON_ERROR_STOP=1")
    query = "SELECT add_open_days(date '2024-12-24', 1, 'office'), (SELECT count(*) FROM business_holidays)"
    results.count(server.ask(query, "-d", "restored") == server.ask(query), f"a dump restores something else: {said}")
    told = server.ask("SELECT add_open_days(date '2026-12-30', 2, 'target')", "-d", "restored")
    results.count("known from 2024 to 2026 alone" in told, f"a dump loses the years of a calendar: {told}")
    told = server.ask("CREATE SCHEMA other; DROP EXTENSION proved_calendar; CREATE EXTENSION proved_calendar SCHEMA other; "
                      "INSERT INTO other.business_calendars VALUES ('home', '{7}'); SELECT other.add_open_days(date '2024-12-24', 5, 'home'); "
                      "ALTER SCHEMA other RENAME TO third; SELECT third.add_open_days(date '2024-12-24', 5, 'home')", "-d", "restored")
    results.count(told.endswith("2024-12-30\n2024-12-30"), f"in another schema: {told}")


def try_isolation(results, server):
    """A session sees the calendar of its snapshot, and what others have committed in the next statement."""
    one, other = Session(server), Session(server)
    query = "SELECT add_open_days(date '2024-07-01', 1, 'office')"
    add, drop = ("INSERT INTO business_holidays VALUES ('office', '2024-07-02')", "DELETE FROM business_holidays WHERE day = '2024-07-02'")
    told = [one.ask(query), other.ask("BEGIN"), other.ask(add), other.ask(query), one.ask(query), other.ask("COMMIT"), one.ask(query)]
    results.count(told == ["2024-07-02", "", "", "2024-07-03", "2024-07-02", "", "2024-07-03"], f"read committed: {told}")
    told = [one.ask("BEGIN ISOLATION LEVEL REPEATABLE READ"), one.ask(query), other.ask(drop), other.ask(query), one.ask(query), one.ask("COMMIT"), one.ask(query)]
    results.count(told == ["", "2024-07-03", "", "2024-07-02", "2024-07-03", "", "2024-07-02"], f"repeatable read: {told}")
    told = [one.ask("BEGIN"), one.ask(add), one.ask(query), one.ask("ROLLBACK"), one.ask(query)]
    results.count(told == ["", "", "2024-07-03", "", "2024-07-02"], f"a transaction that is taken back: {told}")
    # (a cursor keeps its snapshot)
    rows = "DECLARE c CURSOR FOR SELECT add_open_days(date '2024-07-01', n % 2, 'office') FROM generate_series(1, 4) n"
    told = [one.ask("BEGIN"), one.ask(rows), one.ask("FETCH 1 FROM c"), other.ask(add), one.ask(query), one.ask("FETCH 2 FROM c"), one.ask("COMMIT"), other.ask(drop)]
    results.count(told == ["", "", "2024-07-02", "", "2024-07-03", "2024-07-01\n2024-07-02", "", ""], f"a cursor: {told}")
    one.close()
    other.close()


def try_many_sessions(results, server):
    """Eight sessions ask while two others change the calendar, and each answer is that of a calendar that was there."""
    asking, changing = [Session(server) for _ in range(8)], [Session(server) for _ in range(2)]
    query = "SELECT count(*), count(DISTINCT it), min(it) IN ('2024-07-02', '2024-07-03') FROM (SELECT add_open_days(date '2024-07-01', 1, 'office') it FROM many) q"
    for turn in range(6):
        for it in asking:
            it.send(query)
        for number, it in enumerate(changing):
            it.send(("INSERT INTO business_holidays VALUES ('office', '2024-07-02') ON CONFLICT DO NOTHING", "DELETE FROM business_holidays WHERE day = '2024-07-02'")[(turn + number) % 2])
        told = {it.take() for it in asking}
        results.count(told == {"100000|1|t"}, f"sessions side by side: {told}")
        results.count({it.take() for it in changing} == {""}, "a session that changes the calendar fails")
    server.ask("DELETE FROM business_holidays WHERE day = '2024-07-02'")
    for it in (*asking, *changing):
        it.close()


LONG = {
    "due_between": "SELECT count(*) FROM due_between('* * * * *', timestamp '2000-01-01', timestamp '200000-01-01')",
    "due_between of instants": "SELECT count(*) FROM due_between('* * * * *', timestamptz '2000-01-01', timestamptz '200000-01-01')",
    "rule_dates": "SELECT count(*) FROM generate_series(1, 1000000), rule_dates('FREQ=DAILY', '2000-01-01', '4000-01-01')",
    "next_due of instants": "SELECT count(next_due('0 0 29 2 mon#1', timestamptz '2000-01-01' + n * interval '1 day')) FROM generate_series(1, 100000000) n",
}


def try_cancel(results, server):
    """A long call ends soon after its time is over."""
    for name, query in LONG.items():
        began = time.monotonic()
        told = server.ask(f"SET timezone = 'Europe/Berlin'; SET statement_timeout = 300; {query}")
        took = time.monotonic() - began
        results.count("canceling statement due to statement timeout" in told and took < 10, f"{name}: after {took:.1f} seconds {told}")


def memory_of(pid):
    """The most memory that a process has had, in MB, without what it shares."""
    with open(f"/proc/{pid}/status", encoding="ascii") as it:
        sizes = dict(re.findall(r"^(\w+):\s+(\d+) kB$", it.read(), re.M))
    return int(sizes["RssAnon"]) // 1024, int(sizes["VmHWM"]) // 1024


def try_rows(results, server):
    """10,000,000 rows in little memory, and an error after so many in one set."""
    session = Session(server)
    pid = session.ask("SELECT pg_backend_pid()")
    session.ask("SET max_parallel_workers_per_gather = 0")
    wanted = {
        "SELECT sum(iso_week(date '2000-01-01' + n % 10000)) FROM generate_series(1, 10000000) n": r"\d+",
        "SELECT count(*) FROM (SELECT add_open_days(date '2000-01-01' + n % 10000, 1, 'office') FROM generate_series(1, 1000000) n OFFSET 0) q": "1000000",
        "SELECT count(*) FROM due_between('* * * * *', timestamp '2000-01-01', timestamp '2019-01-05 10:40')": "10000000",
        "SELECT count(*) FROM due_between('* * * * *', timestamp '2000-01-01', timestamp '2019-01-05 10:41')": "ERROR:  due_between gives more than 10000000 rows\nHINT:  Ask for a shorter time.",
        "SELECT count(*) FROM generate_series(1, 20) n, rule_dates('FREQ=DAILY', '0600-01-01', '1968-12-31')": r"10000000|\d+",
        "SELECT count(add_open_days(date '2024-07-01', n % 5, ARRAY[date '2024-07-01' + n % 300])) FROM generate_series(1, 1000000) n": "1000000",
    }
    for query, right in wanted.items():
        told = session.ask(query)
        results.count(re.fullmatch(right, told), f"{query}: {told}")
    grown, most = memory_of(pid)
    results.count(grown < 60 and most < 250, f"10,000,000 rows take {grown} MB, at most {most} MB")
    print(f"rows: 10,000,000 in {most} MB with what is shared", flush=True)
    session.close()


def try_all(results, server):
    for part in (try_workers, try_restart, try_dump, try_isolation, try_many_sessions, try_cancel, try_rows):
        part(results, server)
