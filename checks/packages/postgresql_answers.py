"""Drawn questions to the functions of the PostgreSQL extension, beside the library, PostgreSQL's own functions and zoneinfo.

The library is called by ctypes, with arguments that are turned into its numbers here. So what the extension turns is tested.
"""
import ctypes
import datetime
import zoneinfo

NONE, NO_NANOS = -(2**31), 2**32 - 1
# The day number of 1 January 2000, and the seconds from 1970 to it; the first date of PostgreSQL, and the last one of the library.
DAY, SECOND, FIRST, LAST = 730_120, 946_684_800, -2_451_545, 95_745_399 - 730_120
KINDS = ("actual/actual", "actual/360", "actual/365", "30/360", "30e/360")
ROLLS = ("unadjusted", "following", "preceding", "modified-following", "modified-preceding", "nearest-isda", "nearest-quantlib")
SCHEDULES = (
    "0 9 * * mon-fri", "30 4 1,15 * fri", "*/15 * * * *", "0 0 29 2 *", "59 23 31 12 *", "5-10 */3 * jan,jul *", "0 0 * * 0", "0 12 l * *", "@daily",
    "@hourly", "@monthly", "0 0 30 2 *", "15 2 15w * *", "30 2 * * 5#2",
)
RULES = (
    "FREQ=MONTHLY;BYDAY=-1FR", "FREQ=MONTHLY;COUNT=7", "FREQ=DAILY;INTERVAL=10", "FREQ=YEARLY;BYMONTH=2;BYMONTHDAY=29", "FREQ=WEEKLY;BYDAY=MO,WE;WKST=SU",
    "FREQ=MONTHLY;BYDAY=MO,TU,WE,TH,FR;BYSETPOS=-1", "FREQ=YEARLY;BYWEEKNO=20;BYDAY=MO", "FREQ=DAILY;UNTIL=20200101", "FREQ=MONTHLY;BYMONTHDAY=30;BYMONTH=2",
)
ZONES = ("Europe/Berlin", "America/New_York", "Australia/Lord_Howe", "America/Sao_Paulo", "Pacific/Apia")
EPOCH = "date '2000-01-01'"
# A timestamp of whole microseconds after 2000, and the other way; products of intervals would round.
STAMP = "(" + EPOCH + " + {0}_days)::timestamp + make_interval(secs => {0}_seconds) + {0}_micros * interval '1 microsecond'"
MICROS = "(({0}::date - " + EPOCH + ")::numeric * 86400000000 + extract(epoch FROM {0}::time) * 1000000)::bigint"


class Moment(ctypes.Structure):
    _fields_ = [("seconds", ctypes.c_int64), ("nanos", ctypes.c_uint32)]


class Schedule(ctypes.Structure):
    _fields_ = [("words", ctypes.c_uint64 * 10)]


class Fault(ctypes.Structure):
    _fields_ = [("code", ctypes.c_uint32), ("field", ctypes.c_uint32), ("byte", ctypes.c_size_t), ("end", ctypes.c_size_t)]


class Fraction(ctypes.Structure):
    _fields_ = [("numerator", ctypes.c_int64), ("denominator", ctypes.c_int64)]


class Library:
    """The library, over PostgreSQL's numbers: days since 2000, and microseconds since 2000."""

    def __init__(self, folder):
        self.dates = ctypes.CDLL(f"{folder}/libcalendar.so.0")
        self.layers = ctypes.CDLL(f"{folder}/libcalendar_layers.so.0")
        self.dates.calendar_add_months.argtypes = [ctypes.c_int32, ctypes.c_int64]
        self.layers.calendar_schedule_next.restype = Moment
        self.layers.calendar_schedule_next.argtypes = [ctypes.POINTER(Schedule), Moment]
        self.layers.calendar_schedule_is_due.restype = ctypes.c_bool
        self.layers.calendar_schedule_is_due.argtypes = [ctypes.POINTER(Schedule), Moment]
        self.layers.calendar_schedule_read.restype = ctypes.c_bool
        self.layers.calendar_day_count.restype = Fraction
        self.layers.calendar_open_days_between.restype = ctypes.c_int64
        self.read = {}

    def add_months(self, day, months):
        return self.date(self.dates.calendar_add_months(day + DAY, months))

    def add_months_to_stamp(self, micros, months):
        moved = self.add_months(micros // 86_400_000_000, months)
        return None if moved is None else moved * 86_400_000_000 + micros % 86_400_000_000

    def iso_week(self, day):
        return self.dates.calendar_iso_week(day + DAY)

    def year_fraction(self, kind, one, other):
        part = self.layers.calendar_day_count(KINDS.index(kind), one + DAY, other + DAY)
        return part.numerator / part.denominator

    def schedule(self, text):
        if text not in self.read:
            made, bytes_ = Schedule(), text.encode()
            if not self.layers.calendar_schedule_read(bytes_, ctypes.c_size_t(len(bytes_)), ctypes.byref(made), ctypes.byref(Fault())):
                raise ValueError(f"the library does not read the schedule {text}")
            self.read[text] = made
        return ctypes.byref(self.read[text])

    def next_due(self, text, micros):
        found = self.layers.calendar_schedule_next(self.schedule(text), Moment(micros // 10**6 + SECOND, micros % 10**6 * 1000))
        return None if found.nanos == NO_NANOS else (found.seconds - SECOND) * 10**6

    def due_between(self, text, after, until):
        found = []
        while (after := self.next_due(text, after)) is not None and after <= until:
            found.append(after)
        return ",".join(map(str, found)) or None

    def is_due(self, text, local):
        seconds = (local.replace(tzinfo=None) - datetime.datetime(1970, 1, 1)) // datetime.timedelta(seconds=1)
        return self.layers.calendar_schedule_is_due(self.schedule(text), Moment(seconds, 0))

    def rule_dates(self, text, start, until):
        bytes_, found, day = text.encode(), [], start - 1
        while (day := self.layers.calendar_rule_next(bytes_, ctypes.c_size_t(len(bytes_)), start + DAY, day + DAY) - DAY) + DAY != NONE and day <= until:
            found.append(day)
        return ",".join(map(str, found)) or None

    def open_days(self, name, calendar, *arguments):
        weekend, holidays = calendar
        numbers = (ctypes.c_int32 * len(holidays))(*(it + DAY for it in holidays))
        return getattr(self.layers, f"calendar_{name}")(weekend, numbers, ctypes.c_size_t(len(holidays)), *arguments)

    def date(self, day):
        return None if day == NONE or day - DAY < FIRST else day - DAY


# ---- questions


def split(micros):
    """Days, seconds and microseconds of microseconds."""
    days, rest = divmod(micros, 86_400_000_000)
    return days, *divmod(rest, 10**6)


def text_of(value):
    """A value as psql prints it."""
    return "" if value is None else str(value)


def ask(server, columns, rows, answer):
    """The answers to rows of a table, in their order."""
    lines = "\n".join("\t".join([str(number), *("\\N" if it is None else str(it) for it in row)]) for number, row in enumerate(rows))
    script = f"SET client_min_messages = warning;\nDROP TABLE IF EXISTS asked;\nCREATE TABLE asked (id integer, {columns});\nCOPY asked FROM STDIN;\n{lines}\n\\.\n"
    told = server.ask(f"{script}SELECT {answer}, '.' FROM asked ORDER BY id;\n").split("\n")
    return [it.removesuffix("|.") for it in told]


def compare_rows(results, server, what, columns, rows, answer, wanted):
    """Counts each answer that is wanted."""
    told = ask(server, columns, rows, answer)
    results.count(len(told) == len(rows), f"{what}: {len(told)} answers to {len(rows)} rows: {told[-3:]}")
    wrong = [(row, it, text_of(right)) for row, it, right in zip(rows, told, wanted) if it != text_of(right)]
    results.passed += len(rows) - len(wrong)
    for row, it, right in wrong[:5]:
        results.count(False, f"{what} of {row}: {it[:200]}, and {right[:200]} is wanted")
    results.failed += max(0, len(wrong) - 5)
    print(f"{what}: {len(rows)} rows", flush=True)


def day(numbers):
    """A day: mostly of our years, now and then of all that PostgreSQL and the library have."""
    return numbers.randint(-40_000, 40_000) if numbers.random() < 0.7 else numbers.randint(FIRST, LAST)


def micros(numbers):
    """A microsecond of such a day, often a whole minute."""
    return day(numbers) * 86_400_000_000 + (numbers.randrange(1440) * 60_000_000 if numbers.random() < 0.5 else numbers.randrange(86_400_000_000))


def compare_moves(results, server, library, numbers, count):
    """Moves by months: of dates, and of timestamps, which keep their time of day."""
    rows = [(day(numbers), numbers.randint(-40, 40) if numbers.random() < 0.7 else numbers.randint(-3_300_000, 3_300_000)) for _ in range(count)]
    wanted = [library.add_months(*it) for it in rows]
    kept = [place for place, it in enumerate(wanted) if it is not None]
    compare_rows(results, server, "add_months", "d integer, n integer", [rows[it] for it in kept], f"add_months({EPOCH} + d, n) - {EPOCH}", [wanted[it] for it in kept])
    told = server.ask(f"SELECT count(*) FROM asked WHERE add_months({EPOCH} + d, n) <> {EPOCH} + d + make_interval(months => n)")
    results.count(told == "0", f"add_months differs from PostgreSQL's own moves in {told} rows")
    lost = [rows[place] for place, it in enumerate(wanted) if it is None][:500]
    refused = "\n".join(f"SELECT add_months({EPOCH} + {d}, {n});" for d, n in lost)
    results.count(lost and server.ask(f"\\set ON_ERROR_STOP 0\n{refused}").count("ERROR:  date out of range\n") == len(lost), "a move beyond the calendar is no error")
    rows = [(*split(it), numbers.randint(-400, 400)) for it in (micros(numbers) for _ in range(count))]
    wanted = [library.add_months_to_stamp((d * 86_400 + s) * 10**6 + u, n) for d, s, u, n in rows]
    kept = [place for place, it in enumerate(wanted) if it is not None]
    answer = MICROS.format("add_months(" + STAMP.format("t") + ", n)")
    columns = "t_days integer, t_seconds integer, t_micros integer, n integer"
    compare_rows(results, server, "add_months of timestamps", columns, [rows[it] for it in kept], answer, [wanted[it] for it in kept])


def compare_fields(results, server, library, numbers, count):
    """ISO weeks, and parts of a year."""
    rows = [(day(numbers),) for _ in range(count)]
    compare_rows(results, server, "iso_week", "d integer", rows, f"iso_week({EPOCH} + d)", [library.iso_week(*it) for it in rows])
    told = server.ask(f"SELECT count(*) FROM asked WHERE iso_week({EPOCH} + d) <> extract(week FROM {EPOCH} + d)")
    results.count(told == "0", f"iso_week differs from PostgreSQL's own in {told} rows")
    rows = [(numbers.choice(KINDS), day(numbers), day(numbers)) for _ in range(count)]
    told = ask(server, "k text, a integer, b integer", rows, f"year_fraction(k, {EPOCH} + a, {EPOCH} + b)")
    for row, it in zip(rows, told):
        results.count(float(it) == library.year_fraction(*row), f"year_fraction of {row}: {it}, and {library.year_fraction(*row)} is wanted")
    print(f"year_fraction: {len(rows)} rows", flush=True)


def compare_schedules(results, server, library, numbers, count):
    """The next due time, and those between two times."""
    rows = [(numbers.choice(SCHEDULES), *split(micros(numbers))) for _ in range(count)]
    wanted = [library.next_due(text, (d * 86_400 + s) * 10**6 + u) for text, d, s, u in rows]
    columns = "s text, t_days integer, t_seconds integer, t_micros integer"
    compare_rows(results, server, "next_due", columns, rows, MICROS.format("next_due(s, " + STAMP.format("t") + ")"), wanted)
    rows = [(numbers.choice(SCHEDULES), *split(it), *split(it + numbers.randint(-10**9, 40 * 86_400) * 10**6)) for it in (micros(numbers) for _ in range(count // 20))]
    rows = [it for it in rows if it[4] <= LAST and it[4] >= FIRST]
    wanted = [library.due_between(text, (d * 86_400 + s) * 10**6 + u, (e * 86_400 + f) * 10**6 + v) for text, d, s, u, e, f, v in rows]
    answer = f"(SELECT string_agg({MICROS.format('due')}::text, ',') FROM due_between(s, {STAMP.format('t')}, {STAMP.format('e')}) due)"
    compare_rows(results, server, "due_between", f"{columns}, e_days integer, e_seconds integer, e_micros integer", rows, answer, wanted)


def compare_rules(results, server, library, numbers, count):
    """Dates of rules."""
    rows = [(numbers.choice(RULES), it, it + numbers.randint(-10, 2_000)) for it in (numbers.randint(-10_000, 10_000) for _ in range(count // 10))]
    wanted = [library.rule_dates(*it) for it in rows]
    answer = f"(SELECT string_agg((d - {EPOCH})::text, ',') FROM rule_dates(r, {EPOCH} + a, {EPOCH} + b) d)"
    compare_rows(results, server, "rule_dates", "r text, a integer, b integer", rows, answer, wanted)


def drawn_calendars(numbers):
    """Five calendars: the number of the weekend's set, and the holidays, which are none of them on the weekend."""
    for weekend in (0b1100000, 0b1000000, 0b0110000, 0, 0b1100000):
        days = sorted(numbers.sample(range(-4_000, 4_000), numbers.choice((0, 5, 300))))
        yield weekend, [it for it in days if not weekend >> (it + 5) % 7 & 1]


def compare_open_days(results, server, library, numbers, count):
    """Open days, by the name of a calendar and by arrays; the tables have holidays on weekends too."""
    calendars = list(drawn_calendars(numbers))
    for number, (weekend, holidays) in enumerate(calendars):
        days = ",".join(str(it + 1) for it in range(7) if weekend >> it & 1)
        values = ",".join(f"('drawn {number}', {EPOCH} + {it})" for it in {*holidays, *(it for it in range(-50, 50) if weekend >> (it + 5) % 7 & 1)})
        server.ask(f"INSERT INTO business_calendars VALUES ('drawn {number}', '{{{days}}}');")
        server.ask(f"INSERT INTO business_holidays VALUES {values};" if values else "")
    rows = [(numbers.randrange(5), numbers.randint(-5_000, 5_000), numbers.randint(-300, 300), numbers.choice(ROLLS)) for _ in range(count)]
    columns = "c integer, d integer, n integer, r text"
    listed = """coalesce((SELECT array_agg(day ORDER BY random()) FROM business_holidays WHERE calendar = 'drawn ' || c), '{}'),
        (SELECT weekend FROM business_calendars WHERE name = 'drawn ' || c)"""
    for way, given in {"named": "'drawn ' || c", "listed": listed}.items():
        kept = rows if way == "named" else rows[: count // 10]
        wanted = [library.open_days("add_open_days", calendars[c], d + DAY, ctypes.c_int64(n)) - DAY for c, d, n, _ in kept]
        compare_rows(results, server, f"add_open_days {way}", columns, kept, f"add_open_days({EPOCH} + d, n, {given}) - {EPOCH}", wanted)
        wanted = [library.open_days("open_days_between", calendars[c], d + DAY, d + n + DAY) for c, d, n, _ in kept]
        compare_rows(results, server, f"open_days {way}", columns, kept, f"open_days({EPOCH} + d, {EPOCH} + d + n, {given})", wanted)
        wanted = [library.open_days("roll", calendars[c], d + DAY, ROLLS.index(r)) - DAY for c, d, _, r in kept]
        compare_rows(results, server, f"roll {way}", columns, kept, f"roll({EPOCH} + d, r, {given}) - {EPOCH}", wanted)


# ---- instants


MINUTE = datetime.timedelta(minutes=1)
CORRECTION = datetime.timedelta(hours=3)


def fires(library, text, instant, zone):
    """Whether a schedule fires at a minute, as with Vixie's cron: by what the clock shows, or else once for each planned time."""
    follows = "*" in (text.split()[0][0], text.split()[1][0])
    local, before = instant.astimezone(zone), (instant - MINUTE).astimezone(zone)
    again = local.replace(fold=0).utcoffset() - local.utcoffset()
    if library.is_due(text, local) and (follows or again == 0 * MINUTE or again > CORRECTION):
        return True
    ahead = local.utcoffset() - before.utcoffset()
    if follows or not 0 * MINUTE < ahead < CORRECTION:
        return False
    return any(library.is_due(text, before.replace(tzinfo=None) + place * MINUTE) for place in range(1, ahead // MINUTE + 1))


def next_instant(library, text, start, zone):
    """The first minute after a start at which the schedule fires by the zone's clock."""
    found = start.replace(second=0, microsecond=0) + MINUTE
    while not fires(library, text, found, zone):
        found += MINUTE
    return found


def compare_instants(results, server, library, numbers, count):
    """The next due instant near changes of the clock, and moves by months, in several zones."""
    starts = [datetime.datetime(2011, 12, 29), datetime.datetime(2017, 10, 14), datetime.datetime(2024, 3, 30), datetime.datetime(2024, 10, 26),
              datetime.datetime(2024, 4, 6), datetime.datetime(2024, 11, 2), datetime.datetime(2024, 6, 1), datetime.datetime(2037, 10, 24), datetime.datetime(2095, 3, 26)]
    texts = ("30 2 * * *", "*/30 * * * *", "0 */2 * * *", "0 3 * * *", "15 1,2 * * *", "0 0 * * *", "59 23 * * *")
    for name in ZONES:
        zone, rows, wanted = zoneinfo.ZoneInfo(name), [], []
        for _ in range(max(5, count // 500)):
            start = (numbers.choice(starts) + datetime.timedelta(minutes=numbers.randrange(3000))).replace(tzinfo=datetime.timezone.utc)
            rows.append((numbers.choice(texts), f"{start:%Y-%m-%d %H:%M:%S}+00"))
            wanted.append(f"{next_instant(library, rows[-1][0], start, zone):%Y-%m-%d %H:%M:%S}+00")
        server.ask(f"ALTER DATABASE {server.database} SET timezone = '{name}'")
        # (how an instant is printed must not depend on the zone)
        answer = "to_char(next_due(s, t) AT TIME ZONE 'UTC', 'YYYY-MM-DD HH24:MI:SS+00')"
        compare_rows(results, server, f"next_due in {name}", "s text, t timestamptz", rows, answer, wanted)
        told = server.ask("SELECT count(*) FROM asked, generate_series(-30, 30) n WHERE add_months(t, n) <> t + make_interval(months => n)")
        results.count(told == "0", f"{name}: add_months differs from PostgreSQL's own moves in {told} rows")
        told = server.ask("SELECT count(*) FROM asked WHERE iso_week(t) <> extract(week FROM t)")
        results.count(told == "0", f"{name}: iso_week differs from PostgreSQL's own in {told} rows")
        query = "SELECT count(*) FROM asked WHERE next_due(s, t) IS DISTINCT FROM (SELECT due FROM due_between(s, t, t + interval '8 days') due LIMIT 1)"
        told = server.ask(query)
        results.count(told == "0", f"{name}: due_between begins elsewhere than next_due in {told} rows")
    server.ask(f"ALTER DATABASE {server.database} RESET timezone")


def compare(results, server, folder, numbers, count):
    """All of them."""
    library = Library(folder)
    for part in (compare_moves, compare_fields, compare_schedules, compare_rules, compare_open_days, compare_instants):
        part(results, server, library, numbers, count)
