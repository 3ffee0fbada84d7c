"""The subjects by which the first page lists the crates: each has a sentence, and the crates whose pages are about it."""
import collections

Subject = collections.namedtuple("Subject", "title sentence crates")

# Each crate with a page stands here once. A subject without a crate of its own has links in its sentence.
SUBJECTS = [
    Subject("Dates", "A [`NaiveDate`](reference:chrono_naive/NaiveDate) is a day of the proleptic Gregorian calendar, with no time zone.",
            "chrono_naive chrono_calendar chrono_stored chrono_internals"),
    Subject("Weeks", "An [`IsoWeek`](reference:chrono_naive/IsoWeek) is a week of ISO 8601, and a [`NaiveWeek`](reference:chrono_naive/NaiveWeek) begins on any"
            " [`Weekday`](reference:chrono_units/Weekday).", "chrono_units"),
    Subject("Times", "A [`NaiveTime`](reference:chrono_clock/NaiveTime) is a time of day to the nanosecond, with leap seconds.", "chrono_clock"),
    Subject("Durations", "A [`TimeDelta`](reference:chrono_clock/TimeDelta) is a whole number of nanoseconds, and [`Days`](reference:chrono_naive/Days) and"
            " [`Months`](reference:chrono_units/Months) move dates.", ""),
    Subject("Date-times", "A [`NaiveDateTime`](reference:chrono_datetime/NaiveDateTime) is a date and a time of day, with no time zone.", "chrono_datetime"),
    Subject("Instants", "A [`DateTime`](reference:chrono_zoned/DateTime) is an instant and the zone or the offset whose clock it is read by.",
            "chrono_instant chrono_zoned"),
    Subject("Zones", "A [`Zone`](reference:zone/Zone) says how far local time is from UTC, and a [`Database`](reference:zone_database/Database) finds zones by name.",
            "zone zone_database zone_file zone_table zone_rule zone_text"),
    Subject("Cron", "A [`Schedule`](reference:chrono_cron/Schedule) is read from a line of cron, and finds the moments at which it is due.",
            "chrono_cron timed_cron zoned_cron chrono_sets"),
    Subject("Rules", "A [`Rule`](reference:chrono_rules/Rule) says which days recur, and a [`Recurrence`](reference:chrono_rules/Recurrence) finds them from a start on.",
            "chrono_rules zoned_rules calendar_text calendar_rules"),
    Subject("Business days", "A [`Calendar`](reference:chrono_business/Calendar) has a weekend and holidays, and finds and counts open days.", "chrono_business"),
    Subject("Patterns", "A [`Pattern`](reference:chrono_pattern/Pattern) such as `%d/%m/%Y` writes and reads dates, times and date-times.", "chrono_pattern"),
    Subject("Columns", "These functions compute an operation for each element of a slice, for example"
            " [`add_months`](reference:chrono_columns/add_months).", "chrono_columns pattern_columns"),
    Subject("Texts", "[`read_date`](reference:chrono_reading/read_date) reads `2024-02-29`, and other functions read and write the other texts of ISO 8601 and of mail.",
            "chrono_reading chrono_stamps chrono_text"),
    Subject("C interface", "C calls the functions of two static libraries, and the packages of the other languages stand on them.", "calendar_c layers_c numbers_c"),
    Subject("Programs", "The programs `caltool` and `dates` read their commands and print their answers by these crates.",
            "caltool_command caltool_form caltool_dates command_words dates_answer"),
]


def wrong(names):
    """What is wrong with the subjects for these crates: each has to stand in one of them, and there are no others."""
    counted = collections.Counter(name for it in SUBJECTS for name in it.crates.split())
    yield from (f"tools/reference_pages/subjects.py: {it} is in no subject" for it in names if it not in counted)
    yield from (f"tools/reference_pages/subjects.py: {it} stands in {count} subjects" for it, count in counted.items() if count > 1)
    yield from (f"tools/reference_pages/subjects.py: {it} has no page" for it in counted if it not in names)


def put(page, said):
    """Puts each subject with its crates and what is `said` of these."""
    for it in SUBJECTS:
        page.heading(2, it.title, f"={it.title}")
        page.put(it.sentence)
        page.put("\n".join(f"- [`{name}`](reference:{name}): {said[name]}" for name in it.crates.split() if name in said))
