/* texts.c: texts that are read, and what is wrong with them. */
#include "extension.h"

#include "mb/pg_wchar.h"

/* An error shows at most so many bytes of a text, and a caret in texts of so many. */
#define MOST_NAMED 80
#define MOST_SHOWN 1000

void refuse(const char *what, const char *bytes, size_t length, size_t byte, const char *detail, const char *hint)
{
    int named = pg_mbcliplen(bytes, (int)length, MOST_NAMED);
    bool is_shown = length > 0 && length <= MOST_SHOWN;
    ereport(ERROR, (errcode(ERRCODE_INVALID_TEXT_REPRESENTATION),
                    errmsg("invalid %s: \"%.*s%s\"", what, named, bytes, (size_t)named < length ? "..." : ""),
                    errdetail_internal("%s", detail), errhint("%s", hint),
                    is_shown ? internalerrquery(pnstrdup(bytes, length)) : 0,
                    is_shown ? internalerrposition(pg_mbstrlen_with_len(bytes, (int)byte) + 1) : 0));
}

void read_schedule(const text *value, calendar_schedule *schedule)
{
    const char *bytes = VARDATA_ANY(value);
    size_t length = VARSIZE_ANY_EXHDR(value);
    calendar_fault fault;
    uint8_t said[99];
    if (!calendar_schedule_read((const uint8_t *)bytes, length, schedule, &fault)) {
        int32_t size = calendar_schedule_fault_text(&fault, said, sizeof said);
        refuse("schedule", bytes, length, fault.byte, psprintf("%.*s", (int)size, (char *)said),
               "A schedule has minute, hour, day of the month, month and weekday, as in \"30 4 * * mon-fri\".");
    }
}

/* The words of a list, with commas between them. */
static const char *listed(const char *const *words)
{
    char *text = pstrdup(words[0]);
    for (int i = 1; words[i]; i++) {
        text = psprintf("%s, %s", text, words[i]);
    }
    return text;
}

uint32_t number_of_word(const char *what, const text *value, const char *const *words)
{
    const char *bytes = VARDATA_ANY(value);
    size_t length = VARSIZE_ANY_EXHDR(value);
    for (uint32_t i = 0; words[i]; i++) {
        if (strlen(words[i]) == length && pg_strncasecmp(words[i], bytes, length) == 0) {
            return i;
        }
    }
    refuse(what, bytes, length, 0, psprintf("There is no such %s.", what), psprintf("Write one of %s.", listed(words)));
}
