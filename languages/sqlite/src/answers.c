/* answers.c: answers that are written. */
#include "extension.h"

#include <string.h>

SQLITE_EXTENSION_INIT3

void answer_refusal(sqlite3_context *context, char *message)
{
    if (!message) {
        sqlite3_result_error_nomem(context);
        return;
    }
    sqlite3_result_error(context, message, -1);
    sqlite3_free(message);
}

void answer_day(sqlite3_context *context, int32_t day)
{
    uint8_t text[DATE_ROOM];
    int32_t length = calendar_write_date(day, text, sizeof text);
    if (length == CALENDAR_NONE) {
        const char *words = "%s: the answer is not from -262143-01-01 to +262142-12-31";
        answer_refusal(context, sqlite3_mprintf(words, name_of(context)));
        return;
    }
    sqlite3_result_text(context, (const char *)text, length, SQLITE_TRANSIENT);
}

void answer_moment(sqlite3_context *context, calendar_date_time moment)
{
    uint8_t text[MOMENT_ROOM];
    int32_t length = calendar_write_date_time(moment, text, sizeof text);
    if (length == CALENDAR_NONE) {
        sqlite3_result_null(context);
        return;
    }
    uint8_t *mark = memchr(text, 'T', (size_t)length);
    *mark = ' ';
    sqlite3_result_text(context, (const char *)text, length, SQLITE_TRANSIENT);
}
