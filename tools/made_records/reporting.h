/* Compares the fields of records, and reports differences. */
#include "model.h"
#include <inttypes.h>
#include <stdarg.h>
#include <stdio.h>
#include <stdlib.h>

/* The record that is being checked. */
static enum kind current_kind;
static struct made current;

static void show_units(const char *name, struct units units) {
    size_t at;
    printf(" %s=\"", name);
    for (at = 0; at < units.length; at++) {
        printf(units.at[at] >= 32 && units.at[at] < 127 && units.at[at] != '\\' ? "%c" : "\\u%04x", units.at[at]);
    }
    printf("\"");
}

/* Prints every field of the record that is being checked. */
static void show_current(void) {
    const struct made *m = &current;
    const ixdtf_duration *d = &m->duration;
    if (current_kind == DURATION) {
        printf("has_date=%d years=%" PRIu32 " months=%" PRIu32 " weeks=%" PRIu32 " days=%" PRIu64, d->has_date, d->years, d->months, d->weeks, d->days);
        printf(" time_form=%u hours=%" PRIu64 " minutes=%" PRIu64 " seconds=%" PRIu64, d->time_form, d->hours, d->minutes, d->seconds);
        printf(" fraction=%" PRIu64 " fraction_digits=%u is_negative=%d\n", d->fraction, d->fraction_digits, d->is_negative);
        return;
    }
    printf("date.is_there=%d year=%" PRId32 " month=%u day=%u", m->date.is_there, m->date.year, m->date.month, m->date.day);
    printf(" time.is_there=%d hour=%u minute=%u second=%u", m->time.is_there, m->time.hour, m->time.minute, m->time.second);
    printf(" fraction=%" PRIu64 " fraction_digits=%u", m->time.fraction, m->time.fraction_digits);
    printf(" offset.form=%u is_negative=%d hour=%u", m->offset.form, m->offset.is_negative, m->offset.hour);
    printf(" minute=%u second=%u fraction=%" PRIu64, m->offset.minute, m->offset.second, m->offset.fraction);
    printf(" fraction_digits=%u zone.form=%u is_critical=%d", m->offset.fraction_digits, m->zone.form, m->zone.is_critical);
    printf(" is_negative=%d hour=%u minute=%u", m->zone.is_negative, m->zone.hour, m->zone.minute);
    show_units("name", m->name);
    printf(" has_calendar=%d", m->has_calendar);
    show_units("calendar", m->calendar);
    printf("\n");
}

/* Prints a difference and the record, and ends the program. */
static _Noreturn void differ(const char *format, ...) {
    va_list rest;
    va_start(rest, format);
    printf("difference: ");
    vprintf(format, rest);
    va_end(rest);
    printf("\n%s: ", KIND_NAMES[current_kind]);
    show_current();
    fflush(stdout);
    exit(1);
}

/* Reports a difference if a value of a record is not the one that it must be. */
#define SAME(name, found, wanted) \
    do { \
        if ((found) != (wanted)) { \
            differ("%s: %s is %" PRId64 ", and must be %" PRId64, call, name, (int64_t)(found), (int64_t)(wanted)); \
        } \
    } while (0)

static void check_date(const char *call, const ixdtf_date *found, const ixdtf_date *wanted) {
    SAME("date.is_there", found->is_there, wanted->is_there);
    SAME("date.year", found->year, wanted->year);
    SAME("date.month", found->month, wanted->month);
    SAME("date.day", found->day, wanted->day);
}

static void check_time(const char *call, const ixdtf_time *found, const ixdtf_time *wanted) {
    SAME("time.is_there", found->is_there, wanted->is_there);
    SAME("time.hour", found->hour, wanted->hour);
    SAME("time.minute", found->minute, wanted->minute);
    SAME("time.second", found->second, wanted->second);
    SAME("time.fraction", found->fraction, wanted->fraction);
    SAME("time.fraction_digits", found->fraction_digits, wanted->fraction_digits);
}

static void check_offset(const char *call, const ixdtf_offset *found, const ixdtf_offset *wanted) {
    SAME("offset.form", found->form, wanted->form);
    SAME("offset.is_negative", found->is_negative, wanted->is_negative);
    SAME("offset.hour", found->hour, wanted->hour);
    SAME("offset.minute", found->minute, wanted->minute);
    SAME("offset.second", found->second, wanted->second);
    SAME("offset.fraction", found->fraction, wanted->fraction);
    SAME("offset.fraction_digits", found->fraction_digits, wanted->fraction_digits);
}

static void check_duration(const char *call, const ixdtf_duration *found, const ixdtf_duration *wanted) {
    SAME("has_date", found->has_date, wanted->has_date);
    SAME("years", found->years, wanted->years);
    SAME("months", found->months, wanted->months);
    SAME("weeks", found->weeks, wanted->weeks);
    SAME("days", found->days, wanted->days);
    SAME("time_form", found->time_form, wanted->time_form);
    SAME("hours", found->hours, wanted->hours);
    SAME("minutes", found->minutes, wanted->minutes);
    SAME("seconds", found->seconds, wanted->seconds);
    SAME("fraction", found->fraction, wanted->fraction);
    SAME("fraction_digits", found->fraction_digits, wanted->fraction_digits);
    SAME("is_negative", found->is_negative, wanted->is_negative);
    SAME("location.length", found->location.length, 0u);
    SAME("whether location has a pointer", found->location.at != NULL, true);
    SAME("place", found->place, 0u);
}
