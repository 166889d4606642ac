/* Dates against a calendar that is counted here, one day after the other, and against the C library's. */
#define _DEFAULT_SOURCE
#include <time.h>

#include "compare.h"
#include "probe.h"
#include "random.h"

#define FIRST 19000101
#define DAYS 401767 /* of the years 1900 to 2999 */
#define SECONDS 86400

typedef struct {
    uint32_t year, month, day, count; /* count: the days from the first of January 1900 */
} calendar;

static const calendar first_day = {1900, 1, 1, 0};

static uint32_t date_of(calendar c)
{
    return c.year * 10000 + c.month * 100 + c.day;
}

static uint32_t month_length(uint32_t year, uint32_t month)
{
    static const uint32_t lengths[] = {31, 28, 31, 30, 31, 30, 31, 31, 30, 31, 30, 31};
    if (month == 2 && year % 4 == 0 && (year % 100 != 0 || year % 400 == 0))
        return 29;
    return lengths[month - 1];
}

static calendar next_day(calendar c)
{
    c.count++;
    if (c.day < month_length(c.year, c.month)) {
        c.day++;
        return c;
    }
    c.day = 1;
    c.month = c.month == 12 ? 1 : c.month + 1;
    c.year += c.month == 1;
    return c;
}

/* The counted day is the C library's, there and back. */
static void compare_c_library(calendar c)
{
    struct tm first = {.tm_year = 0, .tm_mon = 0, .tm_mday = 1}, back;
    struct tm t = {.tm_year = (int)c.year - 1900, .tm_mon = (int)c.month - 1, .tm_mday = (int)c.day};
    time_t seconds = timegm(&t);
    same((uint64_t)(seconds - timegm(&first)), (uint64_t)c.count * SECONDS, "seconds of %" PRIu32 ", counted and by timegm", date_of(c));
    gmtime_r(&seconds, &back);
    calendar theirs = {(uint32_t)back.tm_year + 1900, (uint32_t)back.tm_mon + 1, (uint32_t)back.tm_mday, 0};
    same(date_of(c), date_of(theirs), "%" PRIu32 ", counted and by gmtime_r", date_of(c));
}

static void every_day(void)
{
    uint32_t base = probe_day_number(FIRST);
    same(base > 0, 1, "the day number of %d is above 0", FIRST);
    calendar c = first_day;
    for (; c.year < 3000; c = next_day(c)) {
        uint32_t date = date_of(c);
        same(probe_is_date(date), 1, "%" PRIu32 " is a date", date);
        same(probe_day_number(date), base + c.count, "the day number of %" PRIu32, date);
        compare_c_library(c);
    }
    same(c.count, DAYS, "days of the calendar");
}

static void compare_non_date(uint32_t number)
{
    same(probe_is_date(number), 0, "%" PRIu32 " is a date", number);
    same(probe_day_number(number), 0, "the day number of %" PRIu32, number);
}

static void non_dates(void)
{
    calendar c = first_day;
    for (uint32_t n = 18991200; n <= 30000200; n++)
        if (c.year < 3000 && n == date_of(c))
            c = next_day(c);
        else
            compare_non_date(n);
    same(c.count, DAYS, "days of the calendar that were passed over");
    for (uint32_t n = 0; n <= 20000; n++) {
        compare_non_date(n);
        compare_non_date(UINT32_MAX - n);
    }
    for (int i = 0; i < 1000000; i++)
        compare_non_date(30000200 + (uint32_t)random_below(UINT32_MAX - 30000200));
}

/* Whether a day is one of those that notices are compared on: the ends of the range, leap days and ends of years, others at random. */
static int is_sample(calendar c)
{
    static const uint32_t years[] = {1900, 1904, 1999, 2000, 2023, 2024, 2100, 2400, 2999};
    if (c.count < 105 || c.count >= DAYS - 105)
        return 1;
    for (size_t i = 0; i < sizeof years / sizeof *years; i++)
        if (c.year == years[i] && ((c.month == 2 && c.day >= 27) || (c.month == 3 && c.day <= 2) || (c.month == 12 && c.day == 31)))
            return 1;
    return random_below(DAYS) < 350;
}

/* A number that is no date has the day number 0. */
static void compare_notices(uint32_t today, uint32_t today_number, uint32_t expiry, uint32_t expiry_number)
{
    static const uint32_t large[] = {365, 366, 1000, DAYS - 1, DAYS, 0x7FFFFFFF, 0x80000000, 0xFFFFFFFF};
    int passed = expiry_number < today_number;
    uint32_t days = passed ? today_number - expiry_number : expiry_number - today_number;
    probe_days_left_t left = probe_days_left(today, expiry);
    same(left.passed, (uint64_t)passed, "whether passed, %" PRIu32 " to %" PRIu32, today, expiry);
    same(left.days, days, "days, %" PRIu32 " to %" PRIu32, today, expiry);
    for (uint32_t i = 0; i <= 100 + sizeof large / sizeof *large; i++) {
        uint32_t warning = i <= 100 ? i : large[i - 101];
        uint32_t notice = passed ? 15 : days < warning ? 20 : 0;
        same(probe_notice(0, today, expiry, warning), notice, "notice, %" PRIu32 " to %" PRIu32 ", %" PRIu32 " days", today, expiry, warning);
        same(probe_notice(1, today, expiry, warning), 0, "single purchase, %" PRIu32 " to %" PRIu32 ", %" PRIu32 " days", today, expiry, warning);
    }
}

static void notices(void)
{
    static const uint32_t no_dates[] = {0, 18991231, 19000229, 20240230, 20241301, 30000101, UINT32_MAX};
    static uint32_t dates[2000], numbers[2000];
    size_t count = 0;
    uint32_t base = probe_day_number(FIRST);
    for (; count < sizeof no_dates / sizeof *no_dates; count++)
        dates[count] = no_dates[count];
    for (calendar c = first_day; c.year < 3000 && count < 2000; c = next_day(c))
        if (is_sample(c)) {
            dates[count] = date_of(c);
            numbers[count++] = base + c.count;
        }
    same(dates[count - 1], 29991231, "the last day of the sample");
    for (size_t i = 0; i < count; i++)
        for (size_t j = 0; j < count; j++)
            compare_notices(dates[i], numbers[i], dates[j], numbers[j]);
}

int main(int argc, char **argv)
{
    static const subject subjects[] = {
        {"dates-calendar", every_day},
        {"dates-non-dates", non_dates},
        {"dates-notices", notices},
    };
    seed_random();
    return run_subjects(subjects, sizeof subjects / sizeof *subjects, argc, argv);
}
