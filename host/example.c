/* Tells what is wrong with keyed dates, quotes a case, and one that the lump sum
 * allowance cuts, commutes two small pensions, files both cases with two others,
 * with numbers from 1 and with numbers that tell the year, finds lines again by
 * number and by member, joins lines of the register as two offices may have them,
 * and prints it all: money in pounds and pence, how many lines were compared to find
 * a member, and what joining came to. */
#include <inttypes.h>
#include <stdio.h>
#include <string.h>

#include "pension.h"

/* Dates as a clerk may key them, and what is wrong with each: nothing; April has 30
 * days; day and month are both wrong, and the day is told; day and month stand in
 * each other's place; the year has two digits. */
static const struct keyed_date {
    uint32_t day, month, year;
    enum pension_date_fault fault;
} keyed_dates[] = {
    {29, 2, 2024, PENSION_DATE_GOOD},
    {31, 4, 2024, PENSION_DATE_PAST_MONTH_END},
    {32, 13, 2024, PENSION_DATE_WRONG_DAY},
    {4, 15, 2024, PENSION_DATE_WRONG_MONTH},
    {15, 4, 24, PENSION_DATE_WRONG_YEAR},
};

enum { KEYED_DATES = sizeof keyed_dates / sizeof keyed_dates[0] };

/* Cases of members 1 to 4. The first is a 1987 pension of £30,000.00 a year, taken
 * at 53 years and 16 days. The last is one of £100,000.00 taken on 6 April 2024, and
 * its line ends with £168,275.00 already used of the allowance of £268,275.00. */
static const char *const case_lines[] = {
    "0000000107B2060F07E707010101002DC6C007C9060107E70701000000000000000000",
    "0000000207B2060F07E7070101020030D40007C9060107E70701000A4408E8036803E8",
    "0000000307B2060F07E707010101001E848007C9060107E70701000000000000000000",
    "0000000407B2060F07E8040601010098968007C9060107E707010000000000000000000100C46C",
};

enum { CASES = sizeof case_lines / sizeof case_lines[0] };

/* What the last case has left of the allowance, in pence. */
enum { ALLOWANCE_LEFT = 10000000 };

/* The first number that stands for the default, and what the default is for the
 * first case, which commences in 2023. */
enum { BY_YEAR = 0, FIRST_OF_2023 = 2023 * 100000 + 1 };

static uint8_t register_bytes[100 * PENSION_LINE_LENGTH];

static void print_amount(const char *what, uint64_t pence)
{
    printf("  %-20s %10" PRIu64 ".%02" PRIu64 "\n", what, pence / 100, pence % 100);
}

/* What to tell the clerk about a date. */
static const char *fault_in_words(uint32_t fault)
{
    switch (fault) {
    case PENSION_DATE_GOOD:
        return "a date of the calendar";
    case PENSION_DATE_WRONG_DAY:
        return "the day is not 1 to 31";
    case PENSION_DATE_WRONG_MONTH:
        return "the month is not 1 to 12";
    case PENSION_DATE_WRONG_YEAR:
        return "the year is not 1900 to 2199";
    case PENSION_DATE_PAST_MONTH_END:
        return "the month has fewer days";
    default:
        return "no such fault";
    }
}

/* Prints what is wrong with every keyed date. Gives 0 if a date has another fault
 * than expected. */
static int print_keyed_dates(void)
{
    int as_expected = 1;
    printf("keyed dates, day/month/year\n");
    for (int k = 0; k < KEYED_DATES; k++) {
        struct keyed_date date = keyed_dates[k];
        uint32_t fault = pension_date_fault(date.year, date.month, date.day);
        printf("  %02" PRIu32 "/%02" PRIu32 "/%-4" PRIu32 "  %s\n",
               date.day, date.month, date.year, fault_in_words(fault));
        if (fault != date.fault)
            as_expected = 0;
    }
    return as_expected;
}

/* Quotes a case, prints the figures and gives the total, or 0 if it is refused. */
static uint64_t print_quote(const char *case_line)
{
    struct pension_quote quote = pension_quote((const uint8_t *)case_line, strlen(case_line));
    if (quote.refusal != PENSION_GRANTED) {
        printf("refused with %" PRIu32 "\n", quote.refusal);
        return 0;
    }
    printf("quote for member %" PRIu32 ", in pounds\n", quote.member);
    print_amount("total lump sum", quote.total);
    for (int k = 0; k < PENSION_MOST; k++) {
        if (quote.lump[k] == 0 && quote.remaining[k] == 0)
            continue;
        printf("  pension %d\n", k + 1);
        print_amount("  lump sum", quote.lump[k]);
        print_amount("  remaining a year", quote.remaining[k]);
        print_amount("  second instalment", quote.second[k]);
    }
    return quote.total;
}

/* Commutes a small pension, given the member's and the survivor's in pence a year,
 * and prints the lump sum, or that there is none. */
static struct pension_commuted print_commuted(uint32_t scheme, uint32_t age,
                                              uint64_t member_pension, uint64_t survivor_pension)
{
    struct pension_commuted commuted =
        pension_trivial_commutation(scheme, age, member_pension, survivor_pension);
    printf("small pension of the %" PRIu32 " scheme at %" PRIu32 ", in pounds\n", scheme, age);
    print_amount("member a year", member_pension);
    print_amount("survivor a year", survivor_pension);
    if (commuted.refusal != PENSION_GRANTED)
        printf("  refused with %" PRIu32 "\n", commuted.refusal);
    else
        print_amount("lump sum", commuted.lump);
    return commuted;
}

/* Files every case into an empty register, whose bytes may be any, and gives the
 * used length, or 0 if one is refused. Only the first filing sets a number: the
 * others find a register that has lines. */
static size_t file_cases(uint32_t first_number)
{
    size_t used = 0;
    for (int k = 0; k < CASES; k++) {
        struct pension_filed filed = pension_file(register_bytes, sizeof register_bytes, used, first_number,
                                                  (const uint8_t *)case_lines[k], strlen(case_lines[k]));
        if (filed.refusal != PENSION_GRANTED) {
            printf("not filed: refused with %" PRIu32 "\n", filed.refusal);
            return 0;
        }
        used = filed.used;
    }
    return used;
}

/* Prints the line that was found, or why there is none. */
static void print_found(const char *by, uint32_t wanted, struct pension_found found)
{
    if (found.refusal != PENSION_GRANTED) {
        printf("not found by %s %" PRIu32 ": refused with %" PRIu32 "\n", by, wanted, found.refusal);
        return;
    }
    printf("found by %s %" PRIu32 " at offset %zu:\n", by, wanted, found.offset);
    fwrite(register_bytes + found.offset, 1, found.length, stdout);
}

/* Finds a number and gives the refusal. */
static uint32_t find_number(size_t used, uint32_t number)
{
    struct pension_found found = pension_find_number(register_bytes, sizeof register_bytes, used, number);
    print_found("number", number, found);
    return found.refusal;
}

/* Finds a member's newest line, says how many lines were compared, and gives the refusal. */
static uint32_t find_member(size_t used, uint32_t member)
{
    struct pension_found_member found =
        pension_find_member(register_bytes, sizeof register_bytes, used, member);
    print_found("member", member, (struct pension_found){found.refusal, found.offset, found.length});
    printf("  lines compared: %zu of %zu\n", found.compared, used / PENSION_LINE_LENGTH);
    return found.refusal;
}

/* Joins the register's first lines, as one office has them, with its last, as
 * another has, into a buffer with room for so many lines. Gives 0 if the answer is
 * another than expected, or the result another than the whole register. */
static int join_offices(size_t used, size_t first_lines, size_t second_lines, size_t room, uint32_t expected)
{
    static uint8_t joined_bytes[sizeof register_bytes];
    size_t first_used = first_lines * PENSION_LINE_LENGTH, second_used = second_lines * PENSION_LINE_LENGTH;
    const uint8_t *second = register_bytes + used - second_used;
    struct pension_written joined =
        pension_join(register_bytes, first_used, first_used, second, second_used, second_used,
                     joined_bytes, room * PENSION_LINE_LENGTH);
    printf("joined the first %zu of the lines and the last %zu, with room for %zu: ",
           first_lines, second_lines, room);
    if (joined.refusal != PENSION_GRANTED) {
        printf("refused with %" PRIu32 "\n", joined.refusal);
        return joined.refusal == expected;
    }
    printf("%zu lines\n", joined.used / PENSION_LINE_LENGTH);
    return expected == PENSION_GRANTED && joined.used == used && memcmp(joined_bytes, register_bytes, used) == 0;
}

int main(void)
{
    if (!print_keyed_dates())
        return 1;

    if (print_quote(case_lines[0]) == 0)
        return 1;

    /* The rest of the allowance is less than the pension could give. */
    if (print_quote(case_lines[CASES - 1]) != ALLOWANCE_LEFT)
        return 1;

    /* Examples 1 and 2 of the actuary's guidance, and an age that has no factors. */
    if (print_commuted(1987, 68, 65000, 32500).lump != 1059500
        || print_commuted(2006, 65, 100000, 50000).lump != 1795000
        || print_commuted(2015, 59, 100000, 50000).refusal != PENSION_NOT_COMMUTABLE)
        return 1;

    /* With numbers from 1. */
    if (find_number(file_cases(1), CASES) != PENSION_GRANTED)
        return 1;

    /* With numbers that tell the year. The last case commences in 2024, and its line
     * goes on from the others. */
    size_t used = file_cases(BY_YEAR);
    if (find_number(used, FIRST_OF_2023) != PENSION_GRANTED
        || find_number(used, FIRST_OF_2023 + CASES - 1) != PENSION_GRANTED
        || find_number(used, 1) != PENSION_ABSENT)
        return 1;

    /* Member 4 has the newest line and member 1 the oldest; 5 has none. */
    if (find_member(used, 4) != PENSION_GRANTED
        || find_member(used, 1) != PENSION_GRANTED
        || find_member(used, 5) != PENSION_ABSENT)
        return 1;

    /* Two offices have lines of this register: in common, touching, with one missing
     * between, and with no room for the last. */
    return !join_offices(used, CASES - 1, CASES - 1, CASES, PENSION_GRANTED)
        || !join_offices(used, 1, CASES - 1, CASES, PENSION_GRANTED)
        || !join_offices(used, 1, CASES - 2, CASES, PENSION_NOT_JOINABLE)
        || !join_offices(used, CASES - 1, CASES - 1, CASES - 1, PENSION_TARGET_TOO_SHORT)
        || fflush(stdout) != 0 || ferror(stdout);
}
