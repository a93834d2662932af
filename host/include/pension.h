/*
 * pension.h - the retirement quotation engine for police pensions, for C.
 *
 * Link with libpension.a, which `make -C host archive` writes to target/staticlib/.
 *
 * Case lines. A case line is uppercase hexadecimal digits: 26 for the case and 44
 * for each of its pensions. It may end with 8 more: the pence already used of the
 * lump sum allowance; without them nothing is used. For a commencement on or after
 * 6 April 2024 the lump sums total at most 26,827,500 less what was used, or 0 if
 * more was used; second instalments do not count. Earlier commencements have no
 * such limit and ignore the amount.
 *
 * Small pensions. pension_trivial_commutation gives the lump sum for the whole of a
 * former officer's small pension. It stands beside the quotes: it takes numbers
 * alone, no case line and no register, and the allowance does not limit it.
 *
 * Keyed dates. pension_date_fault tells the first thing that is wrong with a date,
 * so that a host can tell the clerk who keyed it before there is a case line. A
 * case line with a wrong date is refused with PENSION_BAD_DATE whichever fault the
 * date has, unless PENSION_BAD_CHARACTER or PENSION_BAD_LENGTH, which are lower,
 * applies too.
 *
 * Quote numbers. In an empty register (used length 0, whatever its bytes) the line
 * filed gets the first number that the call gives. 0 stands for the default, by
 * which the numbers tell the year in which the register's first case commences:
 * that year times 100,000, plus 1. A host whose numbers start at 1 gives 1. A
 * register that has lines goes on from its last number by one, past the end of a
 * year's numbers too, and the first number is not looked at, whatever it is; so the
 * same may be given with every filing. A refused filing sets nothing. FFFFFFFF is a
 * number too, and the last: the filing after it gets PENSION_NO_NUMBER.
 *
 * Joined registers. pension_join makes one register of two whose numbers overlap
 * or touch, as two offices have them that share a run of numbers: every number from
 * the lower first to the higher last stands in it once, and its lines are those of
 * the two. Neither is changed, and it does not matter which is given first. A
 * register without lines (used length 0) adds nothing.
 *
 * What the engine is lent. Every pointer is lent for the length of the call
 * alone; nothing is kept afterwards. Each pointer must have its length in bytes
 * behind it, and may be NULL where that is 0. Buffers of one call must not
 * overlap where one of them is written. Beyond that no argument is an error of
 * the caller: every number and every byte gets its answer or its refusal.
 *
 * What is written. pension_file, pension_file_lines and pension_file_all write
 * register lines behind the used part and no other byte of the register; the
 * last two also write a byte for each line into `refusals`. pension_join writes
 * its result at the start of `target` and no other byte. No other call writes
 * anything.
 *
 * What a refusal leaves. All figures of the answer are 0 (but the offset that
 * pension_check gives with PENSION_BAD_REGISTER, and the count of lines that
 * pension_find_member gives with PENSION_ABSENT), and no byte of the register,
 * or of the target, is written. The lowest refusal that applies is given.
 *
 * Threads. The engine has no state of its own and allocates nothing: calls may
 * run at the same time in any number of threads, as long as no other call
 * touches a buffer while one writes it. The stack it needs is a few kilobytes.
 *
 * Money is in whole pence. The age, service and early payment period of a case
 * are in complete months: a month is complete on the day of the month on which it
 * began, and on the last day of a month that is too short to have it.
 */
#ifndef PENSION_H
#define PENSION_H

#include <stddef.h>
#include <stdint.h>

#ifdef __cplusplus
extern "C" {
#endif

/* A register line with its newline, in bytes. */
#define PENSION_LINE_LENGTH 121

/* The longest case line, in characters, its newline not counted: of four pensions
 * and with the used part of the allowance. */
#define PENSION_CASE_LENGTH 210

/* The most pensions a case has. */
#define PENSION_MOST 4

/* The refusals, lowest first: of the case line, of the register, of finding, of
 * trivial commutation, of joining. */
enum pension_refusal {
    PENSION_GRANTED = 0,         /* no refusal */
    PENSION_BAD_CHARACTER = 1,   /* a character is not 0-9 or A-F */
    PENSION_BAD_LENGTH = 2,      /* not 70, 78, 114, 122, 158, 166, 202 or 210 characters, or the
                                    count of pensions disagrees */
    PENSION_BAD_DATE = 3,        /* a date is not in the calendar, 1900 to 2199 */
    PENSION_BAD_ORDER = 4,       /* not birth < start <= end <= commencement */
    PENSION_BAD_AGE = 5,         /* age outside 216 to 1,199 months */
    PENSION_UNKNOWN_KIND = 6,    /* a kind is not 1, 2 or 3 */
    PENSION_BAD_TERMS = 7,       /* a factor, the pension increase or the flag is outside its list */
    PENSION_WRONG_AGE = 8,       /* kind 2 at 660 months or more, or kind 3 below */
    PENSION_NO_FACTOR = 9,       /* kind 1 or 2 without F1, and no age of document 001's Table 1 */
    PENSION_BAD_AMOUNT = 10,     /* a stated pension is 0, or all are above 50,000,000 together */
    PENSION_BAD_REGISTER = 11,   /* the used length, or a line of the register, is bad */
    PENSION_NO_SPACE = 12,       /* fewer bytes free than a line has */
    PENSION_NO_NUMBER = 13,      /* the last number is FFFFFFFF */
    PENSION_ABSENT = 14,         /* no line has the number, or the member */
    PENSION_NOT_COMMUTABLE = 15, /* the scheme, the age or a pension is outside what trivial commutation takes */
    PENSION_NOT_JOINABLE = 16,   /* a number of both registers has unlike lines, or a number between is in neither */
    PENSION_TARGET_TOO_SHORT = 17 /* the buffer is shorter than the joined register */
};

/* The faults of a date, in the order in which they are tested. They are not
 * refusals, and the same numbers mean other things there. */
enum pension_date_fault {
    PENSION_DATE_GOOD = 0,          /* no fault: a date of the calendar */
    PENSION_DATE_WRONG_DAY = 1,     /* the day is not 1 to 31 */
    PENSION_DATE_WRONG_MONTH = 2,   /* the month is not 1 to 12 */
    PENSION_DATE_WRONG_YEAR = 3,    /* the year is not 1900 to 2199 */
    PENSION_DATE_PAST_MONTH_END = 4 /* the month has fewer days in that year */
};

/* A quote. The figures of pension k of the case, counted from 0, are at place
 * k; unused places are 0. `second` is the second instalment, which pensions of kind 2 have. */
struct pension_quote {
    uint32_t refusal; /* 0 to 10 */
    uint32_t member;
    uint64_t total; /* the lump sums together */
    uint64_t lump[PENSION_MOST];
    uint64_t remaining[PENSION_MOST]; /* what remains of the pension, a year */
    uint64_t second[PENSION_MOST];
};

/* The check of a register. */
struct pension_checked {
    uint32_t refusal; /* 0 or 11 */
    size_t offset;    /* with 11: the offset of the first bad character, or the bad used length */
};

/* A filing. */
struct pension_filed {
    uint32_t refusal; /* 0 to 13 */
    size_t used;      /* with 0: the register's used length from now on */
};

/* Filings of the lines of a text. */
struct pension_filed_lines {
    size_t used;  /* the register's used length from now on */
    size_t lines; /* how many lines the text had */
};

/* A line found: its bytes are register[offset] to register[offset + length - 1]. */
struct pension_found {
    uint32_t refusal; /* 0, 11 or 14 */
    size_t offset;
    size_t length; /* PENSION_LINE_LENGTH; 0 under a refusal */
};

/* A member's newest line found: its place as in pension_found, and how many
 * lines of the register were compared, starting from the newest. Lines that only
 * the check looks at do not count. */
struct pension_found_member {
    uint32_t refusal; /* 0, 11 or 14 */
    size_t offset;
    size_t length;   /* PENSION_LINE_LENGTH; 0 under a refusal */
    size_t compared; /* one more than the number of newer lines; with 14: all lines; with 11: 0 */
};

/* The trivial commutation of a small pension. */
struct pension_commuted {
    uint32_t refusal; /* 0 or 15 */
    uint64_t lump;    /* with 0: the lump sum */
};

/* A register that was written into a buffer, at its start. */
struct pension_written {
    uint32_t refusal; /* 0, 11, 16 or 17 */
    size_t used;      /* with 0: the used length of the register that was written */
};

/* The quote of a case line (its newline left out). Refusals 1 to 10. */
struct pension_quote pension_quote(const uint8_t *line, size_t line_length);

/* The check of the first `used` bytes of a register of `register_length`
 * bytes. Refusal 11. A used length of 0 is sound whatever the bytes. */
struct pension_checked pension_check(const uint8_t *register_bytes, size_t register_length, size_t used);

/* Files a case line: its register line is written behind the used part, with
 * `first_number`, or the default for 0, as its number in an empty register and
 * with the last number plus one in any other. Refusals 1 to 13. The whole used
 * part is checked for each accepted case; for many lines use pension_file_lines,
 * which checks it once. */
struct pension_filed pension_file(uint8_t *register_bytes, size_t register_length, size_t used,
                                  uint32_t first_number, const uint8_t *line, size_t line_length);

/* Files the lines of a text one after the other, each as pension_file does with
 * the same `first_number`. A newline (LF) ends a line, and the last line may lack
 * it. refusals[k] is the refusal of line k, counted from 0, as far as there is
 * room; the other bytes of `refusals` stay. */
struct pension_filed_lines pension_file_lines(uint8_t *register_bytes, size_t register_length, size_t used,
                                              uint32_t first_number,
                                              const uint8_t *lines, size_t lines_length,
                                              uint8_t *refusals, size_t refusals_length);

/* The same into an empty register (used length 0, whatever its bytes): the first
 * line that is granted gets `first_number`, or for 0 the default of its own case,
 * and the kth granted one that plus k less one. Returns the used length. */
size_t pension_file_all(uint8_t *register_bytes, size_t register_length,
                        uint32_t first_number,
                        const uint8_t *lines, size_t lines_length,
                        uint8_t *refusals, size_t refusals_length);

/* The line with a quote number. Refusals 11 and 14. */
struct pension_found pension_find_number(const uint8_t *register_bytes, size_t register_length, size_t used,
                                         uint32_t number);

/* A member's newest line. Refusals 11 and 14. The whole used part is checked
 * before any line is compared. */
struct pension_found_member pension_find_member(const uint8_t *register_bytes, size_t register_length,
                                                size_t used, uint32_t member);

/* Joins two registers into a third buffer, `target`. The result stands at its
 * start: each number from the lower first to the higher last once, with the line
 * that it has in either register; lines with a number of both must be equal in
 * every character. Bytes of the target past the result stay. Registers of which
 * one begins with the number after the other's last are joined; a register joined
 * with an empty one, or with itself, gives itself; two empty ones give used length
 * 0, whatever the target. Refusals 11, 16 and 17, in this order: both used parts
 * are checked whole first. Under each of them the target is not touched. A target
 * as long as both used parts together is always long enough. Either register may
 * lie in the other's bytes, but not in the target's. */
struct pension_written pension_join(const uint8_t *first, size_t first_length, size_t first_used,
                                    const uint8_t *second, size_t second_length, size_t second_used,
                                    uint8_t *target, size_t target_length);

/* The trivial commutation of a former officer's small pension in payment: the
 * member's pension times its factor plus the survivor's pension times its factor,
 * the sum taken down to the penny once. The factors are those of the age in the
 * actuary's tables for small pensions: Table 1 of document 004 for the 1987
 * scheme, Table 2 for the others. Nothing is written, and no register is involved.
 * Whether the law lets a pension of that size be commuted so is for the caller to
 * know. Refusal 15.
 *
 * scheme            the year of the member's scheme: 1987, 2006 or 2015
 * age               the member's age in completed years, 60 to 99
 * member_pension    the total pension in payment to the member, after any
 *                   commutation for a lump sum, in pence a year, 1 to 50,000,000
 * survivor_pension  what a survivor would be paid if the member died that day,
 *                   whether or not the member has a dependant, in pence a year,
 *                   0 to 50,000,000
 *
 * Any other value of one of them is refused; none is cut to fewer bits. */
struct pension_commuted pension_trivial_commutation(uint32_t scheme, uint32_t age,
                                                    uint64_t member_pension, uint64_t survivor_pension);

/* The fault of a date: PENSION_DATE_GOOD for a date of the Gregorian calendar,
 * 1900 to 2199, or the first that applies in the order of enum
 * pension_date_fault: the day against 1 to 31, whatever the month, then the month,
 * then the year, and last the day against the length of that month in that year.
 * Any three numbers of 32 bits are taken, and none is cut to fewer: day 257 is a
 * wrong day. This is an answer and not a refusal. */
uint32_t pension_date_fault(uint32_t year, uint32_t month, uint32_t day);

#ifdef __cplusplus
}
#endif

#endif
