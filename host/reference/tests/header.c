/* Prints every struct and constant of pension.h as the C compiler has them, for
 * header.rs to compare, and makes every call of it on real inputs. Its exit
 * status is 0 only if each call answered as expected. */
#include <stdio.h>
#include <string.h>

#include "pension.h"

/* The calls. With another prototype in the header these are errors. */
static struct pension_quote (*const quote)(const uint8_t *, size_t) = pension_quote;
static struct pension_checked (*const check)(const uint8_t *, size_t, size_t) = pension_check;
static struct pension_filed (*const file)(uint8_t *, size_t, size_t, uint32_t, const uint8_t *,
                                          size_t) = pension_file;
static struct pension_filed_lines (*const file_lines)(uint8_t *, size_t, size_t, uint32_t, const uint8_t *, size_t,
                                                      uint8_t *, size_t) = pension_file_lines;
static size_t (*const file_all)(uint8_t *, size_t, uint32_t, const uint8_t *, size_t, uint8_t *,
                                size_t) = pension_file_all;
static struct pension_found (*const find_number)(const uint8_t *, size_t, size_t, uint32_t) = pension_find_number;
static struct pension_found_member (*const find_member)(const uint8_t *, size_t, size_t,
                                                        uint32_t) = pension_find_member;
static struct pension_commuted (*const trivial_commutation)(uint32_t, uint32_t, uint64_t,
                                                            uint64_t) = pension_trivial_commutation;
static uint32_t (*const date_fault)(uint32_t, uint32_t, uint32_t) = pension_date_fault;
static struct pension_written (*const join)(const uint8_t *, size_t, size_t, const uint8_t *, size_t, size_t,
                                            uint8_t *, size_t) = pension_join;

/* Cases of document 01, by member: the example of the program, a kind 2 pension,
 * and kind 1 with kind 3. */
#define MEMBER_1 "0000000107B2060F07E707010101002DC6C007C9060107E70701000000000000000000"
#define MEMBER_2 "0000000207B2060F07E7070101020030D40007C9060107E70701000A4408E8036803E8"
#define MEMBER_3 "0000000307B0070107E707010201001E848007C9060107E707010009C4000000000000" \
                 "03000DBBA007E6040107E70701000000000000000000"
/* A 1987 pension of 10,000,000 at factor 25 from 6 April 2024, behind which the
 * used part of the allowance may stand. */
#define MEMBER_4 "0000000407B2060F07E8040601010098968007C4060F07E2060F0009C4000000000000"
#define ALL_USED "01995AEC"
#define SOME_USED "00989680"
#define SHORT_LINE "00"
/* What the first case is filed as, behind its number and up to its zeros. */
#define FIGURES_1 "0000000100F1BACB00F1BACB0024426C"
/* Quote numbers: 1, the default first numbers 202,300,001 and 202,400,001 with those
 * after them, and the last. */
#define NUMBER_1 "00000001"
#define FIRST_OF_2023 "0C0EDA61"
#define SECOND_OF_2023 "0C0EDA62"
#define FIRST_OF_2024 "0C106101"
#define SECOND_OF_2024 "0C106102"
#define LAST_NUMBER "FFFFFFFF"

enum { LINE = PENSION_LINE_LENGTH, ROOM = 3 * LINE, UNTOUCHED = 0xEE };

static int failures = 0;

#define EXPECT(condition)                                                           \
    do {                                                                            \
        if (!(condition)) {                                                         \
            fprintf(stderr, "header.c:%d: expected %s\n", __LINE__, #condition);    \
            failures++;                                                             \
        }                                                                           \
    } while (0)

#define STRUCT(name) printf("%s %zu\n", #name, sizeof(struct name))
#define FIELD(name, field)                                                             \
    printf("%s.%s %zu %zu\n", #name, #field, offsetof(struct name, field),             \
           sizeof(((struct name *)0)->field))
#define CONSTANT(name) printf("%s %d\n", #name, (int)(name))

static void print_structs(void)
{
    STRUCT(pension_quote);
    FIELD(pension_quote, refusal);
    FIELD(pension_quote, member);
    FIELD(pension_quote, total);
    FIELD(pension_quote, lump);
    FIELD(pension_quote, remaining);
    FIELD(pension_quote, second);
    STRUCT(pension_checked);
    FIELD(pension_checked, refusal);
    FIELD(pension_checked, offset);
    STRUCT(pension_filed);
    FIELD(pension_filed, refusal);
    FIELD(pension_filed, used);
    STRUCT(pension_filed_lines);
    FIELD(pension_filed_lines, used);
    FIELD(pension_filed_lines, lines);
    STRUCT(pension_found);
    FIELD(pension_found, refusal);
    FIELD(pension_found, offset);
    FIELD(pension_found, length);
    STRUCT(pension_found_member);
    FIELD(pension_found_member, refusal);
    FIELD(pension_found_member, offset);
    FIELD(pension_found_member, length);
    FIELD(pension_found_member, compared);
    STRUCT(pension_commuted);
    FIELD(pension_commuted, refusal);
    FIELD(pension_commuted, lump);
    STRUCT(pension_written);
    FIELD(pension_written, refusal);
    FIELD(pension_written, used);
}

static void print_constants(void)
{
    CONSTANT(PENSION_LINE_LENGTH);
    CONSTANT(PENSION_CASE_LENGTH);
    CONSTANT(PENSION_MOST);
    CONSTANT(PENSION_GRANTED);
    CONSTANT(PENSION_BAD_CHARACTER);
    CONSTANT(PENSION_BAD_LENGTH);
    CONSTANT(PENSION_BAD_DATE);
    CONSTANT(PENSION_BAD_ORDER);
    CONSTANT(PENSION_BAD_AGE);
    CONSTANT(PENSION_UNKNOWN_KIND);
    CONSTANT(PENSION_BAD_TERMS);
    CONSTANT(PENSION_WRONG_AGE);
    CONSTANT(PENSION_NO_FACTOR);
    CONSTANT(PENSION_BAD_AMOUNT);
    CONSTANT(PENSION_BAD_REGISTER);
    CONSTANT(PENSION_NO_SPACE);
    CONSTANT(PENSION_NO_NUMBER);
    CONSTANT(PENSION_ABSENT);
    CONSTANT(PENSION_NOT_COMMUTABLE);
    CONSTANT(PENSION_NOT_JOINABLE);
    CONSTANT(PENSION_TARGET_TOO_SHORT);
    CONSTANT(PENSION_DATE_GOOD);
    CONSTANT(PENSION_DATE_WRONG_DAY);
    CONSTANT(PENSION_DATE_WRONG_MONTH);
    CONSTANT(PENSION_DATE_WRONG_YEAR);
    CONSTANT(PENSION_DATE_PAST_MONTH_END);
}

static struct pension_quote quote_of(const char *line)
{
    return quote((const uint8_t *)line, strlen(line));
}

static struct pension_filed filed(uint8_t *register_bytes, size_t used, uint32_t first_number, const char *line)
{
    return file(register_bytes, ROOM, used, first_number, (const uint8_t *)line, strlen(line));
}

/* Whether a register line begins with these digits. */
static int starts_with(const uint8_t *register_line, const char *digits)
{
    return memcmp(register_line, digits, strlen(digits)) == 0;
}

/* Whether `length` bytes are as memset wrote them. */
static int is_untouched(const uint8_t *bytes, size_t length)
{
    for (size_t k = 0; k < length; k++)
        if (bytes[k] != UNTOUCHED)
            return 0;
    return 1;
}

static void try_quote(void)
{
    struct pension_quote one = quote_of(MEMBER_1);
    EXPECT(one.refusal == PENSION_GRANTED && one.member == 1 && one.total == 0xF1BACB);
    EXPECT(one.lump[0] == 0xF1BACB && one.remaining[0] == 0x24426C && one.second[0] == 0);

    struct pension_quote two = quote_of(MEMBER_2);
    EXPECT(two.refusal == PENSION_GRANTED && two.member == 2 && two.total == 17015192);
    EXPECT(two.lump[0] == 17015192 && two.remaining[0] == 2552279 && two.second[0] == 1701519);

    struct pension_quote three = quote_of(MEMBER_3);
    EXPECT(three.refusal == PENSION_GRANTED && three.member == 3 && three.total == 12500000 + 1382142);
    EXPECT(three.lump[0] == 12500000 && three.remaining[0] == 1500000 && three.second[0] == 0);
    EXPECT(three.lump[1] == 1382142 && three.remaining[1] == 582322 && three.second[1] == 0);
    for (int k = 2; k < PENSION_MOST; k++)
        EXPECT(three.lump[k] == 0 && three.remaining[k] == 0 && three.second[k] == 0);

    struct pension_quote refused = quote_of(SHORT_LINE);
    EXPECT(refused.refusal == PENSION_BAD_LENGTH && refused.member == 0 && refused.total == 0);
}

/* The same case with nothing used, with 10,000,000 used, and with all. */
static void try_allowance(void)
{
    struct pension_quote nothing_used = quote_of(MEMBER_4);
    EXPECT(nothing_used.refusal == PENSION_GRANTED && nothing_used.total == 26827500);
    EXPECT(nothing_used.lump[0] == 26827500 && nothing_used.remaining[0] == 8926900);
    struct pension_quote some_used = quote_of(MEMBER_4 SOME_USED);
    EXPECT(some_used.refusal == PENSION_GRANTED && some_used.total == 16827500);
    EXPECT(some_used.lump[0] == 16827500 && some_used.remaining[0] == 9326900);
    struct pension_quote all_used = quote_of(MEMBER_4 ALL_USED);
    EXPECT(all_used.refusal == PENSION_GRANTED && all_used.member == 4 && all_used.total == 0);
    EXPECT(all_used.lump[0] == 0 && all_used.remaining[0] == 10000000);
}

/* Files members 1, 2 and 1 again, which fills the register. */
static void try_file(uint8_t *register_bytes)
{
    struct pension_filed first = filed(register_bytes, 0, 1, MEMBER_1);
    EXPECT(first.refusal == PENSION_GRANTED && first.used == LINE);
    EXPECT(starts_with(register_bytes, NUMBER_1 FIGURES_1));
    EXPECT(register_bytes[LINE - 1] == '\n');

    struct pension_filed refused = filed(register_bytes, LINE, 1, SHORT_LINE);
    EXPECT(refused.refusal == PENSION_BAD_LENGTH && refused.used == 0);
    EXPECT(is_untouched(register_bytes + LINE, ROOM - LINE));

    struct pension_filed second = filed(register_bytes, LINE, 1, MEMBER_2);
    EXPECT(second.refusal == PENSION_GRANTED && second.used == 2 * LINE);
    struct pension_filed third = filed(register_bytes, 2 * LINE, 1, MEMBER_1);
    EXPECT(third.refusal == PENSION_GRANTED && third.used == 3 * LINE);
    struct pension_filed full = filed(register_bytes, 3 * LINE, 1, MEMBER_3);
    EXPECT(full.refusal == PENSION_NO_SPACE && full.used == 0);
}

/* The default of the first granted case's year, which later first numbers and
 * years leave alone, and the last number, behind which there is none. */
static void try_first_numbers(void)
{
    uint8_t by_year[ROOM], last[ROOM];
    memset(by_year, UNTOUCHED, sizeof by_year);
    memset(last, UNTOUCHED, sizeof last);

    EXPECT(filed(by_year, 0, 77, SHORT_LINE).refusal == PENSION_BAD_LENGTH);
    EXPECT(is_untouched(by_year, ROOM));
    EXPECT(filed(by_year, 0, 0, MEMBER_1).used == LINE);
    EXPECT(starts_with(by_year, FIRST_OF_2023 FIGURES_1));
    EXPECT(filed(by_year, LINE, UINT32_MAX, MEMBER_4).used == 2 * LINE);
    EXPECT(starts_with(by_year + LINE, SECOND_OF_2023));
    EXPECT(find_number(by_year, ROOM, 2 * LINE, 202300002).offset == LINE);
    EXPECT(find_number(by_year, ROOM, 2 * LINE, 1).refusal == PENSION_ABSENT);

    EXPECT(filed(last, 0, UINT32_MAX, MEMBER_1).used == LINE);
    EXPECT(starts_with(last, LAST_NUMBER FIGURES_1));
    struct pension_filed none_left = filed(last, LINE, 1, MEMBER_1);
    EXPECT(none_left.refusal == PENSION_NO_NUMBER && none_left.used == 0);
    EXPECT(is_untouched(last + LINE, ROOM - LINE));
    EXPECT(check(last, ROOM, LINE).refusal == PENSION_GRANTED);
}

static void try_find(const uint8_t *register_bytes)
{
    struct pension_found number = find_number(register_bytes, ROOM, ROOM, 2);
    EXPECT(number.refusal == PENSION_GRANTED && number.offset == LINE && number.length == LINE);
    struct pension_found no_number = find_number(register_bytes, ROOM, ROOM, 4);
    EXPECT(no_number.refusal == PENSION_ABSENT && no_number.offset == 0 && no_number.length == 0);

    struct pension_found_member newest = find_member(register_bytes, ROOM, ROOM, 1);
    EXPECT(newest.refusal == PENSION_GRANTED && newest.offset == 2 * LINE && newest.length == LINE);
    EXPECT(newest.compared == 1);
    struct pension_found_member older = find_member(register_bytes, ROOM, 2 * LINE, 1);
    EXPECT(older.refusal == PENSION_GRANTED && older.offset == 0 && older.length == LINE);
    EXPECT(older.compared == 2);
    struct pension_found_member no_member = find_member(register_bytes, ROOM, ROOM, 3);
    EXPECT(no_member.refusal == PENSION_ABSENT && no_member.offset == 0 && no_member.length == 0);
    EXPECT(no_member.compared == 3);
    struct pension_found_member no_line = find_member(register_bytes, ROOM, 0, 1);
    EXPECT(no_line.refusal == PENSION_ABSENT && no_line.offset == 0 && no_line.length == 0);
    EXPECT(no_line.compared == 0);
}

/* Damages the register's second line. */
static void try_check(uint8_t *register_bytes)
{
    struct pension_checked sound = check(register_bytes, ROOM, ROOM);
    EXPECT(sound.refusal == PENSION_GRANTED && sound.offset == 0);
    struct pension_checked bad_used = check(register_bytes, ROOM, ROOM - 1);
    EXPECT(bad_used.refusal == PENSION_BAD_REGISTER && bad_used.offset == ROOM - 1);

    register_bytes[LINE + 9] = 'g';
    struct pension_checked bad_line = check(register_bytes, ROOM, ROOM);
    EXPECT(bad_line.refusal == PENSION_BAD_REGISTER && bad_line.offset == LINE + 9);
    struct pension_found not_found = find_number(register_bytes, ROOM, ROOM, 1);
    EXPECT(not_found.refusal == PENSION_BAD_REGISTER && not_found.length == 0);
    /* The newest line, which is good, has the member. */
    struct pension_found_member not_looked_for = find_member(register_bytes, ROOM, ROOM, 1);
    EXPECT(not_looked_for.refusal == PENSION_BAD_REGISTER && not_looked_for.offset == 0);
    EXPECT(not_looked_for.length == 0 && not_looked_for.compared == 0);
}

/* The lines of a text, filed one by one, all into an empty register, and behind
 * a first line. */
static void try_texts(void)
{
    static const char text[] = MEMBER_2 "\n" SHORT_LINE "\n" MEMBER_1;
    const uint8_t *lines = (const uint8_t *)text;
    uint8_t one_by_one[ROOM], together[ROOM], refusals[4];
    memset(one_by_one, UNTOUCHED, sizeof one_by_one);
    memset(together, UNTOUCHED, sizeof together);
    memset(refusals, UNTOUCHED, sizeof refusals);
    filed(one_by_one, 0, 1, MEMBER_2);
    filed(one_by_one, LINE, 1, MEMBER_1);

    size_t used = file_all(together, ROOM, 1, lines, strlen(text), refusals, sizeof refusals);
    EXPECT(used == 2 * LINE && memcmp(together, one_by_one, ROOM) == 0);
    EXPECT(refusals[0] == PENSION_GRANTED && refusals[1] == PENSION_BAD_LENGTH);
    EXPECT(refusals[2] == PENSION_GRANTED && refusals[3] == UNTOUCHED);

    memset(refusals, UNTOUCHED, sizeof refusals);
    memset(together + LINE, UNTOUCHED, ROOM - LINE);
    struct pension_filed_lines more = file_lines(together, ROOM, LINE, 77, lines, strlen(text), refusals, 2);
    EXPECT(more.used == 3 * LINE && more.lines == 3);
    EXPECT(starts_with(together + 2 * LINE, "00000003"));
    EXPECT(refusals[0] == PENSION_GRANTED && refusals[1] == PENSION_BAD_LENGTH);
    EXPECT(refusals[2] == UNTOUCHED && refusals[3] == UNTOUCHED);
    EXPECT(check(together, ROOM, more.used).refusal == PENSION_GRANTED);
    struct pension_found_member found = find_member(together, ROOM, more.used, 2);
    EXPECT(found.offset == LINE && found.compared == 2);
}

/* The same first number for every line of a text: the first that is granted sets
 * it, here of 2024, and a case of 2023 goes on from there. */
static void try_first_numbers_of_texts(void)
{
    static const char text[] = SHORT_LINE "\n" MEMBER_4 "\n" MEMBER_1 "\n";
    const uint8_t *lines = (const uint8_t *)text;
    uint8_t at_once[ROOM], behind_none[ROOM];
    memset(at_once, UNTOUCHED, sizeof at_once);
    memset(behind_none, UNTOUCHED, sizeof behind_none);

    EXPECT(file_all(at_once, ROOM, 0, lines, strlen(text), NULL, 0) == 2 * LINE);
    EXPECT(starts_with(at_once, FIRST_OF_2024) && starts_with(at_once + LINE, SECOND_OF_2024));
    EXPECT(file_lines(behind_none, ROOM, 0, 0, lines, strlen(text), NULL, 0).used == 2 * LINE);
    EXPECT(memcmp(at_once, behind_none, ROOM) == 0);

    EXPECT(file_all(at_once, ROOM, UINT32_MAX, lines, strlen(text), NULL, 0) == LINE);
    EXPECT(starts_with(at_once, LAST_NUMBER));
    EXPECT(memcmp(at_once + LINE, behind_none + LINE, ROOM - LINE) == 0);
}

/* Examples 1 and 2 of document 004, the most that can be paid, a sum that ends in
 * tenths, and each argument outside its bounds, the pensions also by 32 bits. */
static void try_trivial_commutation(void)
{
    struct pension_commuted of_1987 = trivial_commutation(1987, 68, 65000, 32500);
    EXPECT(of_1987.refusal == PENSION_GRANTED && of_1987.lump == 1059500);
    struct pension_commuted of_2006 = trivial_commutation(2006, 65, 100000, 50000);
    EXPECT(of_2006.refusal == PENSION_GRANTED && of_2006.lump == 1795000);
    struct pension_commuted of_2015 = trivial_commutation(2015, 60, 50000000, 50000000);
    EXPECT(of_2015.refusal == PENSION_GRANTED && of_2015.lump == 1110000000);
    struct pension_commuted taken_down = trivial_commutation(1987, 68, 1, 1);
    EXPECT(taken_down.refusal == PENSION_GRANTED && taken_down.lump == 17);

    const struct pension_commuted refused[] = {
        trivial_commutation(1988, 68, 65000, 32500),
        trivial_commutation(1987, 59, 65000, 32500),
        trivial_commutation(1987, 100, 65000, 32500),
        trivial_commutation(1987, 68, 0, 32500),
        trivial_commutation(1987, 68, 50000001, 32500),
        trivial_commutation(1987, 68, 65000, 50000001),
        trivial_commutation(1987, 68, (UINT64_C(1) << 32) + 65000, 32500),
        trivial_commutation(1987, 68, 65000, (UINT64_C(1) << 32) + 32500),
        trivial_commutation(UINT32_MAX, UINT32_MAX, UINT64_MAX, UINT64_MAX),
    };
    for (size_t k = 0; k < sizeof refused / sizeof refused[0]; k++)
        EXPECT(refused[k].refusal == PENSION_NOT_COMMUTABLE && refused[k].lump == 0);
}

/* The ends of the calendar, each fault alone, several at once, and numbers that
 * would be good in fewer bits. */
static void try_date_fault(void)
{
    static const struct {
        uint32_t year, month, day;
        enum pension_date_fault fault;
    } dates[] = {
        {1900, 1, 1, PENSION_DATE_GOOD},
        {2000, 2, 29, PENSION_DATE_GOOD},
        {2199, 12, 31, PENSION_DATE_GOOD},
        {2024, 1, 0, PENSION_DATE_WRONG_DAY},
        {2024, 1, 32, PENSION_DATE_WRONG_DAY},
        {2024, 0, 1, PENSION_DATE_WRONG_MONTH},
        {2024, 13, 1, PENSION_DATE_WRONG_MONTH},
        {1899, 12, 31, PENSION_DATE_WRONG_YEAR},
        {2200, 1, 1, PENSION_DATE_WRONG_YEAR},
        {2024, 4, 31, PENSION_DATE_PAST_MONTH_END},
        {1900, 2, 29, PENSION_DATE_PAST_MONTH_END},
        {2200, 13, 32, PENSION_DATE_WRONG_DAY},
        {2200, 13, 31, PENSION_DATE_WRONG_MONTH},
        {2200, 2, 31, PENSION_DATE_WRONG_YEAR},
        {2024, 1, 257, PENSION_DATE_WRONG_DAY},
        {2024, 257, 1, PENSION_DATE_WRONG_MONTH},
        {65536 + 2024, 1, 1, PENSION_DATE_WRONG_YEAR},
        {UINT32_MAX, UINT32_MAX, UINT32_MAX, PENSION_DATE_WRONG_DAY},
    };
    for (size_t k = 0; k < sizeof dates / sizeof dates[0]; k++)
        EXPECT(date_fault(dates[k].year, dates[k].month, dates[k].day) == dates[k].fault);
}

/* Joins two registers of the room of three lines and expects an answer and, where
 * there is a result, its lines, with the rest of the third buffer untouched. */
static void try_join_of(const uint8_t *first, size_t first_used, const uint8_t *second, size_t second_used,
                        size_t target_length, struct pension_written expected, const uint8_t *lines)
{
    uint8_t target[ROOM + 1];
    memset(target, UNTOUCHED, sizeof target);
    struct pension_written joined = join(first, ROOM, first_used, second, ROOM, second_used, target, target_length);
    EXPECT(joined.refusal == expected.refusal && joined.used == expected.used);
    EXPECT(memcmp(target, lines, expected.used) == 0);
    EXPECT(is_untouched(target + expected.used, sizeof target - expected.used));
}

/* Registers with the numbers 7 to 9, with the last two of these, with the last of
 * them, and with 8 for another member: overlapping, touching, empty, with a number
 * between, with unlike lines, bad, and with a third buffer that is too short. */
static void try_join(void)
{
    uint8_t all[ROOM] = {0}, end[ROOM] = {0}, last[ROOM] = {0}, other[ROOM] = {0};
    filed(all, 0, 7, MEMBER_1);
    filed(all, LINE, 7, MEMBER_2);
    filed(all, 2 * LINE, 7, MEMBER_4);
    filed(end, 0, 8, MEMBER_2);
    filed(end, LINE, 8, MEMBER_4);
    filed(last, 0, 9, MEMBER_4);
    filed(other, 0, 8, MEMBER_3);
    const struct pension_written whole = {PENSION_GRANTED, 3 * LINE}, none = {PENSION_GRANTED, 0};
    const struct pension_written bad = {PENSION_BAD_REGISTER, 0}, not_joinable = {PENSION_NOT_JOINABLE, 0};
    const struct pension_written too_short = {PENSION_TARGET_TOO_SHORT, 0};

    try_join_of(all, 2 * LINE, end, 2 * LINE, ROOM, whole, all);
    try_join_of(end, 2 * LINE, all, LINE, ROOM + 1, whole, all);
    try_join_of(other, 0, all, 3 * LINE, ROOM, whole, all);
    try_join_of(all, 0, other, 0, 0, none, all);
    try_join_of(all, 2 * LINE, end, 2 * LINE, ROOM - 1, too_short, all);
    try_join_of(all, LINE, last, LINE, ROOM, not_joinable, all);
    try_join_of(all, 2 * LINE, other, LINE, ROOM, not_joinable, all);
    try_join_of(all, 2 * LINE, other, LINE, 0, not_joinable, all);
    try_join_of(all, 2 * LINE - 1, other, LINE, 0, bad, all);
    try_join_of(other, LINE, all, ROOM + LINE, ROOM, bad, all);
    struct pension_written nothing = join(NULL, 0, 0, NULL, 0, 0, NULL, 0);
    EXPECT(nothing.refusal == PENSION_GRANTED && nothing.used == 0);
}

int main(void)
{
    uint8_t register_bytes[ROOM];
    memset(register_bytes, UNTOUCHED, sizeof register_bytes);

    print_structs();
    print_constants();
    try_quote();
    try_allowance();
    try_file(register_bytes);
    try_first_numbers();
    try_find(register_bytes);
    try_check(register_bytes);
    try_texts();
    try_first_numbers_of_texts();
    try_trivial_commutation();
    try_date_fault();
    try_join();
    return failures != 0;
}
