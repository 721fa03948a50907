/* The twenty-two calls from C: the layout of the answers, the cases of document 01, wrong and unread cells at once, oblong
   marks and strips beside them, doubts in 250ths, plans widened, seasons by date, the three reasons, masks, sets of photographs,
   and the refusals at empty buffers. */
#include <stdio.h>
#include <stdlib.h>
#include <string.h>

#include "traymark.h"

_Static_assert(sizeof(traymark_reading) == 24, "six numbers of four bytes");
_Static_assert(offsetof(traymark_reading, number) == 0, "number");
_Static_assert(offsetof(traymark_reading, cost) == 4, "cost");
_Static_assert(offsetof(traymark_reading, margin) == 8, "margin");
_Static_assert(offsetof(traymark_reading, changed) == 12, "changed");
_Static_assert(offsetof(traymark_reading, unread) == 16, "unread");
_Static_assert(offsetof(traymark_reading, class_) == 20, "class_");

_Static_assert(sizeof(traymark_reason) == 16, "four numbers of four bytes");
_Static_assert(offsetof(traymark_reason, number) == 0, "number");
_Static_assert(offsetof(traymark_reason, reason) == 4, "reason");
_Static_assert(offsetof(traymark_reason, place) == 8, "place");
_Static_assert(offsetof(traymark_reason, excess) == 12, "excess");

_Static_assert(TRAYMARK_SET_SIZE == 40 + 9 + 9 * 256, "a plan, nine flags, nine times 256 symbols");
_Static_assert(sizeof(traymark_set) == TRAYMARK_SET_SIZE, "its bytes and no others");
_Static_assert(_Alignof(traymark_set) == 1, "anywhere");

/* The calls once more, by their types: a header that declares another one doesn't compile. */
typedef const uint8_t *in;
uint32_t traymark_check_plan(in, size_t);
uint32_t traymark_find_plan(in, size_t, uint16_t, size_t *);
uint32_t traymark_find_season(in, size_t, uint32_t, uint32_t, uint32_t, uint16_t *);
uint32_t traymark_widen_plans(in, size_t, uint8_t *, size_t);
uint32_t traymark_write_mark(in, size_t, in, size_t, uint8_t *, size_t);
uint32_t traymark_write_strip(in, size_t, in, size_t, uint8_t *, size_t);
traymark_reading traymark_measure_mark(in, size_t, in, size_t, in, size_t, in, size_t);
traymark_reading traymark_measure_strip(in, size_t, in, size_t, in, size_t, in, size_t);
traymark_reading traymark_read_mark(in, size_t, in, size_t, in, size_t, uint8_t *, size_t);
traymark_reading traymark_read_strip(in, size_t, in, size_t, in, size_t, uint8_t *, size_t);
traymark_reason traymark_explain_mark(in, size_t, in, size_t, in, size_t, in, size_t, uint8_t *, size_t);
traymark_reason traymark_explain_strip(in, size_t, in, size_t, in, size_t, in, size_t, uint8_t *, size_t);
uint32_t traymark_mask_mark(in, size_t, in, size_t, uint8_t *, size_t);
uint32_t traymark_unmask_mark(in, size_t, in, size_t, uint8_t *, size_t);
uint32_t traymark_mask_strip(in, size_t, in, size_t, uint8_t *, size_t);
uint32_t traymark_unmask_strip(in, size_t, in, size_t, uint8_t *, size_t);
size_t traymark_set_size(void);
uint32_t traymark_set_start(traymark_set *, in, size_t);
uint32_t traymark_set_add(traymark_set *, uint32_t, in, size_t, in, size_t);
uint32_t traymark_set_withdraw(traymark_set *, uint32_t);
uint32_t traymark_set_combine(const traymark_set *, uint8_t *, size_t, uint8_t *, size_t);
traymark_reading traymark_set_read(const traymark_set *, uint8_t *, size_t);

static int tests;

static void expect(int holds, const char *what, int line)
{
    tests++;
    if (!holds) {
        printf("calls.c:%d: FAILED: %s\n", line, what);
        exit(1);
    }
}

#define EXPECT(condition) expect((condition), #condition, __LINE__)

/* a byte string with its length, as a call takes it; a whole array */
#define ALL(array) (array), sizeof(array)
#define NINES {9, 9, 9, 9, 9, 9, 9, 9, 9}

/* season, p, rows, columns, d, row points; the column points from byte 22 on */
static const uint8_t plan_a[40] = {0, 12, 7, 3, 3, 1, 1, 2, 4, [22] = 1, 2, 4};
static const uint8_t plan_h[40] = {0, 12, 2, 1, 1, 0, 0};
static const uint8_t plan_j[40] = {0, 12, 2, 2, 2, 1, 0, 1, [22] = 0, 1};
static const uint8_t record_a[3] = {3, 1, 2};
static const uint8_t mark_a[9] = {6, 1, 5, 0, 2, 6, 2, 4, 1};
static const uint8_t case_c[9] = {0, 1, 5, 0, 2, 6, 2, 4, 0};
static const uint8_t case_d[9] = {0, 0, 0, 0, 2, 6, 2, 4, 1};
static const uint8_t sure[9] = {0};

/* a cell wrong and a cell unread at once, of the mark and, under a plan of degree 0, of the strip 5 5 5 */
static const uint8_t mixed[9] = {0, 255, 5, 0, 2, 6, 2, 4, 1}, mixed_doubts[9] = {0, 100};
static const uint8_t plan_s[40] = {0, 12, 7, 3, 3, 0, 1, 2, 4, [22] = 1, 2, 4}, record_s[1] = {5};
static const uint8_t mixed_s[3] = {5, 255, 4}, mixed_s_doubts[3] = {0, 100, 1};

/* plan W has more columns than rows, plan T, a half tray, more rows: the marks of 3 + X + 2Y and the strips of 3 + X */
static const uint8_t plan_w[40] = {0, 12, 7, 2, 3, 1, 1, 3, [22] = 0, 2, 5};
static const uint8_t mark_w[6] = {4, 1, 0, 6, 3, 2}, strip_w[2] = {4, 6};
static const uint8_t plan_t[40] = {0, 12, 7, 3, 2, 1, 0, 2, 5, [22] = 1, 3};
static const uint8_t mark_t[6] = {5, 2, 0, 4, 3, 0}, strip_t[3] = {3, 5, 1};

static int is(traymark_reading r, uint32_t cost, int32_t margin, uint32_t changed, uint32_t unread, uint32_t class_)
{
    return r.number == 0 && r.cost == cost && r.margin == margin && r.changed == changed && r.unread == unread
           && r.class_ == class_;
}

static int refused(traymark_reading r, uint32_t number)
{
    return r.number == number && r.cost == 0 && r.margin == 0 && r.changed == 0 && r.unread == 0 && r.class_ == 0;
}

/* reads a photograph under plan A, or plan A of another season, into a record of 9s, and says whether it is the record of
   case a, or still the 9s */
static traymark_reading read_by(const uint8_t plan[40], const uint8_t symbols[9], const uint8_t doubts[9])
{
    uint8_t record[3] = {9, 9, 9};
    traymark_reading r = traymark_read_mark(plan, 40, symbols, 9, doubts, 9, ALL(record));
    EXPECT(memcmp(record, r.number == 0 ? record_a : (const uint8_t[3]){9, 9, 9}, 3) == 0);
    return r;
}

static traymark_reading read_a(const uint8_t symbols[9], const uint8_t doubts[9])
{
    return read_by(plan_a, symbols, doubts);
}

static void check_plan(void)
{
    uint8_t plan[40];
    memcpy(plan, plan_t, 40);
    EXPECT(traymark_check_plan(ALL(plan_a)) == 0);
    EXPECT(traymark_check_plan(ALL(plan_w)) == 0);
    EXPECT(traymark_check_plan(ALL(plan)) == 0);
    EXPECT(traymark_check_plan(plan, 39) == 1);
    EXPECT(traymark_check_plan(plan, 0) == 1);
    plan[2] = 9;
    EXPECT(traymark_check_plan(ALL(plan)) == 2);
    plan[2] = 7, plan[3] = 8, plan[4] = 0;
    EXPECT(traymark_check_plan(ALL(plan)) == 3);
    plan[3] = 3;
    EXPECT(traymark_check_plan(ALL(plan)) == 13);
    plan[4] = 2, plan[5] = 2;
    EXPECT(traymark_check_plan(ALL(plan)) == 4);
    plan[5] = 1, plan[7] = 0;
    EXPECT(traymark_check_plan(ALL(plan)) == 5);
    plan[7] = 2, plan[23] = 1;
    EXPECT(traymark_check_plan(ALL(plan)) == 5);
    plan[39] = 1;
    EXPECT(traymark_check_plan(ALL(plan)) == 1);
}

/* the number, with the offset that is always written beside it */
static int finds(in file, size_t length, uint16_t season, uint32_t number, size_t place)
{
    size_t offset = 77;
    return traymark_find_plan(file, length, season, &offset) == number && offset == place;
}

static void find_plan(void)
{
    /* plans of the seasons 30, 12 with p 9, 12 * 256, 12 */
    uint8_t file[160] = {0, 30};
    memcpy(file + 40, plan_a, 40);
    file[42] = 9;
    file[80] = 12;
    memcpy(file + 120, plan_a, 40);
    EXPECT(finds(ALL(file), 12, 0, 40));
    EXPECT(finds(file + 80, 80, 12, 0, 40));
    EXPECT(finds(ALL(file), 30, 0, 0));
    EXPECT(finds(ALL(file), 12 * 256, 0, 80));
    EXPECT(finds(ALL(file), 13, 12, 0));
    EXPECT(finds(file, 159, 12, 11, 0));
    EXPECT(finds(file, 0, 12, 12, 0));
}

/* the number, with the season that is always written beside it, and nothing around that */
static int dates(in file, size_t length, const uint32_t date[3], uint32_t number, uint16_t season)
{
    uint16_t found[3] = {0x7777, 0x8888, 0x9999};
    return traymark_find_season(file, length, date[0], date[1], date[2], found + 1) == number && found[1] == season
           && found[0] == 0x7777 && found[2] == 0x9999;
}

#define DATE(...) ((const uint32_t[3]){__VA_ARGS__})

static void find_season(void)
{
    /* season 30 from 1 July 2026 to 30 June 2027, season 29 in the year before, season 0xabcd on 29 February 2000 */
    const uint8_t file[36] = {0, 30, 7, 234, 7, 1, 7, 235, 6, 30, 0, 0, 0, 29, 7, 233, 7, 1, 7, 234, 6, 30, 0, 0,
                              0xab, 0xcd, 7, 208, 2, 29, 7, 208, 2, 29, 0, 0};
    /* season 0 from 1900 on to the end of 2199 */
    const uint8_t all[12] = {0, 0, 7, 108, 1, 1, 8, 151, 12, 31, 0, 0};
    const struct { uint32_t date[3], number; uint16_t season; } asked[] = {
        {{2026, 11, 15}, 0, 30}, {{2026, 7, 1}, 0, 30}, {{2027, 6, 30}, 0, 30}, {{2027, 7, 1}, 16, 0},
        {{2026, 6, 30}, 0, 29}, {{2025, 12, 31}, 0, 29}, {{2026, 1, 1}, 0, 29}, {{2025, 7, 1}, 0, 29}, {{2025, 6, 30}, 16, 0},
        {{2000, 2, 28}, 16, 0}, {{2000, 2, 29}, 0, 0xabcd}, {{2000, 3, 1}, 16, 0}, {{2026, 6, 31}, 16, 0}, {{2026, 9, 31}, 16, 0},
        {{2026, 12, 0}, 16, 0}, {{2026, 0, 12}, 16, 0}, {{2026, 13, 1}, 16, 0}, {{0, 0, 0}, 16, 0}};
    for (size_t k = 0; k < sizeof asked / sizeof *asked; k++)
        EXPECT(dates(ALL(file), asked[k].date, asked[k].number, asked[k].season));
    EXPECT(dates(ALL(all), DATE(1900, 1, 1), 0, 0) && dates(ALL(all), DATE(2199, 12, 31), 0, 0));
    EXPECT(dates(ALL(all), DATE(1899, 12, 31), 16, 0) && dates(ALL(all), DATE(2200, 1, 1), 16, 0));
    EXPECT(dates(ALL(all), DATE(2000, 2, 29), 0, 0) && dates(ALL(all), DATE(2100, 2, 29), 16, 0));
    EXPECT(dates(ALL(all), DATE(2096, 2, 29), 0, 0) && dates(ALL(all), DATE(1900, 2, 29), 16, 0));
    for (uint32_t bit = 12; bit < 32; bit++) {
        const uint32_t more = 1u << bit;
        EXPECT(dates(ALL(all), DATE(2026 + more, 11, 15), 16, 0));
        EXPECT(dates(ALL(all), DATE(2026, 11 + more, 15), 16, 0) && dates(ALL(all), DATE(2026, 11, 15 + more), 16, 0));
    }
    EXPECT(dates(ALL(all), DATE(2026, 11 + 256, 15), 16, 0) && dates(ALL(all), DATE(2026, 11, 15 + 256), 16, 0));
    EXPECT(dates(ALL(all), DATE(UINT32_MAX, UINT32_MAX, UINT32_MAX), 16, 0));
    EXPECT(dates(file, 0, DATE(2026, 11, 15), 16, 0));
    EXPECT(dates(file + 12, 12, DATE(2026, 6, 30), 0, 29) && dates(file + 12, 12, DATE(2026, 7, 1), 16, 0));
}

/* a window of the file changed, and the number that this gets; 14 comes before 15, and 15 before 16 */
static void season_refused(void)
{
    uint8_t file[24] = {0, 30, 7, 234, 7, 1, 7, 235, 6, 30, 0, 0, 0, 29, 7, 233, 7, 1, 7, 234, 6, 30, 0, 0}, unchanged[24];
    const struct { size_t place; uint8_t value; uint32_t number; } changes[] = {
        {2, 6, 14}, {4, 0, 14}, {4, 13, 14}, {5, 0, 14}, {5, 32, 14}, {7, 233, 14}, {8, 2, 14}, {9, 31, 14}, {6, 9, 14},
        {10, 1, 14}, {11, 255, 14}, {22, 1, 14}, {23, 1, 14}, {20, 7, 15}, {4, 6, 15}, {15, 235, 14}, {19, 235, 15}};
    for (size_t k = 0; k < sizeof changes / sizeof *changes; k++) {
        const uint8_t before = file[changes[k].place];
        file[changes[k].place] = changes[k].value, memcpy(unchanged, file, 24);
        EXPECT(dates(ALL(file), DATE(2026, 11, 15), changes[k].number, 0));
        EXPECT(dates(ALL(file), DATE(2026, 2, 30), changes[k].number, 0) && memcmp(file, unchanged, 24) == 0);
        file[changes[k].place] = before;
    }
    for (size_t length = 1; length < 24; length++)
        EXPECT(length == 12 || dates(file, length, DATE(2026, 11, 15), 14, 0));
    memcpy(file + 12, file, 12);
    EXPECT(dates(ALL(file), DATE(2026, 11, 15), 15, 0) && dates(ALL(file), DATE(2028, 1, 1), 15, 0));
    file[23] = 1;
    EXPECT(dates(ALL(file), DATE(2028, 1, 1), 14, 0));
}

/* 64 windows of a day are taken, whichever of them has the date, one more is too many, and the first and the last may clash */
static void seasons_many(void)
{
    static uint8_t days[65][12];
    for (uint8_t k = 0; k < 65; k++)
        memcpy(days[k], (const uint8_t[12]){k, 9, 7, 208, k % 12 + 1, k / 12 + 1, 7, 208, k % 12 + 1, k / 12 + 1}, 12);
    for (uint32_t k = 0; k < 64; k++)
        EXPECT(dates(days[0], 768, DATE(2000, k % 12 + 1, k / 12 + 1), 0, (uint16_t)(k << 8 | 9)));
    EXPECT(dates(days[0], 768, DATE(2000, 5, 6), 16, 0) && dates(days[64], 12, DATE(2000, 5, 6), 0, 64 << 8 | 9));
    for (size_t length = 769; length <= 780; length++)
        EXPECT(dates(days[0], length, DATE(2000, 1, 1), 14, 0));
    memcpy(days[63] + 2, days[0] + 2, 8);
    EXPECT(dates(days[0], 768, DATE(2000, 2, 1), 15, 0) && dates(days[1], 756, DATE(2000, 2, 1), 0, 1 << 8 | 9));
}

static void widen_plans(void)
{
    /* plan A in the old form, and an unsound plan, whose last three bytes are dropped */
    const uint8_t old[48] = {0, 12, 7, 3, 1, 1, 2, 4, [24] = 1, 2, 9, 20, 30, 40, [44] = 41, 42, 43, 44};
    const uint8_t unsound[40] = {1, 2, 9, 20, 20, 30, 40, [21] = 41, 40, [37] = 41};
    uint8_t wide[80], nines[80];
    memset(wide, 9, 80), memset(nines, 9, 80);
    EXPECT(traymark_widen_plans(old, 47, wide, 80) == 11);
    EXPECT(traymark_widen_plans(old, 23, wide, 0) == 11);
    EXPECT(traymark_widen_plans(old, 24, wide, 39) == 6 && traymark_widen_plans(old, 24, wide, 80) == 6);
    EXPECT(traymark_widen_plans(old, 0, wide, 40) == 6);
    EXPECT(traymark_widen_plans(old, 0, wide, 0) == 0);
    EXPECT(memcmp(wide, nines, 80) == 0);
    EXPECT(traymark_widen_plans(ALL(old), ALL(wide)) == 0);
    EXPECT(memcmp(wide, plan_a, 40) == 0 && memcmp(wide + 40, unsound, 40) == 0);
    EXPECT(traymark_check_plan(wide, 40) == 0);
}

/* 1,000 plans are widened, one more is too many */
static void widen_many(void)
{
    static uint8_t old[1001][24], wide[1001][40];
    const uint8_t zeros[40] = {0};
    int alike = 1;
    for (size_t k = 0; k < sizeof old; k++)
        old[k / 24][k % 24] = (uint8_t)(k % 251 + 1);
    EXPECT(traymark_widen_plans(old[0], 1001 * 24, wide[0], 1001 * 40) == 11 && memcmp(wide[0], zeros, 40) == 0);
    EXPECT(traymark_widen_plans(old[0], 1000 * 24, wide[0], 1000 * 40) == 0 && memcmp(wide[1000], zeros, 40) == 0);
    for (size_t k = 0; k < 1000; k++)
        alike &= memcmp(wide[k] + 6, old[k] + 5, 16) == 0 && memcmp(wide[k] + 22, old[k] + 5, 16) == 0;
    EXPECT(alike);
}

static void write_and_measure(void)
{
    uint8_t mark[9] = NINES, strip[3] = {9, 9, 9};
    const uint8_t nines[9] = NINES, far[3] = {3, 1, 7};
    EXPECT(traymark_write_mark(ALL(plan_a), ALL(far), mark, 8) == 6 && memcmp(mark, nines, 9) == 0);
    EXPECT(traymark_write_mark(ALL(plan_a), ALL(far), ALL(mark)) == 9 && memcmp(mark, nines, 9) == 0);
    EXPECT(traymark_write_mark(ALL(plan_a), ALL(record_a), ALL(mark)) == 0);
    EXPECT(memcmp(mark, mark_a, 9) == 0); /* a */
    EXPECT(traymark_write_strip(ALL(plan_a), record_a, 2, strip, 2) == 6 && memcmp(strip, nines, 3) == 0);
    EXPECT(traymark_write_strip(ALL(plan_a), record_a, 2, strip, 0) == 6);
    EXPECT(traymark_write_strip(ALL(plan_a), record_a, 2, ALL(strip)) == 0);
    EXPECT(strip[0] == 4 && strip[1] == 5 && strip[2] == 0);

    EXPECT(is(traymark_measure_mark(ALL(plan_a), ALL(record_a), ALL(case_d), ALL(sure)), 600, 0, 3, 0, 1)); /* k */
    EXPECT(is(traymark_measure_mark(ALL(plan_a), ALL(record_a), ALL(mixed), ALL(mixed_doubts)), 300, 300, 1, 1, 1));
    EXPECT(refused(traymark_measure_mark(ALL(plan_a), ALL(far), ALL(case_d), ALL(sure)), 9));
    EXPECT(refused(traymark_measure_mark(ALL(plan_a), ALL(record_a), case_d, 8, ALL(sure)), 6));
    EXPECT(is(traymark_measure_strip(ALL(plan_a), record_a, 2, case_d, 3, sure, 3), 400, -200, 2, 0, 1));
    EXPECT(is(traymark_measure_strip(ALL(plan_s), ALL(record_s), ALL(mixed_s), ALL(mixed_s_doubts)), 299, 1, 1, 1, 1));
    EXPECT(refused(traymark_measure_strip(ALL(plan_a), record_a, 2, case_d, 3, sure, 4), 6));
}

static void read_marks(void)
{
    uint8_t symbols[9], doubts[9] = {1, 1, 1}, record[3] = {9, 9, 9};
    /* unread where the mark is 0 */
    const uint8_t no_zero[9] = {6, 1, 5, 255, 2, 6, 2, 4, 1}, no_zero_doubts[9] = {0, 0, 0, 100};
    const uint8_t one[4] = {1}, doubt[2] = {99, 100};
    EXPECT(is(read_a(mark_a, sure), 0, 600, 0, 0, 0));     /* b */
    EXPECT(is(read_a(case_c, sure), 400, 200, 2, 0, 1));   /* c */
    EXPECT(refused(read_a(case_d, sure), 10));             /* d */
    EXPECT(is(read_a(case_d, doubts), 597, 3, 3, 0, 1));   /* e */
    EXPECT(is(read_a(mixed, mixed_doubts), 300, 300, 1, 1, 1));
    EXPECT(is(read_a(no_zero, no_zero_doubts), 100, 500, 0, 1, 0));
    memcpy(symbols, mark_a, 9);
    memset(symbols, 255, 5), memset(doubts, 100, 5);
    EXPECT(is(read_a(symbols, doubts), 500, 100, 0, 5, 0)); /* f */
    symbols[5] = 255;
    EXPECT(refused(read_a(symbols, doubts), 8));
    doubts[5] = 100;
    EXPECT(refused(read_a(symbols, doubts), 10)); /* g */
    symbols[8] = 7;
    EXPECT(refused(read_a(symbols, doubts), 7));
    EXPECT(refused(traymark_read_mark(ALL(plan_h), one, 1, doubt + 1, 1, record, 1), 10)); /* i */
    EXPECT(record[0] == 9);
    EXPECT(is(traymark_read_mark(ALL(plan_h), one, 1, doubt, 1, record, 1), 99, 1, 0, 0, 0)); /* h */
    EXPECT(record[0] == 1 && record[1] == 9);
    EXPECT(refused(traymark_read_mark(ALL(plan_j), one, 4, sure, 4, ALL(record)), 10)); /* j */
    EXPECT(refused(traymark_read_mark(ALL(plan_j), one, 4, sure, 4, record, 2), 6));
}

static void read_strips(void)
{
    const uint8_t symbols[3] = {4, 5, 255}, doubts[3] = {0, 0, 100};
    uint8_t record[3] = {9, 9, 9};
    EXPECT(is(traymark_read_strip(ALL(plan_a), ALL(symbols), ALL(doubts), record, 2), 100, 100, 0, 1, 0));
    EXPECT(record[0] == 3 && record[1] == 1 && record[2] == 9);
    EXPECT(refused(traymark_read_strip(ALL(plan_a), ALL(symbols), sure, 3, record, 2), 8));
    EXPECT(refused(traymark_read_strip(ALL(plan_a), ALL(symbols), ALL(doubts), record, 0), 6));
    EXPECT(refused(traymark_read_strip(plan_a, 0, symbols, 0, doubts, 0, record, 0), 1));
    EXPECT(record[0] == 3 && record[1] == 1 && record[2] == 9);
    EXPECT(is(traymark_read_strip(ALL(plan_s), ALL(mixed_s), ALL(mixed_s_doubts), record, 1), 299, 1, 1, 1, 1));
    EXPECT(record[0] == 5 && record[1] == 1);
}

/* a plan with another season */
static void in_season(const uint8_t plan[40], uint16_t season, uint8_t changed[40])
{
    memcpy(changed, plan, 40);
    changed[0] = (uint8_t)(season >> 8), changed[1] = (uint8_t)season;
}

/* seasons from 30 on, one with a low byte below 30, and one with a low byte of 0: doubts are in 250ths */
static void read_later(void)
{
    const uint16_t seasons[4] = {30, 256 + 12, 30 * 256, 65535};
    const uint8_t wrong_doubts[9] = {1, 1, 1}, doubt_250[9] = {250}, doubt_251[9] = {251}, one[1] = {1}, doubt[2] = {249, 250};
    const uint8_t strip[3] = {4, 5, 255}, strip_doubts[3] = {0, 0, 250}, strip_100[3] = {0, 0, 100};
    for (size_t k = 0; k < 4; k++) {
        uint8_t plan[40], small[40], symbols[9], doubts[9] = {0}, record[2] = {9, 9};
        in_season(plan_a, seasons[k], plan), in_season(plan_h, seasons[k], small);
        EXPECT(is(read_by(plan, case_d, wrong_doubts), 1497, 3, 3, 0, 1)); /* e */
        memcpy(symbols, mark_a, 9), memset(symbols, 255, 5), memset(doubts, 250, 5);
        EXPECT(is(read_by(plan, symbols, doubts), 1250, 250, 0, 5, 0)); /* f */
        symbols[5] = 255, doubts[5] = 250;
        EXPECT(refused(read_by(plan, symbols, doubts), 10)); /* g */
        doubts[5] = 100;
        EXPECT(refused(read_by(plan, symbols, doubts), 8));
        EXPECT(is(read_by(plan, mark_a, doubt_250), 250, 1250, 0, 0, 0));
        EXPECT(refused(read_by(plan, mark_a, doubt_251), 8));
        EXPECT(refused(traymark_read_mark(ALL(small), one, 1, doubt + 1, 1, record, 1), 10) && record[0] == 9); /* i */
        EXPECT(is(traymark_read_mark(ALL(small), one, 1, doubt, 1, record, 1), 249, 1, 0, 0, 0) && record[0] == 1); /* h */
        EXPECT(is(traymark_read_strip(ALL(plan), ALL(strip), ALL(strip_doubts), record, 2), 250, 250, 0, 1, 0));
        EXPECT(record[0] == 3 && record[1] == 1);
        EXPECT(refused(traymark_read_strip(ALL(plan), ALL(strip), ALL(strip_100), record, 2), 8));
        EXPECT(is(traymark_measure_mark(ALL(plan), ALL(record_a), ALL(case_d), ALL(sure)), 1500, 0, 3, 0, 1)); /* k */
    }
}

/* the same bytes in season 29 and in season 30 */
static void two_seasons(void)
{
    /* six right cells in doubt 100; two cells of the mark of 3 1 2, sure, and four of that of 2 2 2, in doubt */
    const uint8_t six[9] = {100, 100, 100, 100, 100, 100}, doubt_101[9] = {101};
    const uint8_t two_marks[9] = {6, 1, 5, 1, 3, 0, 5, 4, 1}, four[9] = {0, 0, 0, 100, 100, 100, 100}, other[3] = {2, 2, 2};
    uint8_t last[40], first[40], record[3] = {9, 9, 9};
    in_season(plan_a, 29, last), in_season(plan_a, 30, first);
    EXPECT(refused(read_by(last, mark_a, six), 10) && is(read_by(first, mark_a, six), 600, 900, 0, 0, 0));
    EXPECT(refused(read_by(last, mark_a, doubt_101), 8) && is(read_by(first, mark_a, doubt_101), 101, 1399, 0, 0, 0));
    EXPECT(is(read_by(last, two_marks, four), 400, 200, 4, 0, 2));
    EXPECT(is(traymark_read_mark(ALL(first), ALL(two_marks), ALL(four), ALL(record)), 1400, 100, 2, 0, 1));
    EXPECT(memcmp(record, other, 3) == 0);
}

/* whether these are the numbers of a reason; of a refusal all but the first are 0 */
static int gives(traymark_reason r, uint32_t number, uint32_t reason, uint32_t place, uint32_t excess)
{
    return r.number == number && r.reason == reason && r.place == place && r.excess == excess;
}

/* explains a record of a photograph under plan A to a buffer of 9s, and expects it to hold the answer 3 1 2 of reason 2,
   or still the 9s */
static traymark_reason explain_a(const uint8_t record[3], const uint8_t symbols[9], const uint8_t doubts[9])
{
    uint8_t other[4] = {9, 9, 9, 9};
    traymark_reason r = traymark_explain_mark(ALL(plan_a), record, 3, symbols, 9, doubts, 9, other, 3);
    EXPECT(memcmp(other, r.reason == 2 ? (const uint8_t[4]){3, 1, 2, 9} : (const uint8_t[4]){9, 9, 9, 9}, 4) == 0);
    return r;
}

/* the same of a strip, whose answer is 3 1 */
static traymark_reason explain_strip_a(const uint8_t record[2], const uint8_t symbols[3], const uint8_t doubts[3])
{
    uint8_t other[3] = {9, 9, 9};
    traymark_reason r = traymark_explain_strip(ALL(plan_a), record, 2, symbols, 3, doubts, 3, other, 2);
    EXPECT(memcmp(other, r.reason == 2 ? (const uint8_t[3]){3, 1, 9} : (const uint8_t[3]){9, 9, 9}, 3) == 0);
    return r;
}

static void explain_marks(void)
{
    /* the first three have the answer's first row, first column and diagonal, the others another first cell */
    const uint8_t same_row[3] = {2, 2, 2}, same_column[3] = {1, 1, 4}, diagonal[3] = {3, 2, 1};
    const uint8_t zero[3] = {0}, one[3] = {1, 0, 0}, far[3] = {3, 1, 7};
    const uint8_t last_7[9] = {0, 0, 0, 0, 2, 6, 2, 4, 7}, first_99[9] = {99}, first_101[9] = {101};
    uint8_t other[2] = {9, 9};
    EXPECT(gives(explain_a(record_a, case_c, sure), 0, 1, 0, 0));
    EXPECT(gives(explain_a(same_row, case_c, sure), 0, 2, 3, 0));
    EXPECT(gives(explain_a(same_column, case_c, sure), 0, 2, 1, 0));
    EXPECT(gives(explain_a(diagonal, case_c, sure), 0, 2, 1, 0));
    EXPECT(gives(explain_a(zero, case_c, sure), 0, 2, 0, 0));
    EXPECT(gives(explain_a(record_a, case_d, sure), 0, 3, 0, 0)); /* at the radius */
    EXPECT(gives(explain_a(zero, case_d, sure), 0, 3, 0, 400));
    EXPECT(gives(explain_a(one, case_d, sure), 0, 3, 0, 1000));
    EXPECT(gives(explain_a(record_a, case_d, first_99), 0, 1, 0, 0));
    EXPECT(gives(explain_a(record_a, mixed, mixed_doubts), 0, 1, 0, 0));
    EXPECT(gives(explain_a(same_row, mixed, mixed_doubts), 0, 2, 3, 0));
    EXPECT(gives(explain_a(far, last_7, first_101), 7, 0, 0, 0));
    EXPECT(gives(explain_a(far, case_c, first_101), 8, 0, 0, 0));
    EXPECT(gives(explain_a(far, case_c, sure), 9, 0, 0, 0));
    EXPECT(gives(explain_a(far, case_d, sure), 9, 0, 0, 0));

    /* one cell: the first place is the last; in doubt 100 each record costs the radius */
    const uint8_t doubt[2] = {99, 100};
    EXPECT(gives(traymark_explain_mark(ALL(plan_h), zero, 1, one, 1, doubt + 1, 1, other, 1), 0, 3, 0, 0) && other[0] == 9);
    EXPECT(gives(traymark_explain_mark(ALL(plan_h), zero, 1, one, 1, doubt, 1, other, 1), 0, 2, 0, 0));
    EXPECT(other[0] == 1 && other[1] == 9);
}

static void explain_strips(void)
{
    const uint8_t symbols[3] = {4, 5, 255}, doubts[3] = {0, 0, 100}, wrong[3] = {4, 5, 1};
    const uint8_t same_cell[2] = {2, 2}, zero[3] = {0}, far[2] = {3, 7}, last_7[3] = {4, 5, 7}, first_101[3] = {101, 0, 100};
    EXPECT(gives(explain_strip_a(record_a, symbols, doubts), 0, 1, 0, 0));
    EXPECT(gives(explain_strip_a(same_cell, symbols, doubts), 0, 2, 1, 0));
    EXPECT(gives(explain_strip_a(zero, symbols, doubts), 0, 2, 0, 0));
    EXPECT(gives(explain_strip_a(record_a, wrong, sure), 0, 3, 0, 0)); /* at the radius */
    EXPECT(gives(explain_strip_a(zero, wrong, sure), 0, 3, 0, 400));
    EXPECT(gives(explain_strip_a(far, last_7, first_101), 7, 0, 0, 0));
    EXPECT(gives(explain_strip_a(far, symbols, first_101), 8, 0, 0, 0));
    EXPECT(gives(explain_strip_a(far, symbols, doubts), 9, 0, 0, 0));

    /* under plan A with degree 2, (X - 1)(X - 2) is 0 at all row points but the last */
    const uint8_t plan[40] = {0, 12, 7, 3, 3, 2, 1, 2, 4, [22] = 1, 2, 4}, product[3] = {2, 4, 1};
    uint8_t other[4] = {9, 9, 9, 9};
    EXPECT(gives(traymark_explain_strip(ALL(plan), ALL(product), zero, 3, sure, 3, other, 3), 0, 2, 2, 0));
    EXPECT(memcmp(other, (const uint8_t[4]){0, 0, 0, 9}, 4) == 0);
}

/* whether this is a refusal that left the buffer of 9s as it was */
static int leaves(traymark_reason r, uint32_t number, const uint8_t other[4])
{
    return gives(r, number, 0, 0, 0) && memcmp(other, (const uint8_t[4]){9, 9, 9, 9}, 4) == 0;
}

/* refusals of the plan, in order, and 6 for each buffer; a symbol, a doubt and a coefficient are wrong all the while */
static void explain_refused(void)
{
    const uint8_t sevens[9] = {7, 7, 7, 7, 7, 7, 7, 7, 7}, doubts[9] = {101};
    uint8_t plan[40], other[4] = {9, 9, 9, 9};
    memcpy(plan, plan_a, 40);
    plan[2] = 9, plan[3] = 0, plan[4] = 0, plan[5] = 16, plan[6] = 7, plan[39] = 1;
    const struct { size_t place; uint8_t repaired; uint32_t before; } repairs[6] = {
        {39, 0, 1}, {2, 7, 2}, {3, 3, 3}, {4, 3, 13}, {5, 1, 4}, {6, 1, 5}};
    for (size_t k = 0; k < 6; k++) {
        uint32_t number = repairs[k].before;
        EXPECT(leaves(traymark_explain_mark(ALL(plan), sevens, 2, sevens, 8, doubts, 8, ALL(other)), number, other));
        EXPECT(leaves(traymark_explain_strip(ALL(plan), sevens, 1, sevens, 2, doubts, 2, ALL(other)), number, other));
        plan[repairs[k].place] = repairs[k].repaired;
    }
    EXPECT(leaves(traymark_explain_mark(plan, 39, sevens, 3, ALL(sevens), ALL(doubts), other, 3), 1, other));
    EXPECT(leaves(traymark_explain_strip(plan, 0, sevens, 0, sevens, 0, doubts, 0, other, 0), 1, other));
    const size_t of_marks[6][4] = {{2, 9, 9, 3}, {3, 8, 9, 3}, {3, 9, 8, 3}, {3, 9, 9, 2}, {3, 9, 9, 4}, {0, 0, 0, 0}};
    const size_t of_strips[6][4] = {{1, 3, 3, 2}, {2, 2, 3, 2}, {2, 3, 2, 2}, {2, 3, 3, 1}, {2, 3, 3, 3}, {0, 0, 0, 0}};
    for (size_t k = 0; k < 6; k++) {
        const size_t *m = of_marks[k], *s = of_strips[k];
        EXPECT(leaves(traymark_explain_mark(ALL(plan), sevens, m[0], sevens, m[1], doubts, m[2], other, m[3]), 6, other));
        EXPECT(leaves(traymark_explain_strip(ALL(plan), sevens, s[0], sevens, s[1], doubts, s[2], other, s[3]), 6, other));
    }
    EXPECT(leaves(traymark_explain_mark(ALL(plan), sevens, 3, ALL(sevens), ALL(doubts), other, 3), 7, other));
    EXPECT(leaves(traymark_explain_strip(ALL(plan), sevens, 2, sevens, 3, doubts, 3, other, 2), 7, other));
}

/* of marks with one first row, by plans with more columns than rows and with more rows */
static void explain_oblongs(void)
{
    const uint8_t row_w[3] = {2, 2, 2}, row_t[3] = {3, 2, 2}, zeros[6] = {0};
    uint8_t other[3] = {9, 9, 9};
    EXPECT(gives(traymark_explain_mark(ALL(plan_w), ALL(row_w), ALL(mark_w), ALL(zeros), ALL(other)), 0, 2, 3, 0));
    EXPECT(memcmp(other, record_a, 3) == 0);
    memset(other, 9, 3);
    EXPECT(gives(traymark_explain_mark(ALL(plan_t), ALL(row_t), ALL(mark_t), ALL(zeros), ALL(other)), 0, 2, 2, 0));
    EXPECT(memcmp(other, record_a, 3) == 0);
}

/* masking and unmasking marks, and strips */
typedef uint32_t mask_call(in, size_t, in, size_t, uint8_t *, size_t);
static mask_call *const of_marks[2] = {traymark_mask_mark, traymark_unmask_mark};
static mask_call *const of_strips[2] = {traymark_mask_strip, traymark_unmask_strip};

/* 5 + 4X + 6Y, and the mark of 3 + X + 2Y with that of it on, which is the mark of 1 + 5X + Y */
static const uint8_t mask_q[3] = {5, 4, 6}, masked_a[9] = {0, 1, 3, 5, 6, 1, 1, 2, 4}, record_masked[3] = {1, 5, 1};

/* whether the call gives this number and leaves these symbols, with the bytes beside them as they were */
static int turns(mask_call *call, in plan, size_t plan_length, in record, size_t record_length, in symbols, in left, size_t cells,
                 uint32_t number)
{
    static uint8_t lent[258];
    lent[0] = 77, lent[cells + 1] = 88;
    memcpy(lent + 1, symbols, cells);
    return call(plan, plan_length, record, record_length, lent + 1, cells) == number && memcmp(lent + 1, left, cells) == 0
           && lent[0] == 77 && lent[cells + 1] == 88;
}

/* masked and then unmasked */
static int masks(mask_call *const calls[2], const uint8_t plan[40], in record, size_t record_length, in symbols, in masked,
                 size_t cells)
{
    return turns(calls[0], plan, 40, record, record_length, symbols, masked, cells, 0)
           && turns(calls[1], plan, 40, record, record_length, masked, symbols, cells, 0);
}

static void mask(void)
{
    const uint8_t zeros[9] = {0}, none[9] = {255, 255, 255, 255, 255, 255, 255, 255, 255};
    const uint8_t unread[9] = {255, 1, 5, 0, 255, 6, 2, 4, 255}, unread_masked[9] = {255, 1, 3, 5, 255, 1, 1, 2, 255};
    const uint8_t mark_q[9] = {1, 0, 5, 5, 4, 2, 6, 5, 3}, masked_w[6] = {6, 1, 4, 2, 4, 0}, masked_t[6] = {2, 4, 5, 0, 6, 1};
    EXPECT(masks(of_marks, plan_a, ALL(mask_q), mark_a, ALL(masked_a)));
    EXPECT(masks(of_marks, plan_a, ALL(mask_q), unread, ALL(unread_masked)));
    EXPECT(masks(of_marks, plan_a, ALL(mask_q), zeros, ALL(mark_q)) && masks(of_marks, plan_a, zeros, 3, mark_a, ALL(mark_a)));
    EXPECT(masks(of_marks, plan_a, ALL(mask_q), none, ALL(none)));
    EXPECT(masks(of_marks, plan_w, ALL(mask_q), mark_w, ALL(masked_w)));
    EXPECT(masks(of_marks, plan_t, ALL(mask_q), mark_t, ALL(masked_t)));

    /* strips go by the row points */
    const uint8_t strip[3] = {4, 5, 0}, masked[3] = {6, 4, 0}, lost[3] = {255, 1, 255}, lost_masked[3] = {255, 0, 255};
    const uint8_t strip_w_masked[2] = {6, 2}, strip_t_masked[3] = {1, 4, 5};
    EXPECT(masks(of_strips, plan_a, mask_q, 2, strip, ALL(masked)));
    EXPECT(masks(of_strips, plan_a, mask_q, 2, lost, ALL(lost_masked)));
    EXPECT(masks(of_strips, plan_w, mask_q, 2, strip_w, ALL(strip_w_masked)));
    EXPECT(masks(of_strips, plan_t, mask_q, 2, strip_t, ALL(strip_t_masked)));
}

/* every symbol and every value of p 251, and an unread cell among them; 16 by 16 cells, of which the last four are unread */
static void mask_largest(void)
{
    uint8_t plan[40] = {0, 30, 251, 16, 16, 0}, symbols[256], masked[256];
    int alike = 1;
    for (uint8_t k = 0; k < 16; k++)
        plan[6 + k] = plan[22 + k] = (uint8_t)(k * 16);
    for (int value = 0; value < 251; value++) {
        const uint8_t record[1] = {(uint8_t)value};
        for (int k = 0; k < 256; k++) {
            symbols[k] = k == 77 || k > 251 ? 255 : (uint8_t)(k < 77 ? k : k - 1);
            masked[k] = symbols[k] == 255 ? 255 : (uint8_t)((symbols[k] + value) % 251);
        }
        alike &= masks(of_marks, plan, ALL(record), symbols, ALL(masked));
        alike &= masks(of_strips, plan, ALL(record), symbols + 69, masked + 69, 16);
    }
    EXPECT(alike);
}

/* refusals of the plan, in order, then 6, 7 and 9: no symbol changes */
static void mask_refused(void)
{
    const uint8_t sevens[10] = {7, 7, 7, 7, 7, 7, 7, 7, 7, 7}, last_7[9] = {0, 1, 3, 5, 6, 1, 1, 2, 7};
    const uint8_t first_254[9] = {254, 255, 255, 255, 255, 255, 255, 255, 255}, last_p[3] = {5, 4, 7}, far[3] = {255, 255, 0};
    const struct { size_t place; uint8_t repaired; uint32_t before; } repairs[6] = {
        {39, 0, 1}, {2, 7, 2}, {3, 3, 3}, {4, 3, 13}, {5, 1, 4}, {6, 1, 5}};
    for (int k = 0; k < 2; k++) {
        mask_call *mark = of_marks[k], *strip = of_strips[k];
        uint8_t plan[40];
        memcpy(plan, plan_a, 40);
        plan[2] = 9, plan[3] = 0, plan[4] = 0, plan[5] = 16, plan[6] = 7, plan[39] = 1;
        for (size_t r = 0; r < 6; r++) {
            EXPECT(turns(mark, ALL(plan), sevens, 2, sevens, sevens, 8, repairs[r].before));
            EXPECT(turns(strip, ALL(plan), sevens, 1, sevens, sevens, 2, repairs[r].before));
            plan[repairs[r].place] = repairs[r].repaired;
        }
        EXPECT(turns(mark, plan, 39, sevens, 3, sevens, sevens, 9, 1) && turns(strip, plan, 0, sevens, 0, sevens, sevens, 0, 1));
        for (size_t length = 0; length <= 10; length++) {
            EXPECT(turns(mark, ALL(plan), sevens, length, sevens, sevens, 9, length == 3 ? 7 : 6));
            EXPECT(turns(mark, ALL(plan), sevens, 3, sevens, sevens, length, length == 9 ? 7 : 6));
            EXPECT(turns(strip, ALL(plan), sevens, length, sevens, sevens, 3, length == 2 ? 7 : 6));
            EXPECT(turns(strip, ALL(plan), sevens, 2, sevens, sevens, length, length == 3 ? 7 : 6));
        }
        EXPECT(turns(mark, ALL(plan), ALL(mask_q), last_7, ALL(last_7), 7));
        EXPECT(turns(mark, ALL(plan), ALL(last_p), last_7, ALL(last_7), 7));
        EXPECT(turns(mark, ALL(plan), ALL(mask_q), first_254, ALL(first_254), 7));
        EXPECT(turns(mark, ALL(plan), ALL(last_p), mark_a, ALL(mark_a), 9));
        EXPECT(turns(mark, ALL(plan), ALL(far), mark_a, ALL(mark_a), 9));
        EXPECT(turns(strip, ALL(plan), mask_q, 2, last_7 + 6, last_7 + 6, 3, 7));
        EXPECT(turns(strip, ALL(plan), far, 2, last_7 + 6, last_7 + 6, 3, 7));
        EXPECT(turns(strip, ALL(plan), last_p + 1, 2, mark_a, mark_a, 3, 9));
    }
}

/* the station's way: written, masked and printed; photographed with a cell misread and one unread; unmasked and read */
static void mask_and_read(void)
{
    const uint8_t doubts[9] = {0, 100};
    uint8_t cells[9], record[3] = {9, 9, 9};
    EXPECT(traymark_write_mark(ALL(plan_a), ALL(record_a), ALL(cells)) == 0);
    EXPECT(traymark_mask_mark(ALL(plan_a), ALL(mask_q), ALL(cells)) == 0 && memcmp(cells, masked_a, 9) == 0);
    cells[0] = 3, cells[1] = 255;
    EXPECT(is(traymark_read_mark(ALL(plan_a), ALL(cells), ALL(doubts), ALL(record)), 300, 300, 1, 1, 1));
    EXPECT(memcmp(record, record_masked, 3) == 0);
    EXPECT(traymark_unmask_mark(ALL(plan_a), ALL(mask_q), ALL(cells)) == 0);
    EXPECT(is(read_a(cells, doubts), 300, 300, 1, 1, 1));

    /* three cells misread, which is the radius: 10 stays 10 */
    memcpy(cells, case_d, 9), memset(record, 9, 3);
    EXPECT(traymark_mask_mark(ALL(plan_a), ALL(mask_q), ALL(cells)) == 0);
    EXPECT(refused(traymark_read_mark(ALL(plan_a), ALL(cells), ALL(sure), ALL(record)), 10) && record[0] == 9);

    const uint8_t strip_doubts[3] = {99};
    EXPECT(traymark_write_strip(ALL(plan_a), record_a, 2, cells, 3) == 0);
    EXPECT(traymark_mask_strip(ALL(plan_a), mask_q, 2, cells, 3) == 0);
    EXPECT(is(traymark_read_strip(ALL(plan_a), cells, 3, ALL(strip_doubts), record, 2), 99, 101, 0, 0, 0));
    EXPECT(record[0] == 1 && record[1] == 5 && record[2] == 9);
    EXPECT(traymark_unmask_strip(ALL(plan_a), mask_q, 2, cells, 3) == 0);
    EXPECT(is(traymark_read_strip(ALL(plan_a), cells, 3, ALL(strip_doubts), record, 2), 99, 101, 0, 0, 0));
    EXPECT(record[0] == 3 && record[1] == 1 && record[2] == 9);
}

/* sets with a byte on each side that no call may change */
static struct { uint8_t before; traymark_set set; uint8_t after; } lent = {.before = 77, .after = 88};
static traymark_set *const set = &lent.set;

/* the bytes of a set by plan A, or plan A of another season, that holds the photographs of these symbols, or null for none */
static traymark_set holding(const uint8_t plan[40], const uint8_t *const photographs[9])
{
    traymark_set holds;
    memset(&holds, 255, sizeof holds);
    memcpy(holds.bytes, plan, 40);
    for (size_t k = 0; k < 9; k++) {
        holds.bytes[40 + k] = photographs[k] != NULL;
        if (photographs[k])
            memcpy(holds.bytes + 49 + 256 * k, photographs[k], 9);
    }
    return holds;
}

/* whether the set has exactly the bytes of one that holds these photographs */
static int holds(const uint8_t plan[40], const uint8_t *const photographs[9])
{
    const traymark_set expected = holding(plan, photographs);
    return memcmp(set, &expected, sizeof expected) == 0 && lent.before == 77 && lent.after == 88;
}

/* whether the set combines to these symbols and doubts, and stays as it is */
static int combines(in symbols, in doubts)
{
    const traymark_set unchanged = *set;
    uint8_t s[11] = {7, [10] = 7}, d[11] = {7, [10] = 7};
    return traymark_set_combine(set, s + 1, 9, d + 1, 9) == 0 && memcmp(s + 1, symbols, 9) == 0 && memcmp(d + 1, doubts, 9) == 0
           && s[0] == 7 && s[10] == 7 && d[0] == 7 && d[10] == 7 && memcmp(set, &unchanged, sizeof unchanged) == 0;
}

/* reads the set into a record of 9s, which it leaves on a refusal */
static traymark_reading read_set(void)
{
    uint8_t record[5] = {9, 9, 9, 9, 9};
    traymark_reading r = traymark_set_read(set, record + 1, 3);
    EXPECT(memcmp(record + 1, r.number == 0 ? record_a : (const uint8_t[3]){9, 9, 9}, 3) == 0);
    EXPECT(record[0] == 9 && record[4] == 9);
    return r;
}

/* a set in memory of any bytes: none is held, then case c, then case d too, then that alone, then the mark too; then it begins
   anew */
static void sets(void)
{
    const uint8_t full[9] = {100, 100, 100, 100, 100, 100, 100, 100, 100};
    const uint8_t none[9] = {255, 255, 255, 255, 255, 255, 255, 255, 255};
    const uint8_t *held[9] = {NULL};
    uint8_t later[40];
    EXPECT(traymark_set_size() == TRAYMARK_SET_SIZE);
    memset(set, 0xa5, sizeof *set);
    const traymark_set unchanged = *set;
    EXPECT(traymark_set_start(set, plan_a, 39) == 1 && traymark_set_start(set, plan_a, 0) == 1);
    EXPECT(memcmp(set, &unchanged, sizeof unchanged) == 0);
    EXPECT(traymark_set_start(set, ALL(plan_a)) == 0 && holds(plan_a, held) && combines(none, full));
    EXPECT(refused(read_set(), 10));

    EXPECT(traymark_set_add(set, 0, ALL(case_c), ALL(sure)) == 0);
    held[0] = case_c;
    EXPECT(holds(plan_a, held) && combines(case_c, sure) && is(read_set(), 400, 200, 2, 0, 1));
    EXPECT(traymark_set_add(set, 0, ALL(case_d), ALL(sure)) == 17 && holds(plan_a, held));
    EXPECT(traymark_set_add(set, 8, ALL(case_d), ALL(full)) == 0);
    held[8] = case_d;
    /* three cells tie, and the smaller symbol is the wrong one */
    const uint8_t ties[9] = {0, 0, 0, 0, 2, 6, 2, 4, 0}, tie_doubts[9] = {0, 100, 100, 0, 0, 0, 0, 0, 100};
    EXPECT(holds(plan_a, held) && combines(ties, tie_doubts) && is(read_set(), 500, 100, 4, 0, 2));

    EXPECT(traymark_set_withdraw(set, 0) == 0);
    held[0] = NULL;
    EXPECT(holds(plan_a, held) && combines(case_d, sure) && refused(read_set(), 10));
    EXPECT(traymark_set_withdraw(set, 0) == 18 && holds(plan_a, held));
    EXPECT(traymark_set_add(set, 0, ALL(mark_a), ALL(sure)) == 0);
    held[0] = mark_a;
    const uint8_t first[9] = {0, 0, 0, 0, 2, 6, 2, 4, 1}, first_doubts[9] = {100, 100, 100};
    EXPECT(holds(plan_a, held) && combines(first, first_doubts) && is(read_set(), 300, 300, 3, 0, 1));

    /* a refused start leaves it, another empties it; from season 30 on doubts are in 250ths */
    uint8_t unsound[40];
    memcpy(unsound, plan_a, 40), unsound[2] = 9;
    EXPECT(traymark_set_start(set, ALL(unsound)) == 2 && holds(plan_a, held));
    in_season(plan_a, 30, later), held[0] = held[8] = NULL;
    EXPECT(traymark_set_start(set, ALL(later)) == 0 && holds(later, held));
    EXPECT(traymark_set_add(set, 3, ALL(none), ALL(full)) == 8 && holds(later, held));
    const uint8_t later_full[9] = {250, 250, 250, 250, 250, 250, 250, 250, 250};
    EXPECT(traymark_set_add(set, 3, ALL(none), ALL(later_full)) == 0 && combines(none, later_full));
}

/* nine photographs; the cells: 9 of 9, 5 to 4, 4 to 3 to 2, a tie of four, a tie of three, 2 to 1, one vote for 0, 8 to 1, no
   vote; then all but three are withdrawn */
static void set_votes(void)
{
    const uint8_t photographs[9][9] = {
        {5, 6, 3, 6, 255, 6, 255, 5, 255}, {5, 6, 3, 6, 6, 0, 255, 1, 255}, {5, 6, 3, 5, 255, 6, 255, 1, 255},
        {5, 6, 3, 5, 2, 255, 255, 1, 255}, {5, 6, 1, 4, 255, 255, 0, 1, 255}, {5, 0, 1, 4, 4, 255, 255, 1, 255},
        {5, 0, 1, 2, 255, 255, 255, 1, 255}, {5, 0, 0, 2, 255, 255, 255, 1, 255}, {5, 0, 0, 255, 255, 255, 255, 1, 255}};
    const uint8_t symbols[9] = {5, 6, 3, 2, 2, 6, 0, 1, 255}, few_symbols[9] = {5, 6, 3, 6, 6, 6, 255, 1, 255};
    const uint8_t doubts[2][9] = {{0, 89, 89, 100, 100, 67, 0, 23, 100}, {0, 223, 223, 250, 250, 167, 0, 56, 250}};
    const uint8_t few_doubts[2][9] = {{0, 0, 0, 67, 0, 67, 100, 67, 100}, {0, 0, 0, 167, 0, 167, 250, 167, 250}};
    for (int age = 0; age < 2; age++) {
        uint8_t plan[40], own[9];
        in_season(plan_a, age ? 30 : 29, plan);
        EXPECT(traymark_set_start(set, ALL(plan)) == 0);
        for (uint32_t k = 9; k-- > 0;) {
            for (size_t c = 0; c < 9; c++)
                own[c] = photographs[k][c] == 255 ? (age ? 250 : 100) : (uint8_t)(10 * k + c);
            EXPECT(traymark_set_add(set, k, ALL(photographs[k]), ALL(own)) == 0);
        }
        EXPECT(combines(symbols, doubts[age]));
        for (uint32_t k = 9; k-- > 3;)
            EXPECT(traymark_set_withdraw(set, k) == 0);
        EXPECT(combines(few_symbols, few_doubts[age]));
    }
}

/* 6, then 17, then 7, then 8, and 18; numbers that are 4 or 5 in their low bits; no byte changes */
static void set_refused(void)
{
    const uint8_t *held[9] = {[4] = mark_a};
    const uint8_t sevens[9] = {7, 7, 7, 7, 7, 7, 7, 7, 7}, doubts[10] = {101}, unread[9] = {255};
    uint8_t s[10] = {9}, d[10] = {9}, record[4] = {9, 9, 9, 9};
    *set = holding(plan_a, held);
    for (size_t length = 0; length <= 10; length++) {
        const uint32_t number = length == 9 ? 17 : 6;
        EXPECT(traymark_set_add(set, 4, doubts, length, doubts, 9) == number);
        EXPECT(traymark_set_add(set, 9, ALL(sevens), doubts, length) == number);
        EXPECT(length == 9 || traymark_set_combine(set, s, length, d, 9) == 6);
        EXPECT(length == 9 || traymark_set_combine(set, s, 9, d, length) == 6);
        EXPECT(length == 3 || length > 4 || refused(traymark_set_read(set, record, length), 6));
    }
    for (uint32_t bit = 4; bit < 32; bit++) {
        EXPECT(traymark_set_add(set, 5 + (1u << bit), ALL(mark_a), ALL(sure)) == 17);
        EXPECT(traymark_set_withdraw(set, 4 + (1u << bit)) == 18);
    }
    EXPECT(traymark_set_add(set, 9, ALL(mark_a), ALL(sure)) == 17 && traymark_set_withdraw(set, 9) == 18);
    EXPECT(traymark_set_add(set, UINT32_MAX, ALL(mark_a), ALL(sure)) == 17 && traymark_set_withdraw(set, UINT32_MAX) == 18);
    EXPECT(traymark_set_add(set, 4, ALL(sevens), doubts, 9) == 17);
    EXPECT(traymark_set_add(set, 5, ALL(sevens), doubts, 9) == 7);
    EXPECT(traymark_set_add(set, 5, ALL(mark_a), doubts, 9) == 8 && traymark_set_add(set, 5, ALL(unread), ALL(sure)) == 8);
    EXPECT(traymark_set_withdraw(set, 5) == 18);
    EXPECT(holds(plan_a, held) && s[0] == 9 && d[0] == 9 && memcmp(record, (const uint8_t[4]){9, 9, 9, 9}, 4) == 0);
}

/* bytes that no call has made: the plan's refusals come first, but in withdrawing; any flag but 0 is held; every place votes */
static void set_of_any_bytes(void)
{
    const uint8_t *held[9] = {[4] = mark_a};
    uint8_t s[9] = NINES, d[9] = NINES, record[3] = {9, 9, 9};
    *set = holding(plan_a, held);
    uint8_t *plan = set->bytes;
    plan[2] = 9, plan[3] = 0, plan[4] = 0, plan[5] = 16, plan[6] = 7, plan[39] = 1;
    const struct { size_t place; uint8_t repaired; uint32_t before; } repairs[6] = {
        {39, 0, 1}, {2, 7, 2}, {3, 3, 3}, {4, 3, 13}, {5, 1, 4}, {6, 1, 5}};
    for (size_t k = 0; k < 6; k++) {
        uint32_t number = repairs[k].before;
        EXPECT(traymark_set_add(set, 9, mark_a, 8, sure, 8) == number && traymark_set_combine(set, s, 8, d, 8) == number);
        EXPECT(refused(traymark_set_read(set, record, 2), number) && traymark_set_withdraw(set, 0) == 18);
        plan[repairs[k].place] = repairs[k].repaired;
    }
    EXPECT(holds(plan_a, held) && s[0] == 9 && d[0] == 9 && record[0] == 9);
    set->bytes[42] = 77, set->bytes[49] = 254;
    EXPECT(traymark_set_add(set, 2, ALL(mark_a), ALL(sure)) == 17);
    const uint8_t first_full[9] = {100};
    EXPECT(combines(mark_a, first_full) && is(read_set(), 100, 500, 0, 0, 0)); /* 6 and 254 tie */
    EXPECT(traymark_set_withdraw(set, 2) == 0 && traymark_set_withdraw(set, 4) == 0 && refused(read_set(), 7));
    EXPECT(set->bytes[42] == 0 && set->bytes[44] == 0 && set->bytes[49] == 254);
}

/* 16 by 16 cells: nine photographs of the record 7, each with its own sixteen cells unread and seventeen wrong */
static void set_largest(void)
{
    uint8_t plan[40] = {1, 12, 251, 16, 16, 0}, symbols[256], doubts[256], record[2] = {9, 9};
    for (uint8_t k = 0; k < 16; k++)
        plan[6 + k] = plan[22 + k] = (uint8_t)(k * 16);
    EXPECT(traymark_set_start(set, ALL(plan)) == 0);
    for (uint32_t k = 0; k < 9; k++) {
        memset(symbols, 7, 256), memset(doubts, (int)k, 256);
        memset(symbols + 16 * k, 255, 16), memset(doubts + 16 * k, 250, 16);
        memset(symbols + 160 + k, 250, 1), memset(symbols + 240, 250, 16);
        EXPECT(traymark_set_add(set, k, ALL(symbols), ALL(doubts)) == 0);
        EXPECT(memcmp(set->bytes + 49 + 256 * k, symbols, 256) == 0 && set->bytes[40 + k] == 1);
    }
    EXPECT(traymark_set_combine(set, ALL(symbols), ALL(doubts)) == 0);
    for (size_t c = 0; c < 256; c++) {
        EXPECT(symbols[c] == (c < 240 ? 7 : 250));
        EXPECT(doubts[c] == (c >= 160 && c < 169 ? 56 : 0)); /* 8 to 1 */
    }
    /* nine cells in doubt 56 and sixteen wrong ones */
    EXPECT(is(traymark_set_read(set, record, 1), 9 * 56 + 16 * 500, 64000 - 9 * 56 - 16 * 500, 16, 0, 3));
    EXPECT(record[0] == 7 && record[1] == 9 && lent.before == 77 && lent.after == 88);
}

/* 16 by 16 cells from season 30 on: the highest margin, the lowest, as much as an answer costs, and the largest excess */
static void largest(void)
{
    static const uint8_t zeros[256], points[16] = {0, 1, 2, 3, 4, 5, 6, 7, 8, 9, 10, 11, 12, 13, 14, 15};
    uint8_t plan[40] = {0, 30, 251, 16, 16, 0}, symbols[256], doubts[256], record[136] = {9};
    memcpy(plan + 6, points, 16), memcpy(plan + 22, points, 16);
    memset(symbols, 7, 256), memset(doubts, 250, 256);
    EXPECT(is(traymark_read_mark(ALL(plan), ALL(symbols), ALL(zeros), record, 1), 0, 64000, 0, 0, 0) && record[0] == 7);
    EXPECT(refused(traymark_read_mark(ALL(plan), ALL(symbols), ALL(doubts), record, 1), 10));
    memset(symbols + 1, 255, 255), doubts[0] = 249;
    EXPECT(is(traymark_read_mark(ALL(plan), ALL(symbols), ALL(doubts), record, 1), 63999, 1, 0, 255, 0));
    plan[5] = 15, memset(symbols, 8, 8), memset(symbols + 8, 7, 248);
    EXPECT(is(traymark_measure_mark(ALL(plan), zeros, 136, ALL(symbols), ALL(zeros)), 128000, -124000, 256, 0, 3));
    EXPECT(gives(traymark_explain_mark(ALL(plan), zeros, 136, ALL(symbols), ALL(zeros), ALL(record)), 0, 3, 0, 124000));
}

/* a mark of radius 300, its last cell misread as 4 and its first in doubt; a strip of as many cells as rows, its last cell in
   doubt 99 */
static void oblong(const uint8_t plan[40], const uint8_t mark[6], const uint8_t *strip, size_t rows, int32_t strip_margin)
{
    uint8_t written[6], misread[6], doubts[6] = {100}, last[3] = {0}, record[3] = {9, 9, 9};
    memcpy(misread, mark, 5), misread[5] = 4;
    EXPECT(traymark_write_mark(plan, 40, ALL(record_a), ALL(written)) == 0 && memcmp(written, mark, 6) == 0);
    EXPECT(refused(traymark_read_mark(plan, 40, ALL(misread), ALL(doubts), ALL(record)), 10) && record[0] == 9);
    EXPECT(is(traymark_measure_mark(plan, 40, ALL(record_a), ALL(misread), ALL(doubts)), 300, 0, 1, 0, 1));
    doubts[0] = 99;
    EXPECT(is(traymark_read_mark(plan, 40, ALL(misread), ALL(doubts), ALL(record)), 299, 1, 1, 0, 1));
    EXPECT(memcmp(record, record_a, 3) == 0);
    last[rows - 1] = 99, memset(record, 9, 3);
    EXPECT(traymark_write_strip(plan, 40, record_a, 2, written, rows) == 0 && memcmp(written, strip, rows) == 0);
    EXPECT(is(traymark_measure_strip(plan, 40, record_a, 2, strip, rows, last, rows), 99, strip_margin, 0, 0, 0));
    EXPECT(is(traymark_read_strip(plan, 40, strip, rows, last, rows, record, 2), 99, strip_margin, 0, 0, 0));
    EXPECT(record[0] == 3 && record[1] == 1 && record[2] == 9);
}

int main(void)
{
    check_plan();
    find_plan();
    find_season();
    season_refused();
    seasons_many();
    widen_plans();
    widen_many();
    write_and_measure();
    read_marks();
    read_strips();
    read_later();
    two_seasons();
    oblong(plan_w, mark_w, ALL(strip_w), 1);   /* the strip's radius is 100 */
    oblong(plan_t, mark_t, ALL(strip_t), 101); /* and here 200 */
    explain_marks();
    explain_strips();
    explain_refused();
    explain_oblongs();
    mask();
    mask_largest();
    mask_refused();
    mask_and_read();
    sets();
    set_votes();
    set_refused();
    set_of_any_bytes();
    set_largest();
    largest();
    printf("calls.c: ok: %d tests\n", tests);
    return 0;
}
