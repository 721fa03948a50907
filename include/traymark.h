/*
 * traymark: square and oblong marks on fruit trays, written and read.
 *
 * Twenty-two calls over plain bytes. Each is proved to give what its comment says, for any bytes and any lengths.
 * `make lib` writes the library, and `cc -Iinclude program.c target/staticlib/libtraymark.a` links a program with it.
 *
 * Words
 *   plan     40 bytes: season (2, high byte first), p, rows, columns, d, sixteen row points, sixteen column points, two
 *            zeros. p is a prime from 2 to 251; rows and columns, the sides, are each 1 to 16 and at most p; d, the
 *            degree, is below the smaller side. As many row points as there are rows are below p and strictly rising,
 *            the other row point bytes 0; the column points likewise. Point 0 may be used.
 *   record   the coefficients of a polynomial, each below p. Of a mark: K = (d + 1)(d + 2) / 2 bytes, a polynomial in X
 *            and Y, by total degree from 0 to d and within one degree by rising power of Y: the coefficient of
 *            X^(k - j) Y^j is at k(k + 1) / 2 + j. Of a strip: K = d + 1 bytes, a polynomial in X, lowest power first.
 *   mark     N = rows * columns bytes: at i * columns + j the polynomial's value modulo p for X the i-th row point and Y
 *            the j-th column point, both counted from 0.
 *   strip    N = rows bytes: at i the polynomial's value modulo p for X the i-th row point. The plan is checked whole.
 *   symbols  N bytes of a photograph: each below p, or 255 for an unread cell.
 *   doubts   N bytes of a photograph: each 0 to the full doubt, and exactly that where the cell is unread. The full doubt F is
 *            100 for plans of seasons before 30, and 250 for plans of season 30 and later.
 *   cost     D, the sum over the cells: the doubt where the symbol is the record's value, else 2 * F less the doubt.
 *   radius   R, of a mark F * the larger side * (the smaller side - d), of a strip F * (rows - d). At most one record costs
 *            under R.
 *   date     4 bytes: year (2, high byte first), month, day. It is real where the Gregorian calendar has that day and the
 *            year is 1900 to 2199: 29 February 2000 is real, 29 February 1900 and 2100 are not.
 *   window   12 bytes: season (2, high byte first), first date, last date, two zeros. The days of the season are those from
 *            the first date to the last, both included; it may cross New Year, and it may be one day.
 *   set      2,353 bytes: a plan, and of up to nine photographs of one mark, numbered 0 to 8, the symbols of those that are
 *            held. A set begins with traymark_set_start.
 *
 * Buffers
 *   A buffer is a pointer and a length, in that order. The pointer is not null and points to that many bytes; where the
 *   length is 0 it is not followed. A `const` buffer is only read. A buffer that a call writes must overlap no other
 *   buffer of that call; its old bytes are not looked at, but for symbols that are masked or unmasked in place, and for sets.
 *   A set is lent like a buffer, behind a pointer alone. But for the bytes of sets, which are the caller's, nothing is kept
 *   after the call returns; nothing is allocated, there is no other state: calls may run in several threads at once, those
 *   on one set as is said there.
 *
 * Numbers
 *   Every call but traymark_set_size answers with a number: 0, or the refusal that applies. Where several apply, the first
 *   of those that the call names is given; they are named in the order of this list, 13 between 3 and 4, 17 and 18 between
 *   6 and 7, but for widening, 11 before 6.
 *   A REFUSAL CHANGES NO LENT BYTE. (*offset and *season of the two finders are results, and are then 0.)
 *
 *    1  the plan is not 40 bytes long, or its byte 38 or 39 is not 0
 *    2  p is not a prime from 2 to 251
 *    3  rows are 0, above 16 or above p
 *   13  columns are 0, above 16 or above p
 *    4  d is not below the smaller side
 *    5  a row point, or then a column point, is p or more or not above the one before it, or an unused point byte of
 *       either set is not 0
 *    6  a lent buffer (symbols, doubts, record, another record, mark, strip or widened plans) has not its exact length
 *   17  the number of a photograph to add is above 8, or held
 *   18  the number of a photograph to withdraw is not held, as none above 8 is
 *    7  a symbol is p or more and not 255
 *    8  a doubt is above the full doubt, or that of an unread cell is not the full doubt
 *    9  a coefficient of a given record is p or more
 *   10  reading only, a set too: no record costs under R
 *   11  the plan file's length is no multiple of 40; widening: more than 1,000 plans, or a length no multiple of 24
 *   12  no plan in the file has the season
 *   14  the window file's length is no multiple of 12, it has more than 64 windows, a date in it is unreal, a last date is
 *       before its first, or one of the last two bytes of a window is not 0
 *   15  two windows share a day, whatever their seasons
 *   16  the date asked for is unreal, or in no window
 */
#ifndef TRAYMARK_H
#define TRAYMARK_H

#include <stddef.h>
#include <stdint.h>

#ifdef __cplusplus
extern "C" {
#endif

/* What measuring and reading answer. A cell is right, changed or unread. Of a refusal everything but the number is 0. */
typedef struct {
    uint32_t number;  /* 0, or the refusal */
    uint32_t cost;    /* D */
    int32_t margin;   /* R - D: for marks from -124000 to 64000, before season 30 from -49600 to 25600; above 0 where the
                         record is within the radius */
    uint32_t changed; /* cells that were read and whose symbol is not the record's value */
    uint32_t unread;  /* cells that were not read, their symbol being 255; none of them is counted in changed */
    uint32_t class_;  /* by changed alone: 0 is class 0, 1 to 3 class 1, 4 to 15 class 2, 16 and more class 3 */
} traymark_reading;

/* What explaining answers. The answer is the record that costs under R. Of a refusal everything but the number is 0. */
typedef struct {
    uint32_t number; /* 0, or the refusal */
    uint32_t reason; /* 1 the expected record is the answer, 2 another record is, 3 there is none */
    uint32_t place;  /* of reason 2 the lowest place at which the marks, or strips, of the two records differ; else 0 */
    uint32_t excess; /* of reason 3 the expected record's cost less R, 0 or more; else 0 */
} traymark_reason;

/* How many bytes a set has. traymark_set_size gives the library's own number, to compare. */
#define TRAYMARK_SET_SIZE 2353

/*
 * A set, in memory of the caller's: anywhere, of any alignment. Nothing else is kept of it, so a copy of the bytes is a set too,
 * and one that is no longer wanted needs no call.
 *
 *   0 to 39      the plan
 *   40 to 48     for each number 0 to 8: 0 where it is not held, else held; the calls write 1
 *   49 to 2352   for each number 256 symbols, those of number k from 49 + 256 * k on: of a photograph that is held its rows *
 *                columns symbols, then 255s; of one that is not held 256 times 255
 */
typedef struct {
    uint8_t bytes[TRAYMARK_SET_SIZE];
} traymark_set;

/*
 * Checks a plan.
 *
 *   plan     read
 *   result   0 where the plan is sound; refusals 1 2 3 13 4 5
 */
uint32_t traymark_check_plan(const uint8_t *plan, size_t plan_len);

/*
 * Finds the first plan of a season in a plan file, which is plans of 40 bytes one after another with no header.
 * So a plan is corrected by putting the right one ahead of it in the file. Only the season bytes are compared; the plan
 * found is not checked. An empty file has no plan.
 *
 *   file     read
 *   offset   always written: where the number is 0, the place in the file of the first plan of the season, a multiple
 *            of 40, so that the plan is the 40 bytes from file + *offset; else 0
 *   result   0; refusals 11 12
 */
uint32_t traymark_find_plan(const uint8_t *file, size_t file_len, uint16_t season, size_t *offset);

/*
 * Finds the season of a date in a window file, which is at most 64 windows one after another with no header and in any
 * order; traymark_find_plan then finds the season's plan. The whole file is checked before the date is looked for, so one
 * that gets 14 or 15 gets it for every date. A window that ends on 30 June and one that begins on 1 July share no day; the same
 * window twice shares all. Several windows may have one season, and 0 is a season like any other. An empty file has no window.
 *
 *   file     read
 *   year     with month and day the date asked for. Each may be any number: an unreal date gets 16, as does one of a year
 *            before 1900 or after 2199
 *   month    1 is January
 *   day      1 is the first of the month
 *   season   always written: where the number is 0, the season of the one window that has the date; else 0
 *   result   0; refusals 14 15 16
 */
uint32_t traymark_find_season(const uint8_t *file, size_t file_len, uint32_t year, uint32_t month, uint32_t day,
                              uint16_t *season);

/*
 * Widens plans of the old form, for squares alone: season (2), p, n, d, sixteen points, three bytes of 0, 24 bytes in all.
 * Each becomes a plan of 40 bytes with n for rows and columns, the points for both sets and zeros at the end, in the same
 * order. No plan is checked: an unsound one is widened all the same, and its last three bytes are dropped, whatever they
 * hold.
 *
 *   old      read; at most 1,000 plans of the old form, one after another with no header
 *   wide     written whole where the number is 0; 40 bytes for each plan
 *   result   0; refusals 11 6: 11 where there are more than 1,000 plans or old_len is no multiple of 24, else 6 where
 *            wide_len is not 40 for each 24 of old_len
 */
uint32_t traymark_widen_plans(const uint8_t *old, size_t old_len, uint8_t *wide, size_t wide_len);

/*
 * Writes the mark of a record.
 *
 *   plan     read
 *   record   read; K bytes
 *   mark     written whole where the number is 0; rows * columns bytes
 *   result   0; refusals 1 2 3 13 4 5 6 9
 */
uint32_t traymark_write_mark(const uint8_t *plan, size_t plan_len,
                             const uint8_t *record, size_t record_len,
                             uint8_t *mark, size_t mark_len);

/*
 * Measures a given record against a photographed mark. A record at the radius or beyond it is no refusal: its margin is
 * 0 or below.
 *
 *   plan     read
 *   record   read; K bytes
 *   symbols  read; rows * columns bytes
 *   doubts   read; rows * columns bytes
 *   result   the record's cost, margin, changed and unread counts and class; refusals 1 2 3 13 4 5 6 7 8 9
 */
traymark_reading traymark_measure_mark(const uint8_t *plan, size_t plan_len,
                                       const uint8_t *record, size_t record_len,
                                       const uint8_t *symbols, size_t symbols_len,
                                       const uint8_t *doubts, size_t doubts_len);

/*
 * Reads a photographed mark: the one record that costs under R, or refusal 10 exactly where there is none.
 *
 *   plan     read
 *   symbols  read; rows * columns bytes
 *   doubts   read; rows * columns bytes
 *   record   written whole where the number is 0; K bytes
 *   result   that record's cost, margin, changed and unread counts and class; refusals 1 2 3 13 4 5 6 7 8 10
 */
traymark_reading traymark_read_mark(const uint8_t *plan, size_t plan_len,
                                    const uint8_t *symbols, size_t symbols_len,
                                    const uint8_t *doubts, size_t doubts_len,
                                    uint8_t *record, size_t record_len);

/*
 * Explains why the record that was expected of a photographed mark did not come up: exactly one of three reasons holds.
 * A station calls it with the record of the tray that its staff expected. With reason 1 that tray did come up. With
 * reason 2 `other` is the record of the tray that is there, and place the first cell at which the two marks have different
 * values. With reason 3 no record costs under R; the expected one would have to cost excess + 1 less.
 *
 *   plan     read
 *   record   read; K bytes, the expected record
 *   symbols  read; rows * columns bytes
 *   doubts   read; rows * columns bytes
 *   other    written whole where the reason is 2, with the record that is the answer; else unchanged; K bytes
 *   result   the reason, with its place or excess; refusals 1 2 3 13 4 5 6 7 8 9
 */
traymark_reason traymark_explain_mark(const uint8_t *plan, size_t plan_len,
                                      const uint8_t *record, size_t record_len,
                                      const uint8_t *symbols, size_t symbols_len,
                                      const uint8_t *doubts, size_t doubts_len,
                                      uint8_t *other, size_t other_len);

/*
 * The same four for a strip, a cell for each row point: its record has d + 1 bytes and its radius is F * (rows - d).
 *
 * Writes the strip of a record.
 *
 *   plan     read
 *   record   read; d + 1 bytes
 *   strip    written whole where the number is 0; rows bytes
 *   result   0; refusals 1 2 3 13 4 5 6 9
 */
uint32_t traymark_write_strip(const uint8_t *plan, size_t plan_len,
                              const uint8_t *record, size_t record_len,
                              uint8_t *strip, size_t strip_len);

/*
 * Measures a given record against a photographed strip.
 *
 *   plan     read
 *   record   read; d + 1 bytes
 *   symbols  read; rows bytes
 *   doubts   read; rows bytes
 *   result   the record's cost, margin, changed and unread counts and class; refusals 1 2 3 13 4 5 6 7 8 9
 */
traymark_reading traymark_measure_strip(const uint8_t *plan, size_t plan_len,
                                        const uint8_t *record, size_t record_len,
                                        const uint8_t *symbols, size_t symbols_len,
                                        const uint8_t *doubts, size_t doubts_len);

/*
 * Reads a photographed strip: the one record that costs under R, or refusal 10 exactly where there is none.
 *
 *   plan     read
 *   symbols  read; rows bytes
 *   doubts   read; rows bytes
 *   record   written whole where the number is 0; d + 1 bytes
 *   result   that record's cost, margin, changed and unread counts and class; refusals 1 2 3 13 4 5 6 7 8 10
 */
traymark_reading traymark_read_strip(const uint8_t *plan, size_t plan_len,
                                     const uint8_t *symbols, size_t symbols_len,
                                     const uint8_t *doubts, size_t doubts_len,
                                     uint8_t *record, size_t record_len);

/*
 * Explains why the record that was expected of a photographed strip did not come up.
 *
 *   plan     read
 *   record   read; d + 1 bytes, the expected record
 *   symbols  read; rows bytes
 *   doubts   read; rows bytes
 *   other    written whole where the reason is 2, with the record that is the answer; else unchanged; d + 1 bytes
 *   result   the reason, with its place or excess; refusals 1 2 3 13 4 5 6 7 8 9
 */
traymark_reason traymark_explain_strip(const uint8_t *plan, size_t plan_len,
                                       const uint8_t *record, size_t record_len,
                                       const uint8_t *symbols, size_t symbols_len,
                                       const uint8_t *doubts, size_t doubts_len,
                                       uint8_t *other, size_t other_len);

/*
 * Masks: the mark, or strip, of a record Q is put on symbols cell by cell, and taken off. A station prints the marks of a
 * trial with one Q on all of them, to keep its evaluators from telling plots by eye.
 *
 * To print a masked mark, write the mark of the tray's record and mask it with Q. It is then the mark of that record plus Q,
 * coefficient by coefficient modulo p.
 *
 * To get the tray's record from a photograph of a masked mark, unmask the symbols with Q, by the same plan, and read them with
 * the doubts as they are. For every Q, a photograph that has Q's mark on all its read cells and the one without it read alike:
 * both with 10, or both with 0, the same cost, margin, changed and unread counts and class, and the record with Q's mark on is
 * the one without plus Q, coefficient by coefficient modulo p. So what is read of the unmasked symbols is the masked
 * photograph's record less Q.
 *
 * Unmasking what was masked gives the same bytes again, and so does masking what was unmasked, for any bytes whatever: the
 * two refuse the same bytes with the same number. Doubts have no part in it. An unread cell stays unread and keeps the full
 * doubt, so a photograph stays one.
 *
 * Masks a mark, photographed or written.
 *
 *   plan     read
 *   record   read; K bytes, Q
 *   symbols  changed where the number is 0: each that is not 255 becomes itself plus Q's value in that cell, modulo p; an unread
 *            cell, 255, stays; rows * columns bytes
 *   result   0; refusals 1 2 3 13 4 5 6 7 9
 */
uint32_t traymark_mask_mark(const uint8_t *plan, size_t plan_len,
                            const uint8_t *record, size_t record_len,
                            uint8_t *symbols, size_t symbols_len);

/*
 * Unmasks a mark.
 *
 *   plan     read
 *   record   read; K bytes, Q
 *   symbols  changed where the number is 0: each that is not 255 becomes itself less Q's value in that cell, modulo p; an unread
 *            cell, 255, stays; rows * columns bytes
 *   result   0; refusals 1 2 3 13 4 5 6 7 9
 */
uint32_t traymark_unmask_mark(const uint8_t *plan, size_t plan_len,
                              const uint8_t *record, size_t record_len,
                              uint8_t *symbols, size_t symbols_len);

/*
 * The same two for a strip. Masks a strip, photographed or written.
 *
 *   plan     read
 *   record   read; d + 1 bytes, Q
 *   symbols  changed where the number is 0: each that is not 255 becomes itself plus Q's value in that cell, modulo p; an unread
 *            cell, 255, stays; rows bytes
 *   result   0; refusals 1 2 3 13 4 5 6 7 9
 */
uint32_t traymark_mask_strip(const uint8_t *plan, size_t plan_len,
                             const uint8_t *record, size_t record_len,
                             uint8_t *symbols, size_t symbols_len);

/*
 * Unmasks a strip.
 *
 *   plan     read
 *   record   read; d + 1 bytes, Q
 *   symbols  changed where the number is 0: each that is not 255 becomes itself less Q's value in that cell, modulo p; an unread
 *            cell, 255, stays; rows bytes
 *   result   0; refusals 1 2 3 13 4 5 6 7 9
 */
uint32_t traymark_unmask_strip(const uint8_t *plan, size_t plan_len,
                               const uint8_t *record, size_t record_len,
                               uint8_t *symbols, size_t symbols_len);

/*
 * Sets: up to nine photographs of one mark, numbered 0 to 8, are added as they arrive, and one whose focus was poor is withdrawn;
 * those that are held are combined cell by cell, and the combination is read like any photograph. It is always the one that is
 * made afresh from those held, in whatever order they came and whatever was withdrawn between.
 *
 * The combined cell: each photograph held casts a vote for its symbol there, and none where the cell is unread. The symbol is the
 * one with most votes, the smallest of them where several tie. With t votes in all, m for that symbol and s for the next (0 where
 * there is no other), its doubt is F less the whole part of F * (m - s) / t: 0 where all agree, F where several tie for
 * most votes. Without a vote the cell is unread, 255, with the doubt F. A photograph's own doubts are checked when it is added,
 * and not used.
 *
 *     votes                symbol   doubt where F is 100, 250
 *     4                    4        0    0
 *     5 5 5 5 5 5 5 5 5    5        0    0
 *     6 6 6 6 6 0 0 0 0    6        89   223
 *     3 3 3 3 1 1 1 0 0    3        89   223
 *     6 2                  2        100  250
 *     none                 255      100  250
 *
 * A set takes TRAYMARK_SET_SIZE bytes of the caller's memory. That is all there is of it: nothing is allocated, nothing is kept
 * elsewhere, and there may be any number of sets. A set begins with traymark_set_start, which looks at no byte of what was there,
 * and needs no end. The other calls trust nothing in a set and answer any bytes whatever: the plan in it is checked at each use.
 * In a set that was started, and changed by these calls alone, it is never refused.
 *
 * Two threads may not use one set at the same time where one of them starts it, adds or withdraws; combining and reading leave
 * it as it is, and may be done in several threads at once.
 *
 * The size of a set, in bytes.
 *
 *   result   TRAYMARK_SET_SIZE, of the library that is linked
 */
size_t traymark_set_size(void);

/*
 * Starts a set: no photograph is held. A set that is in use is emptied, and has the new plan; to start it again by its own, lend
 * a copy of that.
 *
 *   set      written whole where the number is 0: the plan, nine zeros, 2,304 times 255; else unchanged
 *   plan     read
 *   result   0; refusals 1 2 3 13 4 5
 */
uint32_t traymark_set_start(traymark_set *set, const uint8_t *plan, size_t plan_len);

/*
 * Adds a photograph. A number that was withdrawn can be used again.
 *
 *   set         changed where the number is 0: the symbols go into their place, and the photograph is held; else unchanged
 *   photograph  its number, 0 to 8; any other gets 17
 *   symbols     read; rows * columns bytes
 *   doubts      read, and checked by 8; rows * columns bytes. They are not kept
 *   result      0; refusals 1 2 3 13 4 5 of the plan in the set, then 6 17 7 8
 */
uint32_t traymark_set_add(traymark_set *set, uint32_t photograph,
                          const uint8_t *symbols, size_t symbols_len,
                          const uint8_t *doubts, size_t doubts_len);

/*
 * Withdraws a photograph. The plan in the set is not looked at.
 *
 *   set         changed where the number is 0: the 256 symbols in the photograph's place become 255, and it is not held; else
 *               unchanged
 *   photograph  its number, 0 to 8; any other gets 18
 *   result      0; refusal 18
 */
uint32_t traymark_set_withdraw(traymark_set *set, uint32_t photograph);

/*
 * Combines the photographs that are held into one. Of a set that these calls have made from its start it is a photograph of the
 * plan: refusals 1 to 8 and 13 never meet it.
 *
 *   set      read; in bytes that the calls have not made, each of the nine places votes, held or not
 *   symbols  written whole where the number is 0; rows * columns bytes
 *   doubts   written whole where the number is 0; rows * columns bytes
 *   result   0; refusals 1 2 3 13 4 5 of the plan in the set, then 6
 */
uint32_t traymark_set_combine(const traymark_set *set, uint8_t *symbols, size_t symbols_len,
                              uint8_t *doubts, size_t doubts_len);

/*
 * Reads the combination: the number, the result and the record are those that traymark_read_mark gives with the plan in the set
 * and what traymark_set_combine makes of the set.
 *
 *   set      read
 *   record   written whole where the number is 0; K bytes
 *   result   that record's cost, margin, changed and unread counts and class; refusals 6 and 10. Of bytes that the
 *            calls have not made: 1 2 3 13 4 5 of the plan in them, 6, 7 where a combined symbol is p or more, 10
 */
traymark_reading traymark_set_read(const traymark_set *set, uint8_t *record, size_t record_len);

#ifdef __cplusplus
}
#endif

#endif
