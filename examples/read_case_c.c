/* Reads a photographed mark, case c of document 01: plan A and the mark of 3 + X + 2Y, two of its cells misread.
   Prints what the program `trayread` prints. */
#include <inttypes.h>
#include <stdio.h>

#include "traymark.h"

int main(void)
{
    /* season 12, p 7, 3 rows, 3 columns, d 1, row points 1 2 4, and from byte 22 on column points 1 2 4; all else is 0 */
    const uint8_t plan[40] = {0, 12, 7, 3, 3, 1, 1, 2, 4, [22] = 1, 2, 4};
    const uint8_t symbols[9] = {0, 1, 5, 0, 2, 6, 2, 4, 0};
    const uint8_t doubts[9] = {0};
    uint8_t record[3];

    traymark_reading r = traymark_read_mark(plan, sizeof plan, symbols, sizeof symbols,
                                            doubts, sizeof doubts, record, sizeof record);
    if (r.number != 0) {
        printf("REFUSED %" PRIu32 "\n", r.number);
        return 0;
    }
    printf("READ %d %" PRIu32 " %" PRIu32 " %" PRIu32 " %" PRIu32 " %" PRId32 "\n",
           plan[0] * 256 + plan[1], r.changed, r.unread, r.class_, r.cost, r.margin);
    printf("RECORD");
    for (size_t k = 0; k < sizeof record; k++)
        printf(" %d", record[k]);
    printf("\n");
    return 0;
}
