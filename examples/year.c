/* A year book with its sums, from opening to each unit's year. Argument: a file with a sheet.
 *
 * Opens a book with the sheet, posts it as January and as February, posts January again, which is refused, replaces
 * February by a month without heat, withdraws January, and prints every unit's year in between. */
#include <stdio.h>
#include <stdlib.h>

#include "heatcost.h"

#define MAX_SHEET HEATCOST_SHEET_LEN(HEATCOST_MAX_UNITS)

/* Both lists of a year; they are kept together, and every call gets both. Some 72 KB; opening needs no values in it. */
struct year {
    uint32_t book[HEATCOST_BOOK_LEN];
    uint64_t sums[HEATCOST_SUMS_LEN];
};

static void say(const char *what, uint32_t answer)
{
    printf("%s: ", what);
    if (answer != HEATCOST_ACCEPTED)
        printf("refused %d %d, ", (int)HEATCOST_NUMBER(answer), (int)HEATCOST_PLACE(answer));
    printf("%s\n", heatcost_text(answer));
}

static uint32_t open_year(struct year *y, const uint8_t *sheet, size_t sheet_len)
{
    return heatcost_open(y->book, HEATCOST_BOOK_LEN, y->sums, HEATCOST_SUMS_LEN, sheet, sheet_len);
}

static uint32_t post(struct year *y, const uint8_t *sheet, size_t sheet_len)
{
    return heatcost_post(y->book, HEATCOST_BOOK_LEN, y->sums, HEATCOST_SUMS_LEN, sheet, sheet_len);
}

static uint32_t replace(struct year *y, const uint8_t *sheet, size_t sheet_len)
{
    return heatcost_replace(y->book, HEATCOST_BOOK_LEN, y->sums, HEATCOST_SUMS_LEN, sheet, sheet_len);
}

static uint32_t withdraw(struct year *y, uint32_t month)
{
    return heatcost_withdraw(y->book, HEATCOST_BOOK_LEN, y->sums, HEATCOST_SUMS_LEN, month);
}

static uint32_t unit_year(const struct year *y, uint32_t place, uint64_t *totals)
{
    return heatcost_year(y->book, HEATCOST_BOOK_LEN, y->sums, HEATCOST_SUMS_LEN, place, totals, HEATCOST_TOTALS_LEN);
}

/* A line a unit, until the place isn't one: months that stand, four sums of Wh, four of cents. */
static void print_year(const struct year *y)
{
    uint64_t totals[HEATCOST_TOTALS_LEN];
    uint32_t place;
    int i;
    for (place = 0; unit_year(y, place, totals) == HEATCOST_ACCEPTED; place++) {
        printf("unit %d: months %d, sums", (int)place, (int)totals[0]);
        for (i = 1; i < HEATCOST_TOTALS_LEN; i++)
            printf(" %lu", (unsigned long)totals[i]);
        printf("\n");
    }
}

static void run(struct year *y, uint8_t *sheet, size_t sheet_len)
{
    uint32_t answer = open_year(y, sheet, sheet_len);
    say("open", answer);
    if (answer != HEATCOST_ACCEPTED)
        return;
    sheet[6] = 1;
    say("post January", post(y, sheet, sheet_len));
    sheet[6] = 2;
    say("post February", post(y, sheet, sheet_len));
    print_year(y);
    sheet[6] = 1;
    say("post January again", post(y, sheet, sheet_len));
    sheet[6] = 2;
    sheet[16] = sheet[17] = sheet[18] = sheet[19] = 0; /* the shared meter */
    say("replace February", replace(y, sheet, sheet_len));
    print_year(y);
    say("withdraw January", withdraw(y, 1));
    print_year(y);
}

int main(int argc, char **argv)
{
    static uint8_t sheet[MAX_SHEET + 1];
    FILE *file = argc == 2 ? fopen(argv[1], "rb") : NULL;
    struct year *y = (struct year *)malloc(sizeof *y);
    if (file == NULL || y == NULL) {
        fprintf(stderr, "usage: year SHEET, a file that can be read\n");
        return 2;
    }
    run(y, sheet, fread(sheet, 1, sizeof sheet, file));
    fclose(file);
    free(y);
    return 0;
}
