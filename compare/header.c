/* What include/heatcost.h says beside the calls: lengths, the parts of an answer, texts, places, NULL with a count of
 * 0, lists without values, calls side by side in threads. */
#include <pthread.h>
#include <stdio.h>
#include <stdlib.h>
#include <string.h>

#include "heatcost.h"
/* Twice does no harm. */
#include "heatcost.h"

static int failed = 0;

static void expect(const char *what, unsigned long found, unsigned long wanted)
{
    if (found != wanted) {
        printf("%s is %lu, not %lu\n", what, found, wanted);
        failed = 1;
    }
}

#define EXPECT(found, wanted) expect(#found, (unsigned long)(found), wanted)

static void lengths(void)
{
    size_t n = 3;
    EXPECT(HEATCOST_SHEET_LEN(n), 144);
    EXPECT(HEATCOST_SHEET_LEN(1 + 2), 144);
    EXPECT(HEATCOST_STATEMENT_LEN(1 + 2), 24);
    EXPECT(HEATCOST_CHARGES_LEN(1 + 2), 9);
    EXPECT(HEATCOST_CHARGES_LEN(HEATCOST_MAX_UNITS), 480);
    EXPECT(HEATCOST_RECORD_LEN(1 + 2), 248);
    EXPECT(HEATCOST_RECORD_LEN(HEATCOST_MAX_UNITS), 10296);
    EXPECT(HEATCOST_PRINT_LEN(1 + 2), 346);
    EXPECT(HEATCOST_PRINT_LEN(HEATCOST_MAX_UNITS), 15889);
    EXPECT(HEATCOST_STATEMENT_LEN(HEATCOST_MAX_BUILDINGS * HEATCOST_MAX_UNITS), 15360);
    EXPECT(sizeof(heatcost_building), 16);
    EXPECT(offsetof(heatcost_building, offset), 0);
    EXPECT(offsetof(heatcost_building, length), 8);
}

static void answers(void)
{
    EXPECT(HEATCOST_NUMBER(512 + 6), HEATCOST_ROW_FIELD);
    EXPECT(HEATCOST_PLACE(512 + 6), 2);
    EXPECT(HEATCOST_PLACE(256 * 1919 + 7), 1919);
    EXPECT(strcmp(heatcost_text(518), heatcost_text(HEATCOST_ROW_FIELD)), 0);
    EXPECT(HEATCOST_NUMBER(256 * 159 + 20), HEATCOST_FIELD_CONFLICT);
    EXPECT(HEATCOST_PLACE(256 * 159 + 20), 159);
    EXPECT(HEATCOST_PLACE(256 * 44 + 4), 44);
    EXPECT(strcmp(heatcost_text(256 * 1760 + 22), heatcost_text(HEATCOST_BAD_GROUP)), 0);
    EXPECT(strcmp(heatcost_text(HEATCOST_FUND_FULL + 1), "no such number"), 0);
    EXPECT(strcmp(heatcost_text(255), "no such number"), 0);
}

/* A sheet of model 2 with one unit. */
static void make_sheet(uint8_t *sheet, uint8_t meter)
{
    static const uint8_t start[] = {'H', 'C', 'S', 0, 1, 0, 1, 2, 1}; /* to n */
    memset(sheet, 0, HEATCOST_SHEET_LEN(1));
    memcpy(sheet, start, sizeof start);
    sheet[17] = meter; /* in 256 Wh */
    sheet[22] = 1;     /* price, in 0.65536 EUR/kWh */
    sheet[48 + 6] = 1; /* location factor */
    sheet[48 + 8] = 1; /* heated area */
}

/* 4 with its byte, in a record too; 6 and 20. */
static void places(void)
{
    uint8_t sheet[HEATCOST_SHEET_LEN(1)];
    uint8_t record[HEATCOST_RECORD_LEN(1)];
    uint32_t statement[HEATCOST_STATEMENT_LEN(1)];
    make_sheet(sheet, 0);
    EXPECT(heatcost_write_record(sheet, sizeof sheet, record, sizeof record), HEATCOST_ACCEPTED);
    sheet[48 + 4] = 1; /* status, in model 2 */
    EXPECT(heatcost_settle(sheet, sizeof sheet, statement, HEATCOST_STATEMENT_LEN(1)), HEATCOST_FIELD_CONFLICT);
    sheet[48 + 4] = 5;
    EXPECT(heatcost_settle(sheet, sizeof sheet, statement, HEATCOST_STATEMENT_LEN(1)), HEATCOST_ROW_FIELD);
    sheet[44] = 1; /* the last hot water reading, with source 0 */
    EXPECT(heatcost_settle(sheet, sizeof sheet, statement, HEATCOST_STATEMENT_LEN(1)), 256 * 44 + 4);
    record[8 + 11] = 1; /* base percent, in model 2 */
    EXPECT(heatcost_read_record(record, sizeof record), 256 * 11 + 4);
}

/* A group of two: places in its second building, 4's byte and a place of 0 too; what refuses the group; sheets that are
 * one. */
static void groups(void)
{
    enum { LEN = HEATCOST_SHEET_LEN(1), NUMBERS = HEATCOST_STATEMENT_LEN(2) };
    uint8_t sheets[2 * LEN];
    uint32_t statement[NUMBERS];
    heatcost_building two[2] = {{0, LEN}, {LEN, LEN}};
    make_sheet(sheets, 1);
    make_sheet(sheets + LEN, 2);
    EXPECT(heatcost_settle_group(sheets, 2 * LEN, two, 2, 768, statement, NUMBERS), HEATCOST_ACCEPTED);
    EXPECT(statement[0], 256);
    EXPECT(statement[8], 512);
    EXPECT(heatcost_settle_group(sheets, 2 * LEN, two, 2, 770, statement, NUMBERS), HEATCOST_ACCEPTED);
    EXPECT(statement[1], 1);
    EXPECT(statement[9], 1);
    EXPECT(heatcost_settle_group(sheets, 2 * LEN, two, 2, 766, statement, NUMBERS), HEATCOST_NEGATIVE_COMMON_HEAT);
    EXPECT(heatcost_settle_group(sheets, 2 * LEN, two, 2, 0, statement, 8), HEATCOST_BUFFER_LENGTH);
    EXPECT(heatcost_settle_group(sheets, 2 * LEN, two, 2, 4000000001u, statement, NUMBERS), HEATCOST_BAD_GROUP);
    EXPECT(heatcost_settle_group(sheets, 2 * LEN - 1, two, 2, 768, statement, NUMBERS), HEATCOST_BAD_GROUP);
    sheets[LEN + 48 + 4] = 1; /* status, in model 2 */
    EXPECT(heatcost_settle_group(sheets, 2 * LEN, two, 2, 768, statement, NUMBERS), 256 * 160 + 20);
    sheets[LEN + 44] = 1; /* the last hot water reading, with source 0 */
    EXPECT(heatcost_settle_group(sheets, 2 * LEN, two, 2, 768, statement, NUMBERS), 256 * (160 + 44) + 4);
    two[1].length = 47;
    EXPECT(heatcost_settle_group(sheets, 2 * LEN, two, 2, 768, statement, NUMBERS), 256 * 160 + 1);
    two[1] = two[0];
    EXPECT(heatcost_settle_group(sheets, LEN, two, 2, 512, statement, NUMBERS), HEATCOST_ACCEPTED);
}

/* Charges of one unit: amounts and model at their limits, no load, a list that stays, a month that 8 refuses, and 4 with
 * a byte of the sheet. */
static void charges(void)
{
    enum { MOST = HEATCOST_MAX_CHARGE, NUMBERS = HEATCOST_CHARGES_LEN(1) };
    uint8_t sheet[HEATCOST_SHEET_LEN(1)];
    uint32_t list[NUMBERS];
    make_sheet(sheet, 0);
    EXPECT(heatcost_fixed_charges(sheet, sizeof sheet, 2, MOST, 2, 3, list, NUMBERS), HEATCOST_ACCEPTED);
    EXPECT(list[0], MOST);
    EXPECT(list[1], 2);
    EXPECT(list[2], 3);
    EXPECT(heatcost_fixed_charges(sheet, sizeof sheet, 2, MOST + 1, 2, 3, list, NUMBERS), HEATCOST_HEADER_FIELD);
    EXPECT(heatcost_fixed_charges(sheet, sizeof sheet, 2, 1, MOST + 1, 3, list, NUMBERS), HEATCOST_HEADER_FIELD);
    EXPECT(heatcost_fixed_charges(sheet, sizeof sheet, 2, 1, 2, MOST + 1, list, NUMBERS), HEATCOST_HEADER_FIELD);
    EXPECT(heatcost_fixed_charges(sheet, sizeof sheet, 0, 1, 2, 3, list, NUMBERS), HEATCOST_HEADER_FIELD);
    EXPECT(heatcost_fixed_charges(sheet, sizeof sheet, 3, 1, 2, 3, list, 0), HEATCOST_HEADER_FIELD);
    EXPECT(heatcost_fixed_charges(sheet, sizeof sheet, 1, 0, 0, 0, list, 0), HEATCOST_ZERO_DIVISOR);
    EXPECT(heatcost_fixed_charges(sheet, sizeof sheet, 2, 1, 2, 3, list, NUMBERS - 1), HEATCOST_BUFFER_LENGTH);
    EXPECT(list[0], MOST);
    sheet[10] = sheet[24] = 1; /* source 1, and more hot water than the meter shows */
    EXPECT(heatcost_settle(sheet, sizeof sheet, NULL, 0), HEATCOST_HOT_WATER_EXCEEDS_METER);
    EXPECT(heatcost_fixed_charges(sheet, sizeof sheet, 2, 1, 2, 3, list, NUMBERS), HEATCOST_ACCEPTED);
    sheet[44] = 1; /* the last hot water reading, with source 1 */
    EXPECT(heatcost_fixed_charges(sheet, sizeof sheet, 3, 1, 2, 3, list, NUMBERS), 256 * 44 + 4);
}

/* A fund from 0 on: half a cent, the rate's limit, payments, a full fund, and the sheet before the rate. */
static void fund(void)
{
    enum { MOST = HEATCOST_MAX_RATE };
    uint8_t sheet[HEATCOST_SHEET_LEN(1)];
    uint64_t balance = 0;
    make_sheet(sheet, 0);
    EXPECT(heatcost_collect_fees(&balance, sheet, sizeof sheet, 5000), HEATCOST_ACCEPTED);
    EXPECT(heatcost_collect_fees(&balance, sheet, sizeof sheet, 4999), HEATCOST_ACCEPTED);
    EXPECT(balance, 1);
    EXPECT(heatcost_collect_fees(&balance, sheet, sizeof sheet, MOST), HEATCOST_ACCEPTED);
    EXPECT(balance, 101);
    EXPECT(heatcost_collect_fees(&balance, sheet, sizeof sheet, MOST + 1), HEATCOST_RATE_TOO_HIGH);
    EXPECT(heatcost_pay_out(&balance, 102), HEATCOST_FUND_SHORT);
    EXPECT(balance, 101);
    EXPECT(heatcost_pay_out(&balance, 101), HEATCOST_ACCEPTED);
    EXPECT(heatcost_pay_out(&balance, 0), HEATCOST_ACCEPTED);
    EXPECT(balance, 0);
    balance = (uint64_t)-101;
    EXPECT(heatcost_collect_fees(&balance, sheet, sizeof sheet, MOST), HEATCOST_ACCEPTED);
    EXPECT(balance, (uint64_t)-1);
    EXPECT(heatcost_collect_fees(&balance, sheet, sizeof sheet, 5000), HEATCOST_FUND_FULL);
    EXPECT(heatcost_collect_fees(&balance, sheet, sizeof sheet, MOST + 1), HEATCOST_RATE_TOO_HIGH);
    sheet[10] = sheet[24] = 1; /* source 1, and more hot water than the meter shows */
    EXPECT(heatcost_collect_fees(&balance, sheet, sizeof sheet, MOST + 1), HEATCOST_HOT_WATER_EXCEEDS_METER);
    sheet[44] = 1; /* the last hot water reading, with source 1 */
    EXPECT(heatcost_collect_fees(&balance, sheet, sizeof sheet, MOST + 1), 256 * 44 + 4);
    EXPECT(balance, (uint64_t)-1);
}

/* Every list as NULL with a count of 0. */
static void nulls(void)
{
    uint8_t sheet[HEATCOST_SHEET_LEN(1)];
    uint64_t balance = 0;
    heatcost_building nothing = {0, 0}, whole = {0, HEATCOST_SHEET_LEN(1)};
    make_sheet(sheet, 0);
    EXPECT(heatcost_settle(NULL, 0, NULL, 0), HEATCOST_TOO_SHORT);
    EXPECT(heatcost_settle(sheet, sizeof sheet, NULL, 0), HEATCOST_BUFFER_LENGTH);
    EXPECT(heatcost_settle_group(NULL, 0, NULL, 0, 0, NULL, 0), HEATCOST_BAD_GROUP);
    EXPECT(heatcost_settle_group(sheet, sizeof sheet, NULL, 0, 0, NULL, 0), HEATCOST_BAD_GROUP);
    EXPECT(heatcost_settle_group(NULL, 0, &nothing, 1, 0, NULL, 0), HEATCOST_TOO_SHORT);
    EXPECT(heatcost_settle_group(sheet, sizeof sheet, &whole, 1, 0, NULL, 0), HEATCOST_BUFFER_LENGTH);
    EXPECT(heatcost_fixed_charges(NULL, 0, 2, 1, 2, 3, NULL, 0), HEATCOST_TOO_SHORT);
    EXPECT(heatcost_fixed_charges(sheet, sizeof sheet, 2, 1, 2, 3, NULL, 0), HEATCOST_BUFFER_LENGTH);
    EXPECT(heatcost_collect_fees(&balance, NULL, 0, 0), HEATCOST_TOO_SHORT);
    EXPECT(heatcost_print(NULL, 0, NULL, 0), strlen("refused 1 0\n"));
    EXPECT(heatcost_print(sheet, sizeof sheet, NULL, 0), strlen("month 1 units 1 wh 0 cents 0\n0 0 0 0 0 0 0 0 0\n"));
    EXPECT(heatcost_write_record(NULL, 0, NULL, 0), HEATCOST_TOO_SHORT);
    EXPECT(heatcost_write_record(sheet, sizeof sheet, NULL, 0), HEATCOST_BUFFER_LENGTH);
    EXPECT(heatcost_read_record(NULL, 0), HEATCOST_BAD_ARCHIVE);
    EXPECT(heatcost_record_sheet_len(NULL, 0), 0);
}

/* The same for the calls on a year book; at opening book and sums have no values yet. */
static void nulls_of_a_year(void)
{
    enum { BOOK = HEATCOST_BOOK_LEN, SUMS = HEATCOST_SUMS_LEN, TOTALS = HEATCOST_TOTALS_LEN };
    uint32_t *book = (uint32_t *)malloc(BOOK * sizeof *book);
    uint64_t *sums = (uint64_t *)malloc(SUMS * sizeof *sums);
    uint64_t totals[TOTALS];
    uint8_t sheet[HEATCOST_SHEET_LEN(1)];
    if (book == NULL || sums == NULL)
        exit(2);
    make_sheet(sheet, 0);
    EXPECT(heatcost_open(NULL, 0, NULL, 0, NULL, 0), HEATCOST_BAD_YEAR_BOOK);
    EXPECT(heatcost_open(book, BOOK, NULL, 0, NULL, 0), HEATCOST_TOO_SHORT);
    EXPECT(heatcost_open(book, BOOK, NULL, 0, sheet, sizeof sheet), HEATCOST_BAD_YEAR_SUMS);
    EXPECT(heatcost_open(book, BOOK, sums, SUMS, sheet, sizeof sheet), HEATCOST_ACCEPTED);
    EXPECT(heatcost_post(NULL, 0, NULL, 0, NULL, 0), HEATCOST_BAD_YEAR_BOOK);
    EXPECT(heatcost_post(book, BOOK, NULL, 0, NULL, 0), HEATCOST_TOO_SHORT);
    EXPECT(heatcost_post(book, BOOK, NULL, 0, sheet, sizeof sheet), HEATCOST_BAD_YEAR_SUMS);
    EXPECT(heatcost_post(book, BOOK, sums, SUMS, sheet, sizeof sheet), HEATCOST_ACCEPTED);
    EXPECT(heatcost_replace(NULL, 0, NULL, 0, NULL, 0), HEATCOST_BAD_YEAR_BOOK);
    EXPECT(heatcost_replace(book, BOOK, NULL, 0, NULL, 0), HEATCOST_TOO_SHORT);
    EXPECT(heatcost_replace(book, BOOK, NULL, 0, sheet, sizeof sheet), HEATCOST_BAD_YEAR_SUMS);
    EXPECT(heatcost_withdraw(NULL, 0, NULL, 0, 1), HEATCOST_BAD_YEAR_BOOK);
    EXPECT(heatcost_withdraw(book, BOOK, NULL, 0, 1), HEATCOST_BAD_YEAR_SUMS);
    EXPECT(heatcost_year(NULL, 0, NULL, 0, 0, NULL, 0), HEATCOST_BAD_YEAR_BOOK);
    EXPECT(heatcost_year(book, BOOK, NULL, 0, 0, NULL, 0), HEATCOST_BUFFER_LENGTH);
    EXPECT(heatcost_year(book, BOOK, NULL, 0, 0, totals, TOTALS), HEATCOST_BAD_YEAR_SUMS);
    free(sums);
    free(book);
}

/* A thread's own month, by its shared meter: it is printed, and its record written and read, again and again. Gives
 * back NULL when all was right each time. */
static void *print_write_and_read(void *meter)
{
    uint8_t sheet[HEATCOST_SHEET_LEN(1)];
    uint8_t text[HEATCOST_PRINT_LEN(1)];
    uint8_t record[HEATCOST_RECORD_LEN(1)];
    unsigned long wh = 256ul * *(const uint8_t *)meter;
    unsigned long cents = (wh * 65536 + 500000) / 1000000;
    char wanted[sizeof text + 1];
    size_t text_len;
    int i;
    make_sheet(sheet, *(const uint8_t *)meter);
    text_len = (size_t)snprintf(wanted, sizeof wanted, "month 1 units 1 wh %lu cents %lu\n0 %lu 0 0 0 %lu 0 0 0\n", wh,
                                cents, wh, cents);
    for (i = 0; i < 100000; i++) {
        memset(text, 0, sizeof text);
        memset(record, 0, sizeof record);
        if (heatcost_print(sheet, sizeof sheet, text, sizeof text) != text_len
            || memcmp(text, wanted, text_len) != 0
            || heatcost_write_record(sheet, sizeof sheet, record, sizeof record) != HEATCOST_ACCEPTED
            || heatcost_read_record(record, sizeof record) != HEATCOST_ACCEPTED
            || memcmp(record + 8, sheet, sizeof sheet) != 0)
            return meter;
    }
    return NULL;
}

static void threads(void)
{
    uint8_t meters[4] = {1, 10, 100, 200};
    pthread_t started[4];
    int i;
    for (i = 0; i < 4; i++)
        if (pthread_create(&started[i], NULL, print_write_and_read, &meters[i]) != 0)
            exit(2);
    for (i = 0; i < 4; i++) {
        void *wrong = NULL;
        pthread_join(started[i], &wrong);
        EXPECT(wrong != NULL, 0);
    }
}

int main(void)
{
    lengths();
    answers();
    places();
    groups();
    charges();
    fund();
    nulls();
    nulls_of_a_year();
    threads();
    return failed;
}
