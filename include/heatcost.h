/* Heat cost settlement under the Croatian Regulation NN 140/25: the calls of libheatcost.a, which `rt lib` in
 * crates/heatcost builds for Linux on x86-64. This header is C99 and C++. docs/FORMAT.md has the layouts of sheet,
 * statement, charges, record, year book, year sums and printed text, and for each refusal what to correct; examples/
 * shows the calls in use.
 *
 * n is the number of units behind the shared meter, 1 to HEATCOST_MAX_UNITS: bytes 8 and 9 of a sheet, low byte first.
 * A sheet has a month, but neither year nor building: keep these beside it, for example in a file's name.
 *
 * Lists. A list is a pointer and the count of its elements, which must be there; what they hold is free. The pointer
 * has the alignment of its type; with a count of 0 it isn't used and may be NULL. Lists that a call only writes
 * (statement, charges, record, text, totals, book and sums at opening) need no values beforehand. The lists of one call
 * must not overlap: a record can't be built in place around its own sheet. A fund is one number behind a pointer, with
 * the alignment of its type and never NULL, and lies outside the sheet.
 *
 * Answers. A uint64_t is a length. A uint32_t is 0 for accepted, else the refusal's number + 256 * its place: for 4 the
 * first wrong header field's byte in the sheet, in a record too, or 0 where it is an amount or the model of a call for
 * charges; for 6, 7 and 20 the row, counted from 0; for all others 0. In a group a building's own refusal, 1 to 12 or
 * 20, has its place raised by 160 * the building's place in the list, from 0: that is place / HEATCOST_MAX_UNITS, and
 * the remainder is the row or byte. Refusals are tested in the order that stands with the call, and the first that
 * holds is the answer. 6, 20 and 7 go row by row: in a row field by field, at each field first 6, then 20; after its
 * fields 7. So 20 stands beside 6, before 8 to 12. A refused call leaves every list, book and sums too, and every
 * fund as it was. Printing is never refused: a refusal has a text too.
 *
 * Threads. Nothing is kept between calls, and the library has no data that it writes. Calls may run side by side as
 * long as no list or fund that one of them writes is used by another.
 *
 * Rules. Settling, alone or in a group, dividing charges, printing, writing a record, posting and replacing go by the
 * newest rules, those of archive version 3: wherever something is divided, what rounding leaves goes to the largest
 * remainders, of equal ones to the larger weight, then to the earlier. Reading a record goes by the rules of the
 * record's own version, 1, 2 or 3 (docs/FORMAT.md, "Archive versions").
 *
 * Memory. No call uses the heap: memcpy and memset are all that the library needs from outside (`nm -u`). A call takes
 * at most HEATCOST_STACK bytes of stack: settling 18,100, a group 20,000, charges 4,900; printing, writing or reading a
 * record, posting and replacing 23,400; withdrawing 5,300; opening and the year call 300; the calls on a fund 500.
 * `compare/run stack` measures this on a painted stack. The caller's own frames come on top, and what the system needs:
 * a thread's own block, a first lookup of memcpy or memset.
 */
#ifndef HEATCOST_H
#define HEATCOST_H

#include <stddef.h>
#include <stdint.h>

/* Raised whenever the parameters of a call change; a new call or a new refusal doesn't raise it. */
#define HEATCOST_INTERFACE 2

/* Bytes of stack that a call may take. */
#define HEATCOST_STACK 24576

/* The largest n; for n units, unsigned, the bytes of a sheet, the numbers of a statement and of charges (uint32_t), the
 * bytes of a record, and the most bytes that a printed text has. */
#define HEATCOST_MAX_UNITS 160
#define HEATCOST_SHEET_LEN(n) (48u + 32u * (n))
#define HEATCOST_STATEMENT_LEN(n) (8u * (n))
#define HEATCOST_CHARGES_LEN(n) (3u * (n))
#define HEATCOST_RECORD_LEN(n) (56u + 64u * (n))
#define HEATCOST_PRINT_LEN(n) (49u + 99u * (n))

/* The numbers of a year book (uint32_t), of the sums beside it (uint64_t), and those that the year call writes
 * (uint64_t). */
#define HEATCOST_BOOK_LEN 15557
#define HEATCOST_SUMS_LEN 1280
#define HEATCOST_TOTALS_LEN 9

/* The most buildings of a group. */
#define HEATCOST_MAX_BUILDINGS 12

/* The most cents of each amount that is divided into charges, and the models of that call: 1S by connected load, 2S by
 * heated area. */
#define HEATCOST_MAX_CHARGE 100000000
#define HEATCOST_MODEL_1S 1
#define HEATCOST_MODEL_2S 2

/* The highest rate of fees, in thousandths of a cent per m2. */
#define HEATCOST_MAX_RATE 1000000

/* The two parts of an answer. */
#define HEATCOST_NUMBER(answer) ((answer) % 256u)
#define HEATCOST_PLACE(answer) ((answer) / 256u)

enum heatcost_number {
    HEATCOST_ACCEPTED = 0,
    HEATCOST_TOO_SHORT = 1,
    HEATCOST_BAD_MAGIC = 2,
    HEATCOST_UNSUPPORTED_VERSION = 3,
    HEATCOST_HEADER_FIELD = 4,
    HEATCOST_WRONG_LENGTH = 5,
    HEATCOST_ROW_FIELD = 6,
    HEATCOST_ID_ORDER = 7,
    HEATCOST_HOT_WATER_EXCEEDS_METER = 8,
    HEATCOST_ZERO_DIVISOR = 9,
    HEATCOST_NO_READINGS = 10,
    HEATCOST_METERS_EXCEED_HEAT = 11,
    HEATCOST_UNMETERED_EXCEEDS_HEAT = 12,
    HEATCOST_BUFFER_LENGTH = 13,
    HEATCOST_BAD_ARCHIVE = 14,
    HEATCOST_BAD_YEAR_BOOK = 15,
    HEATCOST_OTHER_BUILDING = 16,
    HEATCOST_MONTH_STATE = 17,
    HEATCOST_NO_SUCH_UNIT = 18,
    HEATCOST_BAD_YEAR_SUMS = 19,
    HEATCOST_FIELD_CONFLICT = 20,
    HEATCOST_NEGATIVE_COMMON_HEAT = 21,
    HEATCOST_BAD_GROUP = 22,
    HEATCOST_FUND_SHORT = 23,
    HEATCOST_RATE_TOO_HIGH = 24,
    HEATCOST_FUND_FULL = 25
};

/* One line of text for a number, or for a whole answer. */
static inline const char *heatcost_text(uint32_t number)
{
    switch (HEATCOST_NUMBER(number)) {
    case HEATCOST_ACCEPTED:
        return "accepted";
    case HEATCOST_TOO_SHORT:
        return "the sheet has fewer than 48 bytes";
    case HEATCOST_BAD_MAGIC:
        return "the sheet's bytes 0 to 3 aren't HCS and a zero";
    case HEATCOST_UNSUPPORTED_VERSION:
        return "the sheet's version, bytes 4 and 5, isn't 1";
    case HEATCOST_HEADER_FIELD:
        return "the header field at that byte is out of range or doesn't fit model or source; at 0 the call's amount or model";
    case HEATCOST_WRONG_LENGTH:
        return "the length doesn't fit n: a sheet has 48 + 32n bytes, a record 56 + 64n";
    case HEATCOST_ROW_FIELD:
        return "a field of that row is out of range";
    case HEATCOST_ID_ORDER:
        return "the row's id isn't above the id of the row before";
    case HEATCOST_HOT_WATER_EXCEEDS_METER:
        return "the heat for hot water, H, is more than the shared meter's M";
    case HEATCOST_ZERO_DIVISOR:
        return "a sum to divide by is 0: of loads, riser surfaces, water units, litres or persons";
    case HEATCOST_NO_READINGS:
        return "model 3 or 5, and not one unit is read";
    case HEATCOST_METERS_EXCEED_HEAT:
        return "model 5, all read: the units' meters add to more than EG, which is M less H";
    case HEATCOST_UNMETERED_EXCEEDS_HEAT:
        return "the units not read outweigh the whole: their weights add to more than 10,000 times P";
    case HEATCOST_BUFFER_LENGTH:
        return "the list for statement, charges, record or totals has the wrong length";
    case HEATCOST_BAD_ARCHIVE:
        return "the record has fewer than 8 bytes, a wrong head, or a statement that isn't its sheet's";
    case HEATCOST_BAD_YEAR_BOOK:
        return "not a year book: not 15,557 numbers, or n above 160, or a month's mark above 1";
    case HEATCOST_OTHER_BUILDING:
        return "the number of units or an id differs from the book's";
    case HEATCOST_MONTH_STATE:
        return "the month stands already (post), doesn't stand (replace, withdraw), or isn't 1 to 12";
    case HEATCOST_NO_SUCH_UNIT:
        return "the book has no unit at that place";
    case HEATCOST_BAD_YEAR_SUMS:
        return "not the book's sums: not 1,280 numbers, or one would go below 0 or past 64 bits";
    case HEATCOST_FIELD_CONFLICT:
        return "a field of that row is in range, but doesn't go with model, source, status or class";
    case HEATCOST_NEGATIVE_COMMON_HEAT:
        return "a building's share of the difference is below 0 by more than its common heat";
    case HEATCOST_BAD_GROUP:
        return "not a group: count, shared reading or a sheet's bytes out of range, or a month or price differs";
    case HEATCOST_FUND_SHORT:
        return "the payment is more than the fund's balance";
    case HEATCOST_RATE_TOO_HIGH:
        return "the rate is over 1,000,000 thousandths of a cent per m2";
    case HEATCOST_FUND_FULL:
        return "with these fees the fund's balance would pass 64 bits";
    default:
        return "no such number";
    }
}

/* A building of a group: where its sheet lies among the bytes of all sheets. */
typedef struct heatcost_building {
    uint64_t offset;
    uint64_t length;
} heatcost_building;

#ifdef __cplusplus
extern "C" {
#endif

/* Settles a sheet. Writes the statement, 8 numbers a unit: heat, common heat, water and common water in Wh, then the
 * same in cents. Refusals 1 to 12 with 20, then 13 unless statement_len is HEATCOST_STATEMENT_LEN(n). */
uint32_t heatcost_settle(const uint8_t *sheet, size_t sheet_len, uint32_t *statement, size_t statement_len);

/* Settles a group: 1 to HEATCOST_MAX_BUILDINGS buildings, each with a meter of its own, whose reading is M in its
 * sheet, behind one shared meter, whose reading is shared_wh, at most 4,000,000,000. sheets has the bytes of all
 * sheets, and buildings says where each sheet lies: in any order, with bytes between them, even over each other or one
 * for several buildings. Models and ids may be any.
 *
 * Writes the statements, building after building in the order of the list, 8 numbers a unit as heatcost_settle does,
 * but for two things. The difference, shared_wh less the sum of M, is divided by the buildings' areas and added to each
 * one's common heat, or taken from it when it is below 0. And the bill is that of shared_wh, divided over the buildings
 * by M with the share of the difference, then within each. All Wh add to shared_wh, all cents to its bill. A year book
 * takes no such month.
 *
 * Refusals: 22 for a wrong count of buildings, a shared_wh over its limit, or an offset and length past the end of
 * sheets; each building's 1 to 12 with 20, in the order of the list; 22 for a month or price other than the first
 * building's; 13 unless statement_len is HEATCOST_STATEMENT_LEN(units of all buildings); 21 when a common heat would go
 * below 0. */
uint32_t heatcost_settle_group(const uint8_t *sheets, size_t sheets_len, const heatcost_building *buildings,
                               size_t buildings_len, uint64_t shared_wh, uint32_t *statement, size_t statement_len);

/* Divides the fixed part of a month, three amounts in cents, each at most HEATCOST_MAX_CHARGE: connection power,
 * buyer's fee and supplier's fee. model is HEATCOST_MODEL_1S or HEATCOST_MODEL_2S; the sheet's own model plays no part,
 * and a month that 8 to 12 refuse has charges too. Writes the charges, 3 numbers a unit in this order; over all units
 * each adds to its amount. They stand beside the statement: no record, text or year book has them.
 *
 * Refusals: 1 to 7 with 20; 4 with place 0 for an amount over its limit or another model; 9 under 1S when all loads are
 * 0, also with nothing to divide; 13 unless charges_len is HEATCOST_CHARGES_LEN(n). */
uint32_t heatcost_fixed_charges(const uint8_t *sheet, size_t sheet_len, uint32_t model, uint32_t power,
                                uint32_t buyer_fee, uint32_t supplier_fee, uint32_t *charges, size_t charges_len);

/* The efficiency fund is a number that the caller keeps: its balance in cents. A new one holds 0; any 64-bit number
 * is taken. Each call gets it as the last one left it, and nobody else writes it meanwhile: then from 0 on the balance
 * is the accepted fees less the accepted payments. No record, text or year book holds it. */

/* Takes a month's fees into the fund. rate is in thousandths of a cent per m2, at most HEATCOST_MAX_RATE; 50000 is 0.50
 * EUR. Units that are settled without readings pay: in models 1 and 2 all, in models 3 to 5 those of status 1 and 4. A
 * unit's fee in cents is p * rate / 10000, p its area in 0.1 m2, rounded half up by itself. The balance grows by the
 * sum of the fees.
 *
 * Refusals: 1 to 12 with 20, as heatcost_settle has them; 24 for a rate over its limit, whoever pays; 25 when the
 * balance would pass 64 bits. */
uint32_t heatcost_collect_fees(uint64_t *fund, const uint8_t *sheet, size_t sheet_len, uint32_t rate);

/* Pays an amount in cents out of the fund: 0, or up to the whole balance. Refusal 23 for more. */
uint32_t heatcost_pay_out(uint64_t *fund, uint64_t amount);

/* Prints a sheet: its month, or the line of its refusal, 1 to 12 with 20 (docs/FORMAT.md, "The printed form"). Answers
 * how many bytes that text has, no zero byte among them: at most HEATCOST_PRINT_LEN(n), refused at most
 * HEATCOST_PRINT_LEN(0). Writes it to the front of a list that is long enough and leaves what stands behind it; a
 * shorter list stays as it was. So NULL and 0 ask for the length alone. */
uint64_t heatcost_print(const uint8_t *sheet, size_t sheet_len, uint8_t *text, size_t text_len);

/* Writes the archive record of a sheet, of version 3. Refusals 1 to 12 with 20, then 13 unless record_len is
 * HEATCOST_RECORD_LEN(n). */
uint32_t heatcost_write_record(const uint8_t *sheet, size_t sheet_len, uint8_t *record, size_t record_len);

/* Checks a record of version 1, 2 or 3: 14 for its head, the sheet's refusals 1 to 12 with 20, 14 for a statement that
 * isn't the sheet's by the version's rules. Accepted, the sheet is the record's bytes from 8 on,
 * heatcost_record_sheet_len of them; settled now it may come out otherwise. A change that leaves the settlement as it
 * is isn't found: this is no checksum. */
uint32_t heatcost_read_record(const uint8_t *record, size_t record_len);

/* How many bytes the sheet of a record has, HEATCOST_SHEET_LEN(n); 0 for a record that is refused. It makes the whole
 * check. */
uint64_t heatcost_record_sheet_len(const uint8_t *record, size_t record_len);

/* The year book is a list of HEATCOST_BOOK_LEN numbers that the caller keeps, and with it a list of HEATCOST_SUMS_LEN
 * sums: number 8 * place + j is the j-th of the eight sums, over the months that stand, of the unit at that place. Each
 * call gets both as the last one left them, and nobody else writes them meanwhile; a book has sums of its own.
 *
 * 15 refuses a book of another length; except at opening, also one whose number 0, its n, is over 160 or whose numbers
 * 1 to 12, the months' marks, are not all 0 or 1. Nothing else in it is tested.
 *
 * Posting adds the month's numbers to the sums; withdrawing takes off all that the book holds for the month; replacing
 * takes off, then adds. 19 refuses sums of another length, and sums of which one would go below 0, before anything is
 * added, or past 64 bits: they aren't this book's. From an opening on that never arises. No call compares book and
 * sums, so that sums of another book need not be found. */

/* Opens a book with the n and ids of a sheet and erases all that it held; all sums are 0. No month stands afterwards,
 * not the sheet's either. Refusals 15, 1 to 7 with 20, then 19 for another sums_len. */
uint32_t heatcost_open(uint32_t *book, size_t book_len, uint64_t *sums, size_t sums_len, const uint8_t *sheet,
                       size_t sheet_len);

/* Posts a sheet's month, which must not stand yet; replaces one that stands. Refusals 15, 1 to 12 with 20, 16, 17,
 * 19. */
uint32_t heatcost_post(uint32_t *book, size_t book_len, uint64_t *sums, size_t sums_len, const uint8_t *sheet,
                       size_t sheet_len);
uint32_t heatcost_replace(uint32_t *book, size_t book_len, uint64_t *sums, size_t sums_len, const uint8_t *sheet,
                          size_t sheet_len);

/* Withdraws a month, 1 to 12, that stands. Refusals 15, 17, 19. */
uint32_t heatcost_withdraw(uint32_t *book, size_t book_len, uint64_t *sums, size_t sums_len, uint32_t month);

/* Writes HEATCOST_TOTALS_LEN numbers for the unit at a place from 0: how many months stand, by the book, then its four
 * sums of Wh and four of cents, as the list of sums has them. Refusals 15, then 13 for another totals_len, then 18,
 * then 19 for another sums_len. */
uint32_t heatcost_year(const uint32_t *book, size_t book_len, const uint64_t *sums, size_t sums_len, uint32_t place,
                       uint64_t *totals, size_t totals_len);

#ifdef __cplusplus
}
#endif

#endif
