/* A month's way into the archive and out again. Arguments: a file with a sheet, and the record's file.
 *
 * Writes the record of the sheet to the file, reads the file back, checks it, takes the sheet out, settles it again and
 * compares all bytes. Then damages one byte of the head, of the last row and of the statement, and shows by which
 * refusal each is found. */
#include <stdio.h>
#include <string.h>

#include "heatcost.h"

#define MAX_STATEMENT HEATCOST_STATEMENT_LEN(HEATCOST_MAX_UNITS)
#define MAX_RECORD HEATCOST_RECORD_LEN(HEATCOST_MAX_UNITS)

/* A file's bytes, with room for one more than the longest: a longer file is seen to be longer. */
struct bytes {
    uint8_t at[MAX_RECORD + 1];
    size_t count;
};

/* Says whether the file could be read. */
static int read_file(const char *name, struct bytes *bytes)
{
    FILE *file = fopen(name, "rb");
    int read = 0;
    if (file != NULL) {
        bytes->count = fread(bytes->at, 1, sizeof bytes->at, file);
        read = !ferror(file);
        fclose(file);
    }
    if (!read)
        perror(name);
    return read;
}

/* Says whether all bytes were written. An archive writes to a file of another name, waits until it is on the disk, and
 * renames it: then a broken write leaves the record before it whole. */
static int write_file(const char *name, const struct bytes *bytes)
{
    FILE *file = fopen(name, "wb");
    int written = 0;
    if (file != NULL) {
        written = fwrite(bytes->at, 1, bytes->count, file) == bytes->count;
        written = fclose(file) == 0 && written;
    }
    if (!written)
        perror(name);
    return written;
}

/* Prints an answer; says whether it has the number that is wanted. */
static int say(const char *what, uint32_t answer, uint32_t wanted)
{
    printf("%s: ", what);
    if (answer != HEATCOST_ACCEPTED)
        printf("refused %d %d, ", (int)HEATCOST_NUMBER(answer), (int)HEATCOST_PLACE(answer));
    printf("%s\n", heatcost_text(answer));
    return HEATCOST_NUMBER(answer) == wanted;
}

/* Prints whether so many bytes are the same; says so too. */
static int compare(const char *what, const uint8_t *found, const uint8_t *wanted, size_t count)
{
    int same = memcmp(found, wanted, count) == 0;
    printf("%s: %d bytes, %s\n", what, (int)count, same ? "all the same" : "not the same");
    return same;
}

/* How many rows a sheet of so many bytes has, at most 160. */
static size_t units_of(size_t sheet_len)
{
    size_t n = sheet_len < HEATCOST_SHEET_LEN(0) ? 0 : (sheet_len - HEATCOST_SHEET_LEN(0)) / 32;
    return n < HEATCOST_MAX_UNITS ? n : HEATCOST_MAX_UNITS;
}

/* Makes the record of a sheet. */
static int make_record(const struct bytes *sheet, struct bytes *record)
{
    record->count = HEATCOST_RECORD_LEN(units_of(sheet->count));
    return say("record made", heatcost_write_record(sheet->at, sheet->count, record->at, record->count),
               HEATCOST_ACCEPTED);
}

/* Settles the sheet of an accepted record again and compares with the record's statement: the same for a record of the
 * newest version; an older one went by its own rules. */
static int settle_again(const struct bytes *record, const uint8_t *sheet, size_t sheet_len)
{
    uint32_t statement[MAX_STATEMENT];
    uint8_t bytes[4 * MAX_STATEMENT];
    size_t count = HEATCOST_STATEMENT_LEN(units_of(sheet_len));
    size_t i;
    if (!say("settled again", heatcost_settle(sheet, sheet_len, statement, count), HEATCOST_ACCEPTED))
        return 0;
    for (i = 0; i < 4 * count; i++)
        bytes[i] = (statement[i / 4] >> (8 * (i % 4))) & 255;
    return compare("statement", record->at + 8 + sheet_len, bytes, 4 * count);
}

/* The answer to a record with one byte changed to 255; the byte is put back. */
static uint32_t damaged(struct bytes *record, size_t place)
{
    uint8_t kept = record->at[place];
    uint32_t answer;
    record->at[place] = 255;
    answer = heatcost_read_record(record->at, record->count);
    record->at[place] = kept;
    return answer;
}

static int morning(const char *sheet_name, const char *record_name)
{
    struct bytes sheet, record;
    size_t sheet_len, last_row;
    if (!read_file(sheet_name, &sheet) || !make_record(&sheet, &record) || !write_file(record_name, &record))
        return 0;
    printf("record written: %d bytes\n", (int)record.count);
    if (!read_file(record_name, &record))
        return 0;
    if (!say("record read back", heatcost_read_record(record.at, record.count), HEATCOST_ACCEPTED))
        return 0;
    sheet_len = (size_t)heatcost_record_sheet_len(record.at, record.count);
    if (sheet_len != sheet.count || !compare("sheet", record.at + 8, sheet.at, sheet_len))
        return 0;
    if (!settle_again(&record, record.at + 8, sheet_len))
        return 0;
    last_row = 8 + sheet_len - 32;
    return say("head damaged", damaged(&record, 0), HEATCOST_BAD_ARCHIVE)
        && say("location factor of the last row damaged", damaged(&record, last_row + 7), HEATCOST_ROW_FIELD)
        && say("statement damaged", damaged(&record, record.count - 1), HEATCOST_BAD_ARCHIVE);
}

int main(int argc, char **argv)
{
    if (argc != 3 || strcmp(argv[1], argv[2]) == 0) {
        fprintf(stderr, "usage: morning SHEET RECORD, two files\n");
        return 2;
    }
    return morning(argv[1], argv[2]) ? 0 : 1;
}
