/* Prints a sheet's month, or its refusal, as the program `statement` does. Argument: a file with a sheet. */
#include <stdio.h>

#include "heatcost.h"

#define MAX_SHEET HEATCOST_SHEET_LEN(HEATCOST_MAX_UNITS)
#define MAX_TEXT HEATCOST_PRINT_LEN(HEATCOST_MAX_UNITS)

int main(int argc, char **argv)
{
    /* Room for one byte more than the longest sheet: a longer file is seen to be longer. */
    static uint8_t sheet[MAX_SHEET + 1];
    static uint8_t text[MAX_TEXT];
    FILE *file;
    size_t sheet_len;
    size_t text_len;
    if (argc != 2) {
        fprintf(stderr, "usage: print SHEET\n");
        return 2;
    }
    file = fopen(argv[1], "rb");
    sheet_len = file == NULL ? 0 : fread(sheet, 1, sizeof sheet, file);
    if (file == NULL || ferror(file)) {
        perror(argv[1]);
        return 2;
    }
    fclose(file);
    /* No zero byte ends the text: its length says how much to write. */
    text_len = (size_t)heatcost_print(sheet, sheet_len, text, sizeof text);
    return fwrite(text, 1, text_len, stdout) == text_len && fflush(stdout) == 0 ? 0 : 1;
}
