/* Two buildings with meters of their own behind one shared meter: case A of docs/FORMAT.md and a building by area.
 * Their meters show 1,500 kWh together, the shared meter 1,530: the rest is common heat of both. Settled and printed;
 * then with a shared meter below what the buildings' own meters show, and with a fault in the second building's second
 * row. */
#include <stdio.h>

#include "heatcost.h"

#define BUILDINGS 2
#define MOST_UNITS 3
#define ALL_UNITS 5

struct unit {
    uint32_t id, heated_area, reading;
};

struct building {
    uint8_t model, base_percent, common_heat_percent, unmetered_factor;
    uint32_t meter;
    uint16_t units;
    struct unit unit[MOST_UNITS];
};

static const struct building buildings[BUILDINGS] = {
    /* model, base and common heat in percent, factor for units without a device in 0.1; meter in Wh; units; for each
     * its id, area in 0.1 m2, reading */
    {3, 30, 20, 30, 1000000, 3, {{11, 500, 100}, {12, 500, 300}, {13, 1000, 600}}},
    {2, 0, 0, 0, 500000, 2, {{21, 400, 0}, {22, 600, 0}, {0, 0, 0}}},
};

/* Writes a number, lowest byte first; gives back the place after it. */
static uint8_t *put(uint8_t *at, int bytes, uint32_t number)
{
    for (; bytes > 0; bytes--) {
        *at++ = number & 255;
        number >>= 8;
    }
    return at;
}

static uint8_t *put_unit(uint8_t *at, const struct unit *unit)
{
    at = put(at, 4, unit->id);
    at = put(at, 2, 0);    /* read, no hot water */
    at = put(at, 2, 1000); /* location factor */
    at = put(at, 4, unit->heated_area);
    at = put(at, 4, 0); /* riser surface */
    at = put(at, 4, 0); /* load */
    at = put(at, 4, unit->reading);
    at = put(at, 4, 0); /* litres */
    return put(at, 4, 0);
}

/* A sheet for January; gives back the place after it. */
static uint8_t *put_sheet(uint8_t *at, const struct building *building)
{
    int i;
    at = put(at, 4, 'H' | 'C' << 8 | 'S' << 16);
    at = put(at, 2, 1);
    at = put(at, 1, 1); /* the same month in all sheets */
    at = put(at, 1, building->model);
    at = put(at, 2, building->units);
    at = put(at, 1, 0); /* no hot water */
    at = put(at, 1, building->base_percent);
    at = put(at, 1, building->common_heat_percent);
    at = put(at, 1, 0);
    at = put(at, 1, building->unmetered_factor);
    at = put(at, 1, 0);
    at = put(at, 4, building->meter);
    at = put(at, 4, 10000); /* the same price too */
    for (i = 0; i < 6; i++)
        at = put(at, 4, 0);
    for (i = 0; i < building->units; i++)
        at = put_unit(at, &building->unit[i]);
    return at;
}

/* All sheets one after the other, with the place of each; gives back how many bytes they have. */
static size_t put_group(uint8_t *sheets, heatcost_building *places)
{
    uint8_t *at = sheets;
    int i;
    for (i = 0; i < BUILDINGS; i++) {
        places[i].offset = (uint64_t)(at - sheets);
        at = put_sheet(at, &buildings[i]);
        places[i].length = (uint64_t)(at - sheets) - places[i].offset;
    }
    return (size_t)(at - sheets);
}

/* The statements stand one after the other, eight numbers a unit: four Wh, four cents. */
static void print_statements(const uint32_t *statement)
{
    int i, j, k;
    for (i = 0; i < BUILDINGS; i++) {
        printf("building %d\n", i);
        for (j = 0; j < buildings[i].units; j++) {
            printf("%lu", (unsigned long)buildings[i].unit[j].id);
            for (k = 0; k < 8; k++)
                printf(" %lu", (unsigned long)*statement++);
            printf("\n");
        }
    }
}

static void settle_and_print(const uint8_t *sheets, size_t sheets_len, const heatcost_building *places,
                             uint64_t shared_wh)
{
    uint32_t statement[HEATCOST_STATEMENT_LEN(ALL_UNITS)];
    uint32_t answer = heatcost_settle_group(sheets, sheets_len, places, BUILDINGS, shared_wh, statement,
                                            HEATCOST_STATEMENT_LEN(ALL_UNITS));
    printf("shared meter %lu\n", (unsigned long)shared_wh);
    if (answer == HEATCOST_ACCEPTED)
        print_statements(statement);
    else
        /* Building and place are those of a building's own refusal; for 13, 21 and 22 both are 0. */
        printf("refused %d, building %d, place %d: %s\n", (int)HEATCOST_NUMBER(answer),
               (int)(HEATCOST_PLACE(answer) / HEATCOST_MAX_UNITS), (int)(HEATCOST_PLACE(answer) % HEATCOST_MAX_UNITS),
               heatcost_text(answer));
}

int main(void)
{
    uint8_t sheets[BUILDINGS * HEATCOST_SHEET_LEN(MOST_UNITS)];
    heatcost_building places[BUILDINGS];
    size_t sheets_len = put_group(sheets, places);
    settle_and_print(sheets, sheets_len, places, 1530000);
    settle_and_print(sheets, sheets_len, places, 1470000);
    put(sheets + places[1].offset + HEATCOST_SHEET_LEN(1) + 8, 4, 0); /* the area */
    settle_and_print(sheets, sheets_len, places, 1530000);
    return 0;
}
