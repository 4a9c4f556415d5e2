/* From plain fields to a statement: case A of docs/FORMAT.md as a sheet's bytes, settled, and printed as the program
 * `statement` prints it; its fixed part, divided by area beside the statement, and by load, which no unit has; its fees
 * into an efficiency fund, with one unit without a device, and payments out of the fund; then the same month with a
 * fault in its third row, with two fields that clash there, and with a fault in the header. */
#include <stdio.h>

#include "heatcost.h"

#define UNITS 3

struct unit {
    uint32_t id;
    uint8_t status, water_class;
    uint16_t location_factor;
    uint32_t heated_area, riser_surface, heat_load, reading, litres;
    uint16_t persons;
};

struct month {
    uint8_t month, model, water_source;
    uint8_t base_percent, common_heat_percent, common_water_percent, unmetered_factor, loss_factor;
    uint32_t shared_meter, price;
    uint32_t water_readings[6];
    struct unit units[UNITS];
};

static const struct month case_a = {
    /* month, model, water source */
    1, 3, 0,
    /* base, common heat and common water in percent, factor for units without a device in 0.1, loss factor in 0.01 */
    30, 20, 0, 30, 0,
    /* shared meter in Wh, price in 0.00001 EUR/kWh, six hot water readings */
    1000000, 10000, {0, 0, 0, 0, 0, 0},
    /* id, status, water class, KF in 0.001, area in 0.1 m2, riser surface, load, reading, litres, persons */
    {
        {11, 0, 0, 1000, 500, 0, 0, 100, 0, 0},
        {12, 0, 0, 1000, 500, 0, 0, 300, 0, 0},
        {13, 0, 0, 1000, 1000, 0, 0, 600, 0, 0},
    },
};

/* Writes a number, lowest byte first; gives back the place after it. */
static uint8_t *put(uint8_t *at, int bytes, uint32_t number)
{
    for (; bytes > 0; bytes--) {
        *at++ = number & 255;
        number >>= 8;
    }
    return at;
}

static uint8_t *put_unit(uint8_t *at, const struct unit *unit)
{
    at = put(at, 4, unit->id);
    at = put(at, 1, unit->status);
    at = put(at, 1, unit->water_class);
    at = put(at, 2, unit->location_factor);
    at = put(at, 4, unit->heated_area);
    at = put(at, 4, unit->riser_surface);
    at = put(at, 4, unit->heat_load);
    at = put(at, 4, unit->reading);
    at = put(at, 4, unit->litres);
    at = put(at, 2, unit->persons);
    return put(at, 2, 0);
}

static void put_sheet(uint8_t *at, const struct month *month)
{
    int i;
    at = put(at, 4, 'H' | 'C' << 8 | 'S' << 16);
    at = put(at, 2, 1);
    at = put(at, 1, month->month);
    at = put(at, 1, month->model);
    at = put(at, 2, UNITS);
    at = put(at, 1, month->water_source);
    at = put(at, 1, month->base_percent);
    at = put(at, 1, month->common_heat_percent);
    at = put(at, 1, month->common_water_percent);
    at = put(at, 1, month->unmetered_factor);
    at = put(at, 1, month->loss_factor);
    at = put(at, 4, month->shared_meter);
    at = put(at, 4, month->price);
    for (i = 0; i < 6; i++)
        at = put(at, 4, month->water_readings[i]);
    for (i = 0; i < UNITS; i++)
        at = put_unit(at, &month->units[i]);
}

/* A unit's numbers are four Wh, then four cents; all cents add to the bill. */
static void print_statement(const struct month *month, const uint32_t *statement)
{
    uint32_t bill = 0;
    int i, j;
    for (i = 0; i < UNITS; i++)
        for (j = 4; j < 8; j++)
            bill += statement[8 * i + j];
    printf("month %d units %d wh %lu cents %lu\n", month->month, UNITS, (unsigned long)month->shared_meter,
           (unsigned long)bill);
    for (i = 0; i < UNITS; i++) {
        printf("%lu", (unsigned long)month->units[i].id);
        for (j = 0; j < 8; j++)
            printf(" %lu", (unsigned long)statement[8 * i + j]);
        printf("\n");
    }
}

static void print_refusal(uint32_t answer)
{
    printf("refused %d %d: %s\n", (int)HEATCOST_NUMBER(answer), (int)HEATCOST_PLACE(answer), heatcost_text(answer));
}

static void settle_and_print(const struct month *month)
{
    uint8_t sheet[HEATCOST_SHEET_LEN(UNITS)];
    uint32_t statement[HEATCOST_STATEMENT_LEN(UNITS)];
    uint32_t answer;
    put_sheet(sheet, month);
    answer = heatcost_settle(sheet, sizeof sheet, statement, HEATCOST_STATEMENT_LEN(UNITS));
    if (answer == HEATCOST_ACCEPTED)
        print_statement(month, statement);
    else
        print_refusal(answer);
}

/* Power, buyer's fee and supplier's fee in cents, by model 1S or 2S: three numbers a unit. */
static void divide_and_print(const struct month *month, uint32_t model)
{
    uint8_t sheet[HEATCOST_SHEET_LEN(UNITS)];
    uint32_t charges[HEATCOST_CHARGES_LEN(UNITS)];
    uint32_t answer;
    int i;
    put_sheet(sheet, month);
    answer = heatcost_fixed_charges(sheet, sizeof sheet, model, 6000, 300, 101, charges, HEATCOST_CHARGES_LEN(UNITS));
    if (answer != HEATCOST_ACCEPTED) {
        print_refusal(answer);
        return;
    }
    for (i = 0; i < UNITS; i++)
        printf("%lu fixed %lu %lu %lu\n", (unsigned long)month->units[i].id, (unsigned long)charges[3 * i],
               (unsigned long)charges[3 * i + 1], (unsigned long)charges[3 * i + 2]);
}

static void print_fund(const uint64_t *fund, uint32_t answer)
{
    if (answer != HEATCOST_ACCEPTED)
        print_refusal(answer);
    printf("fund %lu\n", (unsigned long)*fund);
}

/* A month's fees at 0.50 EUR per m2 into a new fund, then 20 EUR out of it, and 6, which it no longer has. */
static void collect_and_print(const struct month *month)
{
    uint8_t sheet[HEATCOST_SHEET_LEN(UNITS)];
    uint64_t fund = 0;
    put_sheet(sheet, month);
    print_fund(&fund, heatcost_collect_fees(&fund, sheet, sizeof sheet, 50000));
    print_fund(&fund, heatcost_pay_out(&fund, 2000));
    print_fund(&fund, heatcost_pay_out(&fund, 600));
}

int main(void)
{
    struct month faulty = case_a, no_device = case_a;
    settle_and_print(&case_a);
    divide_and_print(&case_a, HEATCOST_MODEL_2S);
    divide_and_print(&case_a, HEATCOST_MODEL_1S);
    no_device.units[0].status = 1;
    no_device.units[0].reading = 0;
    collect_and_print(&no_device);
    faulty.units[2].location_factor = 0;
    settle_and_print(&faulty);
    faulty.units[2].location_factor = 1000;
    faulty.units[2].status = 1; /* not read, but with a reading */
    settle_and_print(&faulty);
    faulty.base_percent = 31; /* byte 11 */
    settle_and_print(&faulty);
    return 0;
}
