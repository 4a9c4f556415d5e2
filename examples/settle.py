"""From plain fields to a statement: case A of docs/FORMAT.md as a sheet's bytes, settled, and printed as the program
`statement` prints it; its fixed part, divided by area beside the statement, and by load, which no unit has; its fees
into an efficiency fund, with one unit without a device, and payments out of the fund; then the same month with a fault
in its third row, with two fields that clash there, and with a fault in the header.

The argument is the library as a shared object.
"""

import ctypes
import re
import struct
import sys
from pathlib import Path

HEADER = Path(__file__).parent.parent / "include" / "heatcost.h"
# The header's lines of text, in the order of the numbers.
TEXTS = re.findall(r'case HEATCOST_\w+:\s+return "(.*)";', HEADER.read_text(encoding="ascii"))

UNIT_FIELDS = (
    "id status water_class location_factor heated_area riser_surface heat_load reading litres persons".split()
)


def unit(**fields):
    """A unit with location factor 1; fields that aren't named are 0."""
    return dict.fromkeys(UNIT_FIELDS, 0) | dict(location_factor=1000) | fields


CASE_A = dict(
    month=1,
    model=3,
    water_source=0,
    base_percent=30,
    common_heat_percent=20,
    common_water_percent=0,
    unmetered_factor=30,
    loss_factor=0,
    shared_meter=1_000_000,
    price=10_000,
    water_readings=[0] * 6,
    units=[
        unit(id=11, heated_area=500, reading=100),
        unit(id=12, heated_area=500, reading=300),
        unit(id=13, heated_area=1000, reading=600),
    ],
)


def sheet_bytes(month):
    sheet = struct.pack(
        "<4sHBBHBBBBBBII6I",
        b"HCS\0",
        1,
        month["month"],
        month["model"],
        len(month["units"]),
        month["water_source"],
        month["base_percent"],
        month["common_heat_percent"],
        month["common_water_percent"],
        month["unmetered_factor"],
        month["loss_factor"],
        month["shared_meter"],
        month["price"],
        *month["water_readings"],
    )
    for fields in month["units"]:
        sheet += struct.pack("<IBBHIIIIIHH", *(fields[name] for name in UNIT_FIELDS), 0)
    return sheet


def print_refusal(answer):
    place, number = divmod(answer, 256)
    print(f"refused {number} {place}: {TEXTS[number]}")


def settle_and_print(library, month):
    sheet = sheet_bytes(month)
    units = month["units"]
    # A unit's numbers are four Wh, then four cents; all cents add to the bill.
    statement = (ctypes.c_uint32 * (8 * len(units)))()
    answer = library.heatcost_settle(sheet, len(sheet), statement, len(statement))
    if answer != 0:
        print_refusal(answer)
        return
    rows = [statement[8 * i : 8 * i + 8] for i in range(len(units))]
    bill = sum(sum(row[4:]) for row in rows)
    print(f"month {month['month']} units {len(units)} wh {month['shared_meter']} cents {bill}")
    for fields, row in zip(units, rows):
        print(fields["id"], *row)


def divide_and_print(library, month, model):
    """Power, buyer's fee and supplier's fee in cents, by model 1S or 2S: three numbers a unit."""
    sheet = sheet_bytes(month)
    units = month["units"]
    charges = (ctypes.c_uint32 * (3 * len(units)))()
    answer = library.heatcost_fixed_charges(sheet, len(sheet), model, 6000, 300, 101, charges, len(charges))
    if answer != 0:
        print_refusal(answer)
        return
    for i, fields in enumerate(units):
        print(fields["id"], "fixed", *charges[3 * i : 3 * i + 3])


def print_fund(fund, answer):
    if answer != 0:
        print_refusal(answer)
    print("fund", fund.value)


def collect_and_print(library, month):
    """A month's fees at 0.50 EUR per m2 into a new fund, then 20 EUR out of it, and 6, which it no longer has."""
    sheet = sheet_bytes(month)
    fund = ctypes.c_uint64(0)
    print_fund(fund, library.heatcost_collect_fees(fund, sheet, len(sheet), 50_000))
    print_fund(fund, library.heatcost_pay_out(fund, 2000))
    print_fund(fund, library.heatcost_pay_out(fund, 600))


def main(path):
    library = ctypes.CDLL(path)
    sheet, numbers = [ctypes.c_char_p, ctypes.c_size_t], [ctypes.POINTER(ctypes.c_uint32), ctypes.c_size_t]
    library.heatcost_settle.restype = ctypes.c_uint32
    library.heatcost_settle.argtypes = sheet + numbers
    library.heatcost_fixed_charges.restype = ctypes.c_uint32
    library.heatcost_fixed_charges.argtypes = sheet + [ctypes.c_uint32] * 4 + numbers
    fund = [ctypes.POINTER(ctypes.c_uint64)]
    library.heatcost_collect_fees.restype = ctypes.c_uint32
    library.heatcost_collect_fees.argtypes = fund + sheet + [ctypes.c_uint32]
    library.heatcost_pay_out.restype = ctypes.c_uint32
    library.heatcost_pay_out.argtypes = fund + [ctypes.c_uint64]
    settle_and_print(library, CASE_A)
    divide_and_print(library, CASE_A, 2)
    divide_and_print(library, CASE_A, 1)
    first, *others = CASE_A["units"]
    collect_and_print(library, CASE_A | dict(units=[first | dict(status=1, reading=0)] + others))
    *others, third = CASE_A["units"]
    settle_and_print(library, CASE_A | dict(units=others + [third | dict(location_factor=0)]))
    # Not read, but with a reading.
    settle_and_print(library, CASE_A | dict(units=others + [third | dict(status=1)]))
    # Byte 11.
    settle_and_print(library, CASE_A | dict(base_percent=31))


if __name__ == "__main__":
    if len(sys.argv) != 2:
        sys.exit("usage: settle.py LIBRARY")
    main(sys.argv[1])
