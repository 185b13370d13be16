"""The nine tables as the program writes them, and as the databases keep them.

Here an amount is a whole number of cents, a rate of ten-thousandths, a moment of seconds.
"""
import csv
import io
from datetime import datetime, timezone
from functools import lru_cache

# the program's name, the table's in SQL, and its key; in an order in which references can be loaded
TABLES = {
    "WAREHOUSE": ("WAREHOUSE", "W_ID"),
    "DISTRICT": ("DISTRICT", "D_W_ID, D_ID"),
    "CUSTOMER": ("CUSTOMER", "C_W_ID, C_D_ID, C_ID"),
    "HISTORY": ("HISTORY", "H_W_ID"),
    "ITEM": ("ITEM", "I_ID"),
    "STOCK": ("STOCK", "S_W_ID, S_I_ID"),
    "ORDER": ("ORDERS", "O_W_ID, O_D_ID, O_ID"),
    "NEW-ORDER": ("NEW_ORDER", "NO_W_ID, NO_D_ID, NO_O_ID"),
    "ORDER-LINE": ("ORDER_LINE", "OL_W_ID, OL_D_ID, OL_O_ID, OL_NUMBER"),
}


def cents(text):
    """`12.34` as 1234."""
    return int(text.replace(".", ""))


@lru_cache
def seconds(text):
    return int(datetime.fromisoformat(text + "+00:00").timestamp())


def amount_text(amount):
    return f"{'-' * (amount < 0)}{abs(amount) // 100}.{abs(amount) % 100:02}"


def rate_text(rate):
    return f"0.{rate:04}"


@lru_cache
def moment_text(moment):
    if moment is None:
        return "-"
    return datetime.fromtimestamp(moment, timezone.utc).strftime("%Y-%m-%dT%H:%M:%S")


AMOUNT = (cents, amount_text)
RATE = (cents, rate_text)
MOMENT = (seconds, moment_text)
# the columns that are kept otherwise than as their text: how each is read, and how written
KINDS = {
    "W_YTD": AMOUNT, "D_YTD": AMOUNT, "C_CREDIT_LIM": AMOUNT, "C_BALANCE": AMOUNT,
    "C_YTD_PAYMENT": AMOUNT, "H_AMOUNT": AMOUNT, "OL_AMOUNT": AMOUNT, "I_PRICE": AMOUNT,
    "W_TAX": RATE, "D_TAX": RATE, "C_DISCOUNT": RATE,
    "C_SINCE": MOMENT, "H_DATE": MOMENT, "O_ENTRY_D": MOMENT, "OL_DELIVERY_D": MOMENT,
}


def columns_of(text):
    return text.partition("\n")[0].split(",")


def kinds_of(columns):
    return [(place, *KINDS[column]) for place, column in enumerate(columns) if column in KINDS]


def read(text):
    """The rows of a table's CSV; an empty field is null."""
    kinds = kinds_of(columns_of(text))
    records = csv.reader(io.StringIO(text))
    next(records)
    for record in records:
        for place, reads, _ in kinds:
            record[place] = reads(record[place]) if record[place] else None
        yield [None if it == "" else it for it in record]


def written(columns, rows):
    """The CSV of a table's rows, as `tpcc dump` writes it."""
    kinds = kinds_of(columns)
    out = io.StringIO()
    records = csv.writer(out, lineterminator="\n")
    records.writerow(columns)
    for row in rows:
        row = list(row)
        for place, _, writes in kinds:
            row[place] = None if row[place] is None else writes(row[place])
        records.writerow(row)
    return out.getvalue()
