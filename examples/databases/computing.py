"""The rows that profiles change, each by one statement that computes from the row as it is then.

So no change is lost even at READ COMMITTED; naive.py has the same seven otherwise.
"""


def next_order(db, w, d):
    """2.4.2.2: D_NEXT_O_ID as it was, and D_TAX; it rises by one."""
    return db.row(
        "UPDATE DISTRICT SET D_NEXT_O_ID = D_NEXT_O_ID + 1"
        " WHERE D_W_ID = ? AND D_ID = ? RETURNING D_NEXT_O_ID - 1, D_TAX", w, d)


def take_stock(db, supply, item, quantity, remote):
    """2.4.2.2: S_QUANTITY falls by the quantity, and 91 are added where under 10 are left."""
    return db.row(
        "UPDATE STOCK SET S_QUANTITY = S_QUANTITY - ?"
        " + CASE WHEN S_QUANTITY >= ? + 10 THEN 0 ELSE 91 END,"
        " S_YTD = S_YTD + ?, S_ORDER_CNT = S_ORDER_CNT + 1, S_REMOTE_CNT = S_REMOTE_CNT + ?"
        " WHERE S_W_ID = ? AND S_I_ID = ? RETURNING S_QUANTITY",
        quantity, quantity, quantity, remote, supply, item)[0]


def pay_warehouse(db, w, amount):
    """2.5.2.2: W_YTD rises by the amount."""
    return db.row("UPDATE WAREHOUSE SET W_YTD = W_YTD + ? WHERE W_ID = ? RETURNING W_ID", amount, w)


def pay_district(db, w, d, amount):
    """2.5.2.2: D_YTD rises by the amount."""
    return db.row(
        "UPDATE DISTRICT SET D_YTD = D_YTD + ? WHERE D_W_ID = ? AND D_ID = ? RETURNING D_ID",
        amount, w, d)


def pay_customer(db, w, d, c, amount):
    """2.5.2.2: C_BALANCE falls by the amount, C_YTD_PAYMENT rises by it, C_PAYMENT_CNT by one."""
    db.rows(
        "UPDATE CUSTOMER SET C_BALANCE = C_BALANCE - ?, C_YTD_PAYMENT = C_YTD_PAYMENT + ?,"
        " C_PAYMENT_CNT = C_PAYMENT_CNT + 1 WHERE C_W_ID = ? AND C_D_ID = ? AND C_ID = ?",
        amount, amount, w, d, c)


def note_payment(db, w, d, c, note):
    """2.5.2.2: of bad credit, the note comes to the left of C_DATA, which is cut to 500."""
    db.rows(
        "UPDATE CUSTOMER SET C_DATA = SUBSTR(? || C_DATA, 1, 500)"
        " WHERE C_W_ID = ? AND C_D_ID = ? AND C_ID = ? AND C_CREDIT = 'BC'", note, w, d, c)


def charge_customer(db, w, d, c, amount):
    """2.7.4.2: C_BALANCE rises by the amount, C_DELIVERY_CNT by one."""
    db.rows(
        "UPDATE CUSTOMER SET C_BALANCE = C_BALANCE + ?, C_DELIVERY_CNT = C_DELIVERY_CNT + 1"
        " WHERE C_W_ID = ? AND C_D_ID = ? AND C_ID = ?", amount, w, d, c)
