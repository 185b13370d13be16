"""The rows that profiles change, as a first try may do it: each is read, and then written back.

Where two clients read a row before either writes it, one change is lost. computing.py does better.
"""

DISTRICT = "WHERE D_W_ID = ? AND D_ID = ?"
STOCK = "WHERE S_W_ID = ? AND S_I_ID = ?"
CUSTOMER = "WHERE C_W_ID = ? AND C_D_ID = ? AND C_ID = ?"


def next_order(db, w, d):
    found = db.row(f"SELECT D_NEXT_O_ID, D_TAX FROM DISTRICT {DISTRICT}", w, d)
    if found:
        db.rows(f"UPDATE DISTRICT SET D_NEXT_O_ID = ? {DISTRICT}", found[0] + 1, w, d)
    return found


def take_stock(db, supply, item, quantity, remote):
    stock, ytd, orders, remotes = db.row(
        f"SELECT S_QUANTITY, S_YTD, S_ORDER_CNT, S_REMOTE_CNT FROM STOCK {STOCK}", supply, item)
    stock -= quantity if stock >= quantity + 10 else quantity - 91
    db.rows(
        f"UPDATE STOCK SET S_QUANTITY = ?, S_YTD = ?, S_ORDER_CNT = ?, S_REMOTE_CNT = ? {STOCK}",
        stock, ytd + quantity, orders + 1, remotes + remote, supply, item)
    return stock


def pay_warehouse(db, w, amount):
    found = db.row("SELECT W_YTD FROM WAREHOUSE WHERE W_ID = ?", w)
    if found:
        db.rows("UPDATE WAREHOUSE SET W_YTD = ? WHERE W_ID = ?", found[0] + amount, w)
    return found


def pay_district(db, w, d, amount):
    found = db.row(f"SELECT D_YTD FROM DISTRICT {DISTRICT}", w, d)
    if found:
        db.rows(f"UPDATE DISTRICT SET D_YTD = ? {DISTRICT}", found[0] + amount, w, d)
    return found


def pay_customer(db, w, d, c, amount):
    balance, paid, payments = db.row(
        f"SELECT C_BALANCE, C_YTD_PAYMENT, C_PAYMENT_CNT FROM CUSTOMER {CUSTOMER}", w, d, c)
    db.rows(
        f"UPDATE CUSTOMER SET C_BALANCE = ?, C_YTD_PAYMENT = ?, C_PAYMENT_CNT = ? {CUSTOMER}",
        balance - amount, paid + amount, payments + 1, w, d, c)


def note_payment(db, w, d, c, note):
    credit, data = db.row(f"SELECT C_CREDIT, C_DATA FROM CUSTOMER {CUSTOMER}", w, d, c)
    if credit == "BC":
        db.rows(f"UPDATE CUSTOMER SET C_DATA = ? {CUSTOMER}", (note + data)[:500], w, d, c)


def charge_customer(db, w, d, c, amount):
    balance, deliveries = db.row(
        f"SELECT C_BALANCE, C_DELIVERY_CNT FROM CUSTOMER {CUSTOMER}", w, d, c)
    db.rows(
        f"UPDATE CUSTOMER SET C_BALANCE = ?, C_DELIVERY_CNT = ? {CUSTOMER}",
        balance + amount, deliveries + 1, w, d, c)
