"""The five profiles of TPC-C in SQL, and what runs a queued delivery; each gives its screen.

`db` is a session of sqlite.py or postgresql.py: `db.rows` performs a statement and gives its rows,
`db.row` the first of them or None. `db.changes` is computing.py or naive.py. A profile neither
begins nor commits; one that must be undone raises Undone with its screen.
"""
from tables import amount_text, cents, moment_text, rate_text

ADDRESS = "{0}_STREET_1, {0}_STREET_2, {0}_CITY, {0}_STATE, {0}_ZIP"


class Undone(Exception):
    """A request that is refused or rolled back: it changes nothing, and its screen says why."""

    def __init__(self, screen):
        super().__init__(screen)
        self.screen = screen


def refuse(reason):
    raise Undone(f"refused {reason}\n")


def find_warehouse(db, w):
    """W_NAME, W_TAX and the address."""
    return db.row(
        f"SELECT W_NAME, W_TAX, {ADDRESS.format('W')} FROM WAREHOUSE WHERE W_ID = ?", w
    ) or refuse("1 NoWarehouse")


def find_district(db, w, d):
    """D_NAME, D_NEXT_O_ID and the address."""
    return db.row(
        f"SELECT D_NAME, D_NEXT_O_ID, {ADDRESS.format('D')} FROM DISTRICT"
        " WHERE D_W_ID = ? AND D_ID = ?", w, d) or refuse("2 NoDistrict")


def find_customer(db, w, d, who):
    """2.5.2.2, 2.6.2.2: C_ID of a number or, of the customers of a name, of the middle one."""
    if who.isdigit():
        named = db.rows(
            "SELECT C_ID FROM CUSTOMER WHERE C_W_ID = ? AND C_D_ID = ? AND C_ID = ?",
            w, d, int(who))
    else:
        named = db.rows(
            "SELECT C_ID FROM CUSTOMER WHERE C_W_ID = ? AND C_D_ID = ? AND C_LAST = ?"
            " ORDER BY C_FIRST, C_ID", w, d, who)
    return named[(len(named) + 1) // 2 - 1][0] if named else refuse("3 NoCustomer")


# ---- 2.4: New-Order


def new_order(db, w, d, who, moment, *lines):
    """2.4.2.2: an order of lines `ITEM:SUPPLY:QUANTITY` is entered."""
    w_tax = find_warehouse(db, w)[1]
    number, d_tax = db.changes.next_order(db, w, d) or refuse("2 NoDistrict")
    c = find_customer(db, w, d, who)
    last, credit, discount = db.row(
        "SELECT C_LAST, C_CREDIT, C_DISCOUNT FROM CUSTOMER"
        " WHERE C_W_ID = ? AND C_D_ID = ? AND C_ID = ?", w, d, c)
    lines = [tuple(map(int, line.split(":"))) for line in lines]
    test_lines(db, lines)
    all_local = int(all(supply == w for _, supply, _ in lines))
    db.rows("INSERT INTO ORDERS VALUES (?, ?, ?, ?, ?, NULL, ?, ?)",
            number, d, w, c, moment, len(lines), all_local)
    db.rows("INSERT INTO NEW_ORDER VALUES (?, ?, ?)", number, d, w)
    head = f"new-order W_ID={w} D_ID={d} C_ID={c} C_LAST={last} C_CREDIT={credit}"
    total, shown = 0, ""
    for place, line in enumerate(lines, 1):
        entered = enter_line(db, w, d, number, place, *line)
        if entered is None:  # 2.4.2.3, 2.4.3.4: an unused item number
            raise Undone(f"{head} O_ID={number} Item number is not valid\n")
        total += entered[0]
        shown += entered[1]
    # 2.4.2.2: rounded half up to a cent
    total = (total * (10000 - discount) * (10000 + w_tax + d_tax) + 50000000) // 100000000
    return (
        f"{head} C_DISCOUNT={rate_text(discount)} O_ID={number} O_OL_CNT={len(lines)}"
        f" W_TAX={rate_text(w_tax)} D_TAX={rate_text(d_tax)} O_ENTRY_D={moment_text(moment)}"
        f" total={amount_text(total)}\n{shown}")


def test_lines(db, lines):
    """2.4.1.3 to 2.4.1.5: the lines of an order."""
    if not 5 <= len(lines) <= 15:
        refuse("4 LineCount")
    if not all(1 <= quantity <= 10 for _, _, quantity in lines):
        refuse("5 Quantity")
    for supply in {supply for _, supply, _ in lines}:
        if not db.row("SELECT W_ID FROM WAREHOUSE WHERE W_ID = ?", supply):
            refuse("6 NoSupply")


def enter_line(db, w, d, number, place, item, supply, quantity):
    """2.4.2.2: one line of an order: its amount and what is shown of it; None of an unused item."""
    found = db.row("SELECT I_NAME, I_PRICE, I_DATA FROM ITEM WHERE I_ID = ?", item)
    if found is None:
        return None
    name, price, i_data = found
    stock = db.changes.take_stock(db, supply, item, quantity, int(supply != w))
    s_data, information = db.row(
        f"SELECT S_DATA, S_DIST_{d:02} FROM STOCK WHERE S_W_ID = ? AND S_I_ID = ?", supply, item)
    brand = "B" if "ORIGINAL" in i_data and "ORIGINAL" in s_data else "G"
    amount = quantity * price
    db.rows("INSERT INTO ORDER_LINE VALUES (?, ?, ?, ?, ?, ?, NULL, ?, ?, ?)",
            number, d, w, place, item, supply, quantity, amount, information)
    return amount, (
        f"line {place} OL_SUPPLY_W_ID={supply} OL_I_ID={item} I_NAME={name} OL_QUANTITY={quantity}"
        f" S_QUANTITY={stock} brand={brand} I_PRICE={amount_text(price)}"
        f" OL_AMOUNT={amount_text(amount)}\n")


# ---- 2.5: Payment


def payment(db, w, d, c_w, c_d, who, amount, moment):
    """2.5.2.2: a customer pays; of one with bad credit the payment is noted in C_DATA."""
    w_name, _, *w_address = find_warehouse(db, w)
    find_warehouse(db, c_w)
    d_name, _, *d_address = find_district(db, w, d)
    find_district(db, c_w, c_d)
    c = find_customer(db, c_w, c_d, who)
    if not 100 <= amount <= 500000:  # 2.5.1.3
        refuse("7 Amount")
    db.changes.pay_warehouse(db, w, amount)
    db.changes.pay_district(db, w, d, amount)
    db.changes.pay_customer(db, c_w, c_d, c, amount)
    note = f"{c} {c_d} {c_w} {d} {w} {amount_text(amount)} "
    db.changes.note_payment(db, c_w, c_d, c, note)
    db.rows("INSERT INTO HISTORY VALUES (?, ?, ?, ?, ?, ?, ?, ?)",
            c, c_d, c_w, d, w, moment, amount, f"{w_name}    {d_name}")
    return (
        f"payment W_ID={w} D_ID={d} C_W_ID={c_w} C_D_ID={c_d} C_ID={c}"
        f" H_AMOUNT={amount_text(amount)} H_DATE={moment_text(moment)}\n"
        f"warehouse {','.join(w_address)}\ndistrict {','.join(d_address)}\n"
        + paying_customer(db, c_w, c_d, c))


def paying_customer(db, w, d, c):
    """2.5.3.3: what a Payment shows of its customer, of bad credit the first 200 of C_DATA."""
    (first, middle, last, *address, phone, since, credit, limit, discount, balance, data) = db.row(
        f"SELECT C_FIRST, C_MIDDLE, C_LAST, {ADDRESS.format('C')}, C_PHONE, C_SINCE, C_CREDIT,"
        " C_CREDIT_LIM, C_DISCOUNT, C_BALANCE, C_DATA FROM CUSTOMER"
        " WHERE C_W_ID = ? AND C_D_ID = ? AND C_ID = ?", w, d, c)
    shown = (
        f"customer {first} {middle} {last} {','.join(address)} C_PHONE={phone}"
        f" C_SINCE={moment_text(since)} C_CREDIT={credit} C_CREDIT_LIM={amount_text(limit)}"
        f" C_DISCOUNT={rate_text(discount)} C_BALANCE={amount_text(balance)}\n")
    return shown + (f"C_DATA={data[:200]}\n" if credit == "BC" else "")


# ---- 2.6: Order-Status


def status(db, w, d, who):
    """2.6.2.2: a customer's balance, last order and its lines."""
    find_warehouse(db, w)
    find_district(db, w, d)
    c = find_customer(db, w, d, who)
    first, middle, last, balance = db.row(
        "SELECT C_FIRST, C_MIDDLE, C_LAST, C_BALANCE FROM CUSTOMER"
        " WHERE C_W_ID = ? AND C_D_ID = ? AND C_ID = ?", w, d, c)
    shown = (
        f"order-status W_ID={w} D_ID={d} C_ID={c} C_FIRST={first} C_MIDDLE={middle} C_LAST={last}"
        f" C_BALANCE={amount_text(balance)}\n")
    order = db.row(
        "SELECT O_ID, O_ENTRY_D, O_CARRIER_ID FROM ORDERS"
        " WHERE O_W_ID = ? AND O_D_ID = ? AND O_C_ID = ? ORDER BY O_ID DESC LIMIT 1", w, d, c)
    if order is None:
        return shown + "no order\n"
    number, entered, carrier = order
    shown += f"order O_ID={number} O_ENTRY_D={moment_text(entered)} O_CARRIER_ID={carrier or '-'}\n"
    for supply, item, quantity, amount, delivered in db.rows(
            "SELECT OL_SUPPLY_W_ID, OL_I_ID, OL_QUANTITY, OL_AMOUNT, OL_DELIVERY_D FROM ORDER_LINE"
            " WHERE OL_W_ID = ? AND OL_D_ID = ? AND OL_O_ID = ? ORDER BY OL_NUMBER", w, d, number):
        shown += (
            f"line OL_SUPPLY_W_ID={supply} OL_I_ID={item} OL_QUANTITY={quantity}"
            f" OL_AMOUNT={amount_text(amount)} OL_DELIVERY_D={moment_text(delivered)}\n")
    return shown


# ---- 2.7: Delivery


def delivery(db, w, carrier, moment):
    """2.7.2: a delivery is queued behind those that wait."""
    find_warehouse(db, w)
    if not 1 <= carrier <= 10:
        refuse("8 Carrier")
    waiting, last = db.row("SELECT COUNT(*), COALESCE(MAX(Q_ID), 0) FROM DELIVERY_QUEUE")
    if waiting >= 1000:
        refuse("12 QueueFull")
    db.rows("INSERT INTO DELIVERY_QUEUE VALUES (?, ?, ?, ?, 1)", last + 1, w, carrier, moment)
    return f"delivery W_ID={w} O_CARRIER_ID={carrier} Delivery has been queued\n"


def deliver(db, moment):
    """2.7.4.2: the next district of the first queued delivery is delivered."""
    first = db.row("SELECT * FROM DELIVERY_QUEUE ORDER BY Q_ID LIMIT 1")
    if first is None:
        return "no delivery queued\n"
    ticket, w, carrier, queued, d = first
    (number,) = db.row(
        "SELECT MIN(NO_O_ID) FROM NEW_ORDER WHERE NO_W_ID = ? AND NO_D_ID = ?", w, d)
    if number is not None:
        deliver_order(db, w, d, number, carrier, moment)
    if d == 10:
        db.rows("DELETE FROM DELIVERY_QUEUE WHERE Q_ID = ?", ticket)
    else:
        db.rows("UPDATE DELIVERY_QUEUE SET Q_D_ID = ? WHERE Q_ID = ?", d + 1, ticket)
    return (
        f"delivered W_ID={w} O_CARRIER_ID={carrier} queued={moment_text(queued)}"
        f" at={moment_text(moment)}\ndistrict {d} {f'O_ID={number}' if number else 'skipped'}\n")


def deliver_order(db, w, d, number, carrier, moment):
    """2.7.4.2: the order is new no longer, gets carrier and moment; its customer is charged."""
    db.rows("DELETE FROM NEW_ORDER WHERE NO_W_ID = ? AND NO_D_ID = ? AND NO_O_ID = ?", w, d, number)
    (c,) = db.row(
        "UPDATE ORDERS SET O_CARRIER_ID = ? WHERE O_W_ID = ? AND O_D_ID = ? AND O_ID = ?"
        " RETURNING O_C_ID", carrier, w, d, number)
    db.rows("UPDATE ORDER_LINE SET OL_DELIVERY_D = ?"
            " WHERE OL_W_ID = ? AND OL_D_ID = ? AND OL_O_ID = ?", moment, w, d, number)
    (amount,) = db.row(
        "SELECT CAST(SUM(OL_AMOUNT) AS BIGINT) FROM ORDER_LINE"
        " WHERE OL_W_ID = ? AND OL_D_ID = ? AND OL_O_ID = ?", w, d, number)
    db.changes.charge_customer(db, w, d, c, amount)


# ---- 2.8: Stock-Level


def stock(db, w, d, threshold):
    """2.8.2.2: how many items of the last 20 orders' lines are below the threshold."""
    find_warehouse(db, w)
    next_number = find_district(db, w, d)[1]
    if not 10 <= threshold <= 20:
        refuse("9 Threshold")
    (low,) = db.row(
        "SELECT COUNT(DISTINCT S_I_ID) FROM ORDER_LINE"
        " JOIN STOCK ON S_W_ID = OL_W_ID AND S_I_ID = OL_I_ID"
        " WHERE OL_W_ID = ? AND OL_D_ID = ? AND OL_O_ID >= ? AND OL_O_ID < ? AND S_QUANTITY < ?",
        w, d, next_number - 20, next_number, threshold)
    return f"stock-level W_ID={w} D_ID={d} threshold={threshold} low_stock={low}\n"


# ---- a line of a script

# each word's kind, those that are left over being the lines of an order
PROFILES = {
    "new-order": (new_order, (int, int, str, int)),
    "payment": (payment, (int, int, int, int, str, cents, int)),
    "status": (status, (int, int, str)),
    "delivery": (delivery, (int, int, int)),
    "deliver": (deliver, (int,)),
    "stock": (stock, (int, int, int)),
}


def perform(db, request):
    """The screen of a request that is said as a script says it."""
    name, *words = request.split(" ")
    profile, kinds = PROFILES[name]
    values = [kind(word) for kind, word in zip(kinds, words)]
    return profile(db, *values, *words[len(kinds):])
