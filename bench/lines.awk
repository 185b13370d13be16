# Prints a script of LINES lines for (1 warehouse, 10 customers, 100 items): of 23 lines 10 New-Orders and 10 Payments, and
# one Order-Status, Delivery and Stock-Level each, with keys drawn by awk's own generator from one seed.
#
#   awk -v LINES=20000 -f bench/lines.awk > lines.txt

function drawn(least, most) {
    return least + int(rand() * (most - least + 1))
}

function order_lines(count,    words) {
    words = ""
    for (; count > 0; count--) words = words " " drawn(1, 100) ":1:" drawn(1, 10)
    return words
}

BEGIN {
    srand(1)
    for (line = 0; line < LINES; line++) {
        card = line % 23
        district = drawn(1, 10)
        customer = drawn(1, 10)
        if (card < 10) print "new-order 1 " district " " customer " " line order_lines(drawn(5, 15))
        else if (card < 20) print "payment 1 " district " 1 " district " " customer " " drawn(1, 5000) ".00 " line
        else if (card == 20) print "status 1 " district " " customer
        else if (card == 21) print "delivery 1 " drawn(1, 10) " " line
        else print "stock 1 " district " " drawn(10, 20)
    }
}
