# Bills as lines of a stream, by customer: INVOICE,CUSTOMER,AMOUNT under a heading. Side 0 has all of
# them, and side 1 those that are no credits.
BEGIN { FS = "," }

# An amount, in units of the last of its DECIMALS digits behind the point.
function units(text, part) {
    if (text !~ /^-?[0-9]+(\.[0-9]+)?$/) refuse("the amount " shown(text) " is no number")
    split(text ".", part, ".")
    if (length(part[2]) > DECIMALS)
        refuse("the amount " shown(text) " has " length(part[2]) " digits behind its point, and " \
            DECIMALS " may be there: DECIMALS says how many")
    while (length(part[2]) < DECIMALS) part[2] = part[2] "0"
    return (part[1] part[2]) + 0
}

!headed {
    headed = 1
    if ($2 ~ /^[0-9]+$/) refuse("a bill is where the heading `invoice,customer,amount` should be")
    next
}

{
    if (NF != 3) refuse("a bill has 3 fields, and this line has " NF)
    if ($2 !~ /^[0-9]+$/ || $2 + 0 > 1048575)
        refuse("the customer " shown($2) " is no number from 0 to 1048575")
    amount = units($3)
    if (amount < 0 && WARY != "")
        refuse("a credit, with which an entry may be below 0, so that " WARY " is not right: " \
            "ask it of side 1, which has no credits")
    update(0, $2 + 0, amount)
    if (amount > 0) update(1, $2 + 0, amount)
}
