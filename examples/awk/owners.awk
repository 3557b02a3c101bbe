# Ranges of addresses as lines of a stream: FIRST,LAST,OWNER under a heading, rising. A range has its
# owner where it begins. Where no other one follows it at once, what is behind it begins with -1.
BEGIN { FS = "," }

!headed {
    headed = 1
    if (number($1) >= 0) refuse("a range is where the heading `first,last,owner` should be")
    next
}

{
    if (NF != 3) refuse("a range has 3 fields, and this line has " NF)
    first = number($1)
    last = number($2)
    if (first < 0 || last < 0) refuse(shown(first < 0 ? $1 : $2) " is no IPv4 address")
    if (last < first) refuse("the range ends before it begins")
    if (first < end) refuse("the range begins before the end of the last one: they have to rise")
    if ($3 !~ /^[0-9]+$/ || $3 + 0 == 0) refuse(shown($3) " is no owner: a number above 0")
    if (end > 0 && end < first) update(0, end, -1)
    update(0, first, $3 + 0)
    end = last + 1
}

END { if (end > 0 && end < 4294967296) update(0, end, -1) }
