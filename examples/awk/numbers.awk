# Query words with numbers in the place of addresses.
{
    parts = split($0, part, ":")
    for (at = 1; at <= parts; at++) {
        item = number(part[at])
        if (item >= 0) part[at] = sprintf("%.0f", item)
        printf "%s%s", part[at], at < parts ? ":" : "\n"
    }
}
