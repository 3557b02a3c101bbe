# A report with addresses in the place of items.
{
    parts = split($1, part, ":")
    if (part[1] ~ /^(index|pred|succ)$/) $1 = part[1] ":" address(part[2])
    if (part[1] == "sub" || part[1] == "range") {
        part[parts - 1] = address(part[parts - 1])
        part[parts] = address(part[parts])
        $1 = part[1]
        for (at = 2; at <= parts; at++) $1 = $1 ":" part[at]
    }
    for (at = 2; at <= NF; at++) {
        if (split($at, entry, ":") == 2) $at = address(entry[1]) ":" entry[2]
    }
    print
}
