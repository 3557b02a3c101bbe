# IPv4 addresses as items, which are numbers below 2^32.

# The number of an address; -1 where the text is none.
function number(text, part, at, all) {
    if (split(text, part, ".") != 4) return -1
    all = 0
    for (at = 1; at <= 4; at++) {
        if (part[at] !~ /^[0-9]+$/ || part[at] > 255) return -1
        all = all * 256 + part[at]
    }
    return all
}

# The address of a number.
function address(item) {
    return int(item / 16777216) "." int(item / 65536) % 256 "." int(item / 256) % 256 "." item % 256
}
