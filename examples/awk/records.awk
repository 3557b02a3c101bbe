# What a program here that reads a text writes: lines of a stream, or what is wrong with a line.

# A text of any bytes, as it can be shown.
function shown(text) {
    text = substr(text, 1, 64)
    gsub(/[^ -~]/, "?", text)
    return "\"" text "\""
}

# Says what is wrong with this line, and ends the stream with one that is no record, so that nothing
# is answered about the lines before.
function refuse(what) {
    printf "%s: line %d of %s: %s\n", ENVIRON["NAME"], NR, ENVIRON["TEXT"], what >"/dev/stderr"
    print "refused"
    refused = 1
    exit 3
}

# Writes an update of an item, if it changes something.
function update(side, item, delta) {
    if (delta == 0) return
    weight[side] += delta < 0 ? -delta : delta
    if (weight[side] > 1073741823)
        refuse("with it side " side " has more than the 2^30 - 1 units that it bears")
    printf "%d %.0f %.0f\n", side, item, delta
}

# Writes that a source did something with so many bytes: 1 on side 0, and the units of UNIT bytes that
# were begun on side 1.
function count(source, bytes, item) {
    item = number(source)
    if (item < 0) refuse(shown(source) " is no IPv4 address")
    update(0, item, 1)
    update(1, item, int((bytes + UNIT - 1) / UNIT))
}

{ sub(/\r$/, "") }

/^[ \t]*$/ { next }

END {
    if (refused) exit 3
    if (others > 0)
        print ENVIRON["NAME"] ": " others " lines are not about an IPv4 address" >"/dev/stderr"
}
