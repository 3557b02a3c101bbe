# Packets as lines of a stream, by their IPv4 source.

# The word that stands behind the time, or behind none.
function protocol(at) {
    for (at = 1; $at ~ /^([0-9]+:[0-9]+:[0-9.]+|[0-9]+\.[0-9]+|[0-9]+-[0-9]+-[0-9]+)$/;) at++
    return at
}

# The bytes of a packet: what `length` says of the outer one, or a number in brackets at the end.
function bytes(at, last) {
    for (; at < NF; at++) if ($at == "length") return $(at + 1) + 0
    if ($NF ~ /^\([0-9]+\)$/) return substr($NF, 2) + 0
    unsized++
    return 0
}

# SOURCE BYTES, where a packet that tells of another one has the source of that behind a comma, and
# one of another kind has none
/^[0-9.,]*\t[0-9]+$/ {
    if (NF == 1) others++
    else {
        sub(/,.*/, "", $1)
        count($1, $2)
    }
    next
}

# TIME IP SOURCE.PORT > TARGET.PORT: .. length BYTES
{ at = protocol() }

$at == "IP" {
    source = $(at + 1)
    if (!match(source, /^[0-9]+\.[0-9]+\.[0-9]+\.[0-9]+/))
        refuse("behind IP stands " shown(source) " and no address: print with -nn, without -v")
    count(substr(source, 1, RLENGTH), bytes(at))
    next
}

# TIME PROTOCOL ..
$at ~ /^[A-Z]/ && (at > 1 || $at ~ /^(IP6|ARP,)$/) {
    others++
    next
}

{
    refuse(shown($0) " is no packet, as `tcpdump -nn` prints it " \
        "or `tshark -T fields -e ip.src -e frame.len`")
}

END {
    if (unsized > 0)
        print ENVIRON["NAME"] ": " unsized " packets are printed without a length" >"/dev/stderr"
}
