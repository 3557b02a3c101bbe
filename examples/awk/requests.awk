# Requests as lines of a stream, by their IPv4 client.

# CLIENT - USER [TIME] "REQUEST" STATUS BYTES "REFERER" "AGENT", where a quote in a field is \x22
{
    split($0, quoted, "\"")
    split(quoted[3], answer, " ")
    if (answer[1] !~ /^[0-9][0-9][0-9]$/ || answer[2] !~ /^([0-9]+|-)$/)
        refuse(shown($0) " is no request, as nginx writes it (combined)")
    # A client over IPv6, or over a socket of this machine
    if ($1 ~ /^[0-9a-f]*:[0-9a-f:.]*$/ || $1 == "unix:") others++
    else count($1, answer[2] + 0)
}
