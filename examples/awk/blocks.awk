# Free blocks as lines of a stream, by their beginning: free START LENGTH and take START LENGTH.
{
    if (NF != 3 || $1 !~ /^(free|take)$/ || $2 !~ /^[0-9]+$/ || $3 !~ /^[0-9]+$/ || $3 + 0 == 0)
        refuse(shown($0) " is neither `free START LENGTH` nor `take START LENGTH`")
    if ($2 + $3 > 4294967296) refuse("the block ends behind 2^32")
    update(0, $2 + 0, $1 == "take" ? -$3 : $3 + 0)
}
