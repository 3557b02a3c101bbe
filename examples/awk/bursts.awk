# Requests as lines of a stream, by the minute of the day: .. [DAY:HOUR:MINUTE:SECOND ZONE] ..
{
    if (!match($0, /\[[0-9]+\/[A-Za-z]+\/[0-9]+:[0-9][0-9]:[0-9][0-9]:[0-9][0-9] /))
        refuse(shown($0) " has no time, as nginx writes it")
    split(substr($0, RSTART + 1, RLENGTH - 2), time, ":")
    if (day == "") day = time[1]
    if (time[1] != day) refuse("the day is " time[1] ", and " day " before")
    if (time[2] > 23 || time[3] > 59) refuse("there is no minute " time[2] ":" time[3])
    update(0, time[2] * 60 + time[3], 1)
}
