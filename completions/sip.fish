# Completes the words of sip in fish.

# The words before the present one. Those of a command behind --progress are as if it was not there.
function __sip_words
    commandline -opc | string match -v -- --progress
end

# The kinds of the words behind a command. Where the last one is a question, seats or a part, more of
# them may follow.
function __sip_kinds
    switch $argv[1]
        case verify
            printf '%s\n' stream file file file record depth query
        case help helplook helpmom
            printf '%s\n' file file
        case lookup
            printf '%s\n' stream file file file depth lookup
        case moments
            printf '%s\n' stream file file file depth moment
        case audit
            printf '%s\n' stored file
        case show convert
            printf '%s\n' file
        case gen
            printf '%s\n' number number depth
        case lines widen
            printf '%s\n' stream depth
        case play
            printf '%s\n' stream file helper record depth query
        case panel
            printf '%s\n' stream file helpers depth query
        case begin
            printf '%s\n' file file depth parts seats
        case watch
            printf '%s\n' file stored at every
        case merge
            printf '%s\n' file file part
        case seats
            printf '%s\n' file
        case ask
            printf '%s\n' file end file question
        case serve
            printf '%s\n' stored end end
    end
end

# What may be written in the place of the present word.
function __sip_candidates
    set -l words (__sip_words)
    set -l word (commandline -ct)
    set -l kinds (__sip_kinds $words[2])
    set -l place (math (count $words) - 1)
    set -l kind
    if test $place -le (count $kinds)
        set kind $kinds[$place]
    else if contains -- "$kinds[-1]" query lookup moment question seats part
        set kind $kinds[-1]
    end
    switch "$kind"
        case stream stored
            if test $kind = stream
                printf '%s\n' made:\t'NUMBER:COUNT'
            end
            printf '%s\n' text:\t'lines of text' wide:\t'wide records'
            if string match -qr '^(text|wide):' -- $word
                set -l front (string split -m 1 : -- $word)[1]
                printf "$front:%s\n" (__fish_complete_path (string split -m 1 : -- $word)[2])
            else
                __fish_complete_path $word
            end
        case file part
            __fish_complete_path $word
        case end
            printf '%s\n' -\t'the standard stream'
            __fish_complete_path $word
        case parts
            printf '%s\n' 1/1\t'the one part'
        case at
            printf '%s\n' 0\t'the first record' +\t'the next one'
        case every
            printf '%s\n' -\t'at the end alone'
        case seats
            printf '%s\n' entries:\t'N, for sub, index, pred and succ' \
                sums:{0,1}:\t'N, for range, f2 and moment' products:\t'N, for inner' \
                heavy:{0,1}:\t'N, for heavy and share' above:{0,1}:\t'N, for above'
        case record
            printf '%s\n' -\t'no record'
            __fish_complete_path $word
        case helper
            printf '%s\n' honest skewed mute
        case helpers
            set -l front (string replace -r '[^,]*$' '' -- "$word")
            printf '%s\n' "$front"{honest,skewed,mute}
        case depth
            seq 48
        case question
            for asked in query large lookup moment
                __sip_asked $asked
            end
        case query lookup moment
            __sip_asked $kind
    end
end

# What may ask a query, large entries, a lookup or a moment.
function __sip_asked
    switch $argv[1]
        case query
            printf '%s\n' sub:\t'LO:HI, the entries of side 0' \
                range:{0,1}:\t'LO:HI, the sum of the entries' \
                f2:{0,1}\t'the sum of the squares' inner\t'the sum of the products' \
                heavy:{0,1}:\t'T, the entries of T or more' \
                share:{0,1}:\t'NUM:DEN, the entries of such a part'
        case large
            printf '%s\n' above:{0,1}:\t'T, the entries of T or more, whatever was added'
        case lookup
            printf '%s\n' index:\t'I, the entry there' \
                pred:\t'I, the nearest entry there or below' \
                succ:\t'I, the nearest entry there or above'
        case moment
            printf '%s\n' moment:{0,1}:{3,4,5,6,7,8}\t'the sum of such powers'
    end
end

function __sip_is_first
    test (count (__sip_words)) -eq 1
end

# Behind a command, where its part of the page may be asked for.
function __sip_is_second
    set -l words (__sip_words)
    test (count $words) -eq 2; and __sip_kinds $words[2] | string length -q
end

complete -c sip -f
complete -c sip -n __sip_is_first -a verify -d 'ask a helper and check what it answers'
complete -c sip -n __sip_is_first -a help -d 'be the helper'
complete -c sip -n __sip_is_first -a lookup -d 'ask for entries and the nearest ones'
complete -c sip -n __sip_is_first -a helplook -d 'be the helper of lookup'
complete -c sip -n __sip_is_first -a moments -d 'ask for sums of higher powers'
complete -c sip -n __sip_is_first -a helpmom -d 'be the helper of moments'
complete -c sip -n __sip_is_first -a audit -d 'check a stored run again'
complete -c sip -n __sip_is_first -a show -d 'list a transcript'
complete -c sip -n __sip_is_first -a convert -d 'write a transcript in version 2'
complete -c sip -n __sip_is_first -a gen -d 'write a made stream'
complete -c sip -n __sip_is_first -a lines -d 'print a stream as lines of text'
complete -c sip -n __sip_is_first -a widen -d 'write a stream as wide records'
complete -c sip -n __sip_is_first -a play -d 'ask a helper in the same program'
complete -c sip -n __sip_is_first -a panel -d 'ask several of them in turn'
complete -c sip -n __sip_is_first -a begin -d 'begin a sketch'
complete -c sip -n __sip_is_first -a watch -d 'add what is new of a log to a sketch'
complete -c sip -n __sip_is_first -a merge -d 'add up sketches'
complete -c sip -n __sip_is_first -a seats -d 'list the seats of a sketch'
complete -c sip -n __sip_is_first -a ask -d 'ask a sketch what is chosen now'
complete -c sip -n __sip_is_first -a serve -d 'be the helper with a stream in a file'
complete -c sip -n __sip_is_first -s h -l help -d 'print the page of all commands'
complete -c sip -n __sip_is_first -l progress -d 'say how far the command is'
complete -c sip -n __sip_is_first -s V -l version -d 'print the version'
complete -c sip -n __sip_is_second -s h -l help -d 'print the words of the command'
complete -c sip -n 'not __sip_is_first' -a '(__sip_candidates)'
