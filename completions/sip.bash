# Completes the words of sip in bash.

# The kinds of the words behind a command. Where the last one is a question, seats or a part, more of
# them may follow. A record may be -, which stands for none or for a standard stream.
_sip_kinds() {
    case $1 in
        verify) echo stream file file file record depth query ;;
        help | helplook | helpmom) echo file file ;;
        lookup) echo stream file file file depth lookup ;;
        moments) echo stream file file file depth moment ;;
        audit) echo stored file ;;
        show | convert) echo file ;;
        gen) echo number number depth ;;
        lines | widen) echo stream depth ;;
        play) echo stream file helper record depth query ;;
        panel) echo stream file helpers depth query ;;
        begin) echo file file depth parts seats ;;
        watch) echo file stored at record ;;
        merge) echo file file part ;;
        seats) echo file ;;
        ask) echo file record file question ;;
        serve) echo stored record record ;;
    esac
}

_sip_commands='verify play panel help lookup helplook moments helpmom audit show convert gen lines widen
    begin watch merge seats ask serve --help -h --progress --version -V'
_sip_queries='sub: range:0: range:1: f2:0 f2:1 inner heavy:0: heavy:1: share:0: share:1:'
_sip_seats='entries: sums:0: sums:1: products: heavy:0: heavy:1: above:0: above:1:'
_sip_larges='above:0: above:1:'
_sip_lookups='index: pred: succ:'
_sip_moments='moment:0:3 moment:0:4 moment:0:5 moment:0:6 moment:0:7 moment:0:8
    moment:1:3 moment:1:4 moment:1:5 moment:1:6 moment:1:7 moment:1:8'

# What may be written in the place of the last word, whose kind is given first.
_sip_candidates() {
    local kind=$1 word=$2 depths
    case $kind in
        command) compgen -W "$_sip_commands" -- "$word" ;;
        help) compgen -W '--help -h' -- "$word" ;;
        query) compgen -W "$_sip_queries" -- "$word" ;;
        seats) compgen -W "$_sip_seats" -- "$word" ;;
        parts) compgen -W 1/1 -- "$word" ;;
        at) compgen -W '0 +' -- "$word" ;;
        lookup) compgen -W "$_sip_lookups" -- "$word" ;;
        moment) compgen -W "$_sip_moments" -- "$word" ;;
        question) compgen -W "$_sip_queries $_sip_larges $_sip_lookups $_sip_moments" -- "$word" ;;
        record)
            compgen -W - -- "$word"
            compgen -f -- "$word"
            ;;
        helper) compgen -W 'honest skewed mute' -- "$word" ;;
        helpers) compgen -P "${word%"${word##*,}"}" -W 'honest skewed mute' -- "${word##*,}" ;;
        depth) depths=$(seq 48) && compgen -W "$depths" -- "$word" ;;
        file | part) compgen -f -- "$word" ;;
        stream | stored)
            case $word in
                made:*) ;;
                text:* | wide:*) compgen -P "${word%%:*}:" -f -- "${word#*:}" ;;
                *)
                    [[ $kind == stored ]] || compgen -W 'made:' -- "$word"
                    compgen -W 'text: wide:' -- "$word"
                    compgen -f -- "$word"
                    ;;
            esac
            ;;
    esac
}

_sip() {
    local words=() piece kinds kind place front
    # A word with colons comes in pieces.
    for piece in "${COMP_WORDS[@]:0:COMP_CWORD+1}"; do
        if [[ ${#words[@]} -gt 0 && ($piece == :* || ${words[-1]} == *:) ]]; then
            words[-1]+=$piece
        else
            words+=("$piece")
        fi
    done
    if [[ ${#words[@]} -gt 2 && ${words[1]} == --progress ]]; then
        words=("${words[0]}" "${words[@]:2}")
    fi
    place=$((${#words[@]} - 1))
    if ((place == 1)); then
        kind='command'
    elif ((place == 2)) && [[ ${words[2]} == -* && -n $(_sip_kinds "${words[1]}") ]]; then
        kind='help'
    else
        read -ra kinds <<<"$(_sip_kinds "${words[1]}")"
        kind=${kinds[place - 2]:-}
        if [[ -z $kind && " ${kinds[*]}" =~ ' '(query|lookup|moment|question|seats|part)$ ]]; then kind=${BASH_REMATCH[1]}; fi
    fi
    mapfile -t COMPREPLY < <(_sip_candidates "$kind" "${words[place]}")
    if [[ ${#COMPREPLY[@]} -eq 1 && ${COMPREPLY[0]} == *: ]]; then
        compopt -o nospace 2>/dev/null
    elif [[ $kind == file || $kind == part || $kind == stream || $kind == stored || $kind == record ]]; then
        compopt -o filenames 2>/dev/null
    fi
    # Of a word with colons the shell replaces what stands behind the last one.
    if [[ ${words[place]} == *:* && $COMP_WORDBREAKS == *:* ]]; then
        front=${words[place]%"${words[place]##*:}"}
        COMPREPLY=("${COMPREPLY[@]#"$front"}")
    fi
}

complete -F _sip sip
