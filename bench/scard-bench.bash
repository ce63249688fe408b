# Completion of the words of scard-bench for bash.

# Sets what the words before the one under way say: command, the first that is no option and no option's value, and
# place, which the word under way has among these.
_scard_bench_before() {
    local at before value=
    place=1 command=
    for ((at = 1; at < COMP_CWORD; at++)); do
        before=${COMP_WORDS[at]}
        case $before in
        = | --times | --plain | --atr | --list | --topics | --help | --*=*) ;;
        --)
            place=rest
            return
            ;;
        --*) value=comes ;;
        *)
            if [ "$value" ]; then
                value=
                continue
            fi
            [ $place != 1 ] || command=$before
            place=$((place + 1))
            ;;
        esac
    done
}

# Sets words to those that can come at the place, where no option's value does.
_scard_bench_words() {
    local capture='--session --reader --times --plain --rate --terminal --card --pause --waiting'
    local files='--junit --json --html'
    local port='--serial --baud --clock --tolerance'
    case $place:$command in
    rest:*) ;;
    1:*) words='import report suite --scard --help' ;;
    *:import) words="$capture --atr --help" ;;
    *:report) words="$capture --answer $files --help" ;;
    *:suite) words="--role --profile --declare --device --limit --only --list --topics $port $files --help" ;;
    esac
    case $place:$command in
    2:import | 2:report) words="$words ccid-log usbmon uart-csv apdu-log" ;;
    esac
}

# An option with its value, as --role=card, is three words in COMP_WORDS, or one where no word breaks at equals signs.
_scard_bench() {
    local word=${COMP_WORDS[COMP_CWORD]} option=${COMP_WORDS[COMP_CWORD - 1]} front='' place command words=
    case $word in
    =) word= ;;
    --*=*) option=${word%%=*} front=${word%%=*}= word=${word#*=} ;;
    *) [ "$option" != = ] || option=${COMP_WORDS[COMP_CWORD - 2]} ;;
    esac
    _scard_bench_before
    case $place:$option in
    rest:*) ;;
    *:--role) words='card terminal' ;;
    *:--profile) words='iso emv' ;;
    *:--baud) words='9600 19200 38400 57600 115200' ;;
    *:--serial | *:--clock | *:--tolerance | *:--device) ;;
    *:--scard | *:--declare | *:--limit | *:--only | *:--junit | *:--json | *:--html | *:--session | *:--reader) ;;
    *:--rate | *:--terminal | *:--card | *:--pause | *:--waiting | *:--answer) ;;
    *) _scard_bench_words ;;
    esac
    # shellcheck disable=SC2207 # no word that is given has a space
    COMPREPLY=($(compgen -P "$front" -W "$words" -- "$word"))
}
# Where none of these words fits, a file's name may.
complete -o bashdefault -o default -F _scard_bench scard-bench

# For other shells: run as a script, this file prints the words that can come in the place of its last argument.
if [ "${BASH_SOURCE[0]}" = "$0" ]; then
    COMP_WORDS=("$@") COMP_CWORD=$(($# - 1))
    _scard_bench
    [ ${#COMPREPLY[@]} -eq 0 ] || printf '%s\n' "${COMPREPLY[@]}"
fi
