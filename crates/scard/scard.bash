# Completion of the words of scard for bash.

# Sets what the words before the one under way say: place, which that one has among the words that are no option and no
# option's value, command, the first of these, and what, the second.
_scard_before() {
    local at before value=
    place=1 command='' what=
    for ((at = 1; at < COMP_CWORD; at++)); do
        before=${COMP_WORDS[at]}
        case $before in
        = | -- | --explain | --notes | --json | --svg | --rules | --help | --version | --*=*) ;;
        --*) value=comes ;;
        *)
            if [ "$value" ]; then
                value=
                continue
            fi
            [ $place != 1 ] || command=$before
            [ $place != 2 ] || what=$before
            place=$((place + 1))
            ;;
        esac
    done
}

# Sets words to those that can come at the place, where no option's value does.
_scard_words() {
    case $command in
    check) words='--stdin --ifs --number --json --explain --help' ;;
    show) words='--stdin --ifs --number --notes --json --explain --help' ;;
    build) words='--json --explain --help' ;;
    replay) words='--end --json --explain --help' ;;
    migrate) words='--json --explain --help' ;;
    apdus) words='--json --explain --help' ;;
    draw) words='--svg --json --explain --help' ;;
    record) words='--json --explain --help' ;;
    judge) words='--end --clock --rules --json --explain --help' ;;
    simulate) words='--stdin --ifsd --lose --damage --spoil --json --explain --help' ;;
    esac
    [ "$command $what" != 'build tidy' ] || words="$words --stdin"
    case $place:$command in
    1:*) words='check show build replay migrate apdus draw record judge simulate help --explain --version --help' ;;
    2:check | 2:show) words="$words atr block chain command response tlv dol" ;;
    2:build) words="$words chain tidy fill" ;;
    2:help) words='check show build replay migrate apdus draw record judge simulate' ;;
    esac
}

# An option with its value, as --end=card, is three words in COMP_WORDS, or one where no word breaks at equals signs.
_scard() {
    local word=${COMP_WORDS[COMP_CWORD]} option=${COMP_WORDS[COMP_CWORD - 1]} front='' place command what words=
    case $word in
    =) word= ;;
    --*=*) option=${word%%=*} front=${word%%=*}= word=${word#*=} ;;
    *) [ "$option" != = ] || option=${COMP_WORDS[COMP_CWORD - 2]} ;;
    esac
    _scard_before
    case $option in
    --stdin) words='hex octets dump source lines' ;;
    --end) words='terminal card both' ;;
    --number) words='0 1' ;;
    --ifs | --ifsd | --lose | --damage | --spoil | --clock) ;;
    *) _scard_words ;;
    esac
    case $option:$command:$what in
    --stdin:check:* | --stdin:show:*) ;;
    --stdin:simulate:*) words=lines ;;
    --end:judge:*) words=${words% both} ;;
    --stdin:build: | --stdin:build:tidy) words=${words% lines} ;;
    --stdin:*) words= ;;
    esac
    # shellcheck disable=SC2207 # no word that is given has a space
    COMPREPLY=($(compgen -P "$front" -W "$words" -- "$word"))
}
# Where none of these words fits, a file's name may.
complete -o bashdefault -o default -F _scard scard

# For other shells: run as a script, this file prints the words that can come in the place of its last argument.
if [ "${BASH_SOURCE[0]}" = "$0" ]; then
    COMP_WORDS=("$@") COMP_CWORD=$(($# - 1))
    _scard
    [ ${#COMPREPLY[@]} -eq 0 ] || printf '%s\n' "${COMPREPLY[@]}"
fi
