# The check of words that the scripts for sh share: each reads this file first.

# no_option USAGE WORD..: ends with the usage and status 2 if a word begins with a dash
no_option() {
    usage=$1
    shift
    for word; do
        case $word in
        -*)
            echo "usage: $usage" >&2
            exit 2
            ;;
        esac
    done
}
