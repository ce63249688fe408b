# Sourced by ./test: runs the parts of a test, keeps what each of them prints, and reports at the end.
#
# A part that counts ends with the line 'N passed, M failed', and with status 0 only if M is 0. Any other part is one
# check, which passes if its status is 0. A line of a part that has the words 'left out' says which test was left out,
# and why.

# parts_begin FOLDER: begins the counts, and keeps what parts print in a folder of its own
parts_begin() {
    passed=0
    failed=0
    part=0
    parts=$1/parts
    mkdir -p "$parts" && : >"$parts/left" && : >"$parts/lost"
}

# next_part: sets `said` to the file for what the next part prints
next_part() {
    part=$((part + 1))
    said=$parts/$part
}

# shown COMMAND..: runs a command, shows and keeps what it prints, and returns its status
shown() {
    next_part
    { "$@" 2>&1; echo $? >"$said.status"; } | tee "$said"
    return "$(cat "$said.status")"
}

# lost NAME WHY: counts a failure, and keeps the last lines of the part for the report
lost() {
    failed=$((failed + 1))
    failing "$1" "$2"
}

# failing NAME WHY: keeps the last lines of the part for the report
failing() {
    {
        printf "%s\n" "---- $1 $2"
        tools/gate/last-lines "$said"
    } >>"$parts/lost"
}

# look_for_left_out: keeps the lines of the part that say what it left out
look_for_left_out() {
    grep -a 'left out' "$said" >>"$parts/left"
}

# judged STATUS NAME: counts a part with this status as one check
judged() {
    look_for_left_out
    if [ "$1" -eq 0 ]; then
        passed=$((passed + 1))
    else
        lost "$2" "ended with status $1"
    fi
}

# counted STATUS NAME: adds the counts of a part's last line. A part without that line stopped early, and failed.
counted() {
    look_for_left_out
    last=$(tail -n 1 "$said")
    if ! printf '%s\n' "$last" | grep -aEqx '[0-9]+ passed, [0-9]+ failed'; then
        lost "$2" "stopped before its counts, with status $1"
        return
    fi
    passed=$((passed + ${last%% *}))
    last=${last#*, }
    last=${last%% *}
    if [ "$last" -ne 0 ]; then
        failed=$((failed + last))
        failing "$2" "has $last failed"
    elif [ "$1" -ne 0 ]; then
        lost "$2" "ended with status $1"
    fi
}

# one COMMAND..: runs a part that is one check, and returns its status
one() {
    shown "$@"
    status=$?
    judged $status "$*"
    return $status
}

# many COMMAND..: runs a part that counts, and returns 0 if nothing failed in it
many() {
    before=$failed
    shown "$@"
    counted $? "$*"
    [ "$failed" -eq "$before" ]
}

# beside FILE COMMAND..: runs a part into a file, while others run; `joined` shows it
beside() {
    file=$1
    shift
    "$@" >"$file" 2>&1
    echo $? >"$file.status"
}

# joined FILE NAME [LINES]: shows what a part beside the others printed, or its last lines, and adds its counts
joined() {
    said=$1
    if [ "$3" ]; then tail -n "$3" "$said"; else cat "$said"; fi
    counted "$(cat "$said.status" 2>/dev/null || echo 1)" "$2"
}

# left_out WHAT WHY: says that a test is left out
left_out() {
    printf "%s\n" "test: $1: left out: $2" | tee -a "$parts/left"
}

# report [LINE]: prints what was left out, the last lines of what failed, a line if there is one, and the counts.
# Returns 0 if nothing failed.
report() {
    if [ -s "$parts/left" ]; then
        echo "==== left out"
        sort -u "$parts/left"
    fi
    if [ -s "$parts/lost" ]; then
        echo "==== failed, each with its last lines"
        cat "$parts/lost"
    fi
    [ -z "$1" ] || echo "$1"
    echo "$passed passed, $failed failed"
    [ "$failed" -eq 0 ]
}
