# To be sourced, with root set: runs of ./archwend, and verdicts on what they gave, counted.
passed=0 failed=0

verdict() { # NAME TRUTH..
    local name=$1
    shift
    if "$@"; then passed=$((passed + 1)); else
        failed=$((failed + 1))
        echo "FAILED: $name"
        head -n 20 out err | sed 's/^/    /'
    fi
}

# built COMMAND ARGUMENTS..: a wrong use of a command, which builds what the command needs; that is said on standard error, and so
# is done before the runs
built() {
    "$root/archwend" "$@" >out 2>err || [ $? -eq 2 ] || {
        cat err >&2
        exit 3
    }
}

# run COMMAND ARGUMENTS..: leaves its exit status in status, and what it writes in out and err
run() {
    status=0
    "$root/archwend" "$@" >out 2>err || status=$?
}

# what the last run gave: exit status, standard output, standard error
gave() { # STATUS OUT ERR
    [ "$status" = "$1" ] && [ "$(cat out)" = "$2" ] && [ "$(cat err)" = "$3" ]
}

# the last line; exit status 0: none failed
counted() {
    echo "$passed passed, $failed failed"
    [ "$failed" -eq 0 ]
}
