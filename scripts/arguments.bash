# For the scripts beside it, each of which reads this file first: `--help` prints the comment at the head of the script, with status
# 0; wrong arguments end a script with one line on standard error and status 2.

refuse() {
    echo "${0##*/}: $1; ${0##*/} --help tells more" >&2
    exit 2
}

# need_at_most COUNT ARGUMENTS..
need_at_most() {
    [ "$(($# - 1))" -le "$1" ] || refuse "$(($# - 1)) arguments, and not at most $1"
}

# need_number TEXT LEAST MOST: decimal digits
need_number() {
    [[ $1 =~ ^[0-9]{1,10}$ ]] && ((10#$1 >= $2 && 10#$1 <= $3)) || refuse "${1@Q} is no number from $2 to $3"
}

if [ "${1-}" = --help ]; then
    sed -n '2,/^[^#]/s/^# \{0,1\}//p' "$0"
    exit 0
fi
