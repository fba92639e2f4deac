# What the scripts here measure by: bash functions, each script reads them.

# The microseconds that the words take, the median of 3 or of TIMES; before each time the commands $1 are run.
median() {
    local before=$1 times=${TIMES:-3} start
    shift
    for _ in $(seq "$times"); do
        eval "$before"
        start=$(date +%s%N)
        "$@" >/dev/null
        echo $((($(date +%s%N) - start) / 1000))
    done | sort -n | sed -n "$(((times + 1) / 2))p"
}

# Microseconds as milliseconds.
millis() { awk -v a="$1" 'BEGIN { printf "%.1f", a / 1000 }'; }
ratio() { awk -v a="$1" -v b="$2" 'BEGIN { printf "%.2f", a / b }'; }

# Whether the ratio of $1 and $2 is at most $3.
goal() { awk -v a="$1" -v b="$2" -v most="$3" 'BEGIN { printf "the goal, at most %s, is %s", most, a <= most * b ? "met" : "MISSED" }'; }
