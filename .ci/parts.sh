# shellcheck shell=sh disable=SC2154 # (`temporary` is set by who reads this)
# How the gate runs its parts, counts and ends. Who reads this sets `temporary` to an empty folder of
# its own, and may set `minutes`: so long the gate has by the clock.

minutes=${minutes:-150}
last=$(($(date +%s) + 60 * minutes))
: >"$temporary/counts"  # a line a part: PASSED FAILED SKIPPED
: >"$temporary/checks"  # a line a part: NAME CHECKS SKIPPED
: >"$temporary/missing" # what was not tried, and why

# Runs a command, and ends it, with all that it started, where the gate's time is up. What runs then is
# named in the last lines.
limited() {
    left=$((last - $(date +%s)))
    [ "$left" -gt 0 ] || left=1
    if command -v timeout >/dev/null; then timeout -k 60 "$left" "$@"; else "$@"; fi
    ended=$?
    [ "$(date +%s)" -lt "$last" ] || echo "$1" >"$temporary/late"
    return "$ended"
}

# Runs a part, and shows what it says; what it counts is added to `counts`, and to `checks` under its
# name. It fails where the part does. One that counts nothing has failed.
#   part NAME COMMAND..
part() {
    name=$1
    shift
    { limited "$@" 2>&1; echo $? >"$temporary/status"; } | tee "$temporary/said"
    status=$(cat "$temporary/status")
    [ ! -e "$temporary/late" ] || echo "$name" >"$temporary/late"
    # shellcheck disable=SC2016 # (awk's)
    counted=$(awk -v status="$status" '
        # (.ci/wrong has words of its own)
        /^self-test: [0-9]+ verdicts/ { passed = $2; failed = $(NF - 1) }
        /^wrong bodies: [0-9]+ refused by meaning/ {
            passed = $3 + $7; failed = $11 + $14
            for (i = 2; i < NF; i++) if ($i == "as" && $(i + 1) ~ /^recorded/) passed += $(i - 1)
        }
        match($0, /[0-9]+ passed, [0-9]+ failed(, [0-9]+ skipped)?/) {
            count = split(substr($0, RSTART, RLENGTH), words, " ")
            passed = words[1]; failed = words[3]; skipped = count > 4 ? words[5] : 0
        }
        END {
            if (passed + failed + skipped == 0 || status != 0 && failed == 0) failed++
            print passed + 0, failed + 0, skipped + 0
        }
    ' "$temporary/said")
    echo "$counted" >>"$temporary/counts"
    # (the parts of ./test, some of which .ci/long runs, have lines of their own)
    if [ "$name" = test ] || [ "$name" = long ]; then
        sed -n 's/^\([a-z][a-z_0-9]*\) *\([0-9]* passed, .*\)/\1 \2/p' "$temporary/said"
    else
        echo "$name ${counted% * *} passed, $(echo "$counted" | cut -d ' ' -f 2) failed, ${counted##* } skipped"
    fi | awk '{ gsub(/,/, ""); print $1, $2 + $4, $6 + 0 }' >>"$temporary/checks"
    sed -n -e 's/^not tried: //p' -e '/^[a-z_0-9]*: .*, so .* not tried/p' "$temporary/said" \
        >>"$temporary/missing"
    [ "$status" = 0 ]
}

# Counts what can't be tried here.
#   skip SENTENCE
skip() {
    echo "$1"
    echo "$1" >>"$temporary/missing"
    echo 0 0 1 >>"$temporary/counts"
}

# Sets `spent` to the processor seconds of all that ended so far. (In a pipe, or in $(..), `times`
# would tell those of another shell.)
look() {
    times >"$temporary/times"
    # shellcheck disable=SC2034 # (who reads this asks for it)
    spent=$(awk 'NR == 2 {
        for (i = 1; i <= 2; i++) { split($i, it, /[ms]/); sum += 60 * it[1] + it[2] }
        printf "%d", sum
    }' "$temporary/times")
}

# Tells the last lines: what was not tried, by what was missing, and the sum of all counts. It fails
# where something did. An argument is told first, and counts as a failure.
counted() {
    if [ -e "$temporary/late" ]; then
        set -- "$minutes minutes have gone by the clock, in $(cat "$temporary/late"): the gate ends here"
    fi
    if [ $# -gt 0 ]; then echo "$1" && echo 0 1 0 >>"$temporary/counts"; fi
    sort -u "$temporary/missing" | sed 's/^/not tried: /'
    awk '
        { passed += $1; failed += $2; skipped += $3 }
        END {
            printf "%d passed, %d failed", passed, failed
            print skipped ? sprintf(", %d skipped", skipped) : ""
            exit failed > 0
        }
    ' "$temporary/counts"
}
