# shellcheck shell=sh disable=SC2154 # (who reads it sets `root`)
# What the program and the library for C are built from, what was released, and how builds keep out
# of each other's way. A script sets `root` to the repository's folder and reads this file.

newline='
'

# The toolchain's command rt: by tools/rt, which goes through the crates once, where that is there.
# shellcheck disable=SC2034 # (who reads it asks for this)
if [ -x "$root/tools/rt" ]; then rt=$root/tools/rt; else rt=rt; fi

# The released files for this machine: those for aarch64 stand in a folder of their own.
machine=$(uname -sm)
case $machine in 'Linux aarch64') ours=$root/release/aarch64 ;; *) ours=$root/release ;; esac

# Tells why nothing can be run, and ends with the launcher's own status.
fail() {
    echo "pmb: $*" >&2
    exit 125
}

# The lines of crates.txt that name the program, or another crate, and what it stands on, as
# `NAME: USES ..`, without comments and without the word that says that a library is static.
#   crates [CRATE]
crates() {
    awk -v top="${1:-pmb}" '
        function want(name, words, count, i) {
            if (!(name in line) || name in wanted) return
            wanted[name]
            count = split(uses[name], words, " ")
            for (i = 1; i <= count; i++) want(words[i])
        }
        { sub(/#.*/, ""); gsub(/[ \t\r,]+/, " "); sub(/^ /, ""); sub(/ ?:? ?$/, "") }
        $0 != "" {
            if (!/:/) $0 = $0 ":"
            sub(/ ?: ?/, ": "); sub(/ staticlib:/, ":")
            name = $0; sub(/[ :].*/, "", name)
            names[++last] = name; line[name] = $0
            uses[name] = $0; sub(/^[^:]*:/, "", uses[name])
        }
        END {
            want(top)
            for (i = 1; i <= last; i++) if (names[i] in wanted) print line[names[i]]
        }
    ' "$root/crates.txt"
}

# Whether a text is a SHA-256 digest.
is_digest() {
    case $1 in *[!0-9a-f]*) return 1 ;; esac
    [ ${#1} = 64 ]
}

# Finds the command that writes digests as `DIGEST  NAME`.
find_sum() {
    if command -v sha256sum >/dev/null; then
        sum=sha256sum
    elif command -v shasum >/dev/null; then
        sum='shasum -a 256'
    else
        fail "neither sha256sum nor shasum is on the PATH, and without one nobody knows whether" \
            "the released program is that of these sources ($ours/pmb runs without this)"
    fi
}

# One digest over those lines and over each file that a check of those crates reads: sources,
# definitions and proofs. It fails, with a sentence, where it can't read all of them.
#   digest [CRATE]
digest() (
    CDPATH='' cd "$root/" || exit 125
    find_sum
    counted=$(crates "${1:-pmb}") || counted=''
    [ -n "$counted" ] || fail "$root/crates.txt can't be read, or has no crate ${1:-pmb}"
    set --
    IFS=$newline
    for line in $counted; do
        name=${line%%[ :]*}
        for folder in "crates/$name/src" "crates/$name/specs" "crates/$name/proofs"; do
            [ ! -d "$folder" ] || set -- "$@" "$folder"
        done
    done
    unset IFS
    [ $# -gt 0 ] || fail "there are no sources in $root/crates"
    # A pipe has the status of its last command alone: the others tell through 3 that all went well.
    found=$(
        {
            {
                printf '%s\n' "$counted" && {
                    # shellcheck disable=SC2086 # (the command's words)
                    find -L "$@" -type f \( -name '*.rt' -o -name '*.antt' \) -exec $sum {} + &&
                        echo read >&3
                } | LC_ALL=C sort && echo sorted >&3
            } | $sum
        } 3>&1
    )
    case $found in
        "read${newline}sorted$newline"*) found=${found##*"$newline"} found=${found%% *} ;;
        *) found='' ;;
    esac
    is_digest "$found" ||
        fail "the sources can't be compared with those of the released program: not all of them" \
            "can be read, or memory is short ($ours/pmb runs without this)"
    echo "$found"
)

# A look takes longer than all else in a start, so the last one is kept in the folder release/out/look,
# in two halves that are compared at once. Each has a file of paths, with a NUL after each, and one of
# notes. The notes begin with what the look found: the digest of the sources, when it began, whether
# the released program starts (yes or no), and the machine. A line for each path follows, by what the
# system notes of it: when it changed last, which no program can set, when it was written, its number,
# which no copy shares, and its size.
#
# A look counts while the notes of both halves are the same, to the letter. So there is a new look after
# an edit, after a file came, went or was replaced, and in each copy of the folder, whatever made it,
# also where times and sizes are as before. A folder changes when something comes or goes in it, so no
# folder is read. Where `stat` can't note all that (BusyBox), each look is a new one.
look=$root/release/out/look

# Finds the digest of the sources (`sources`) and the one that sources.sha256 beside the released
# files has (`released`). Where these are the same, the released files are those of SHA256SUMS there,
# and `starts` is `yes` where a kept look found that the program starts. Then keep_look follows.
#   take_look FILE.. (what else counts, such as the loader)
take_look() {
    new='' sources='' released=''
    { read -r released <"$ours/sources.sha256"; } 2>/dev/null
    is_digest "$released" ||
        fail "$ours/sources.sha256 is cut off or can't be read: bring it back" \
            "(git checkout release)"
    if recall_look 2>/dev/null; then return; fi
    starts=no
    # (what a look lists is older than the digest that it finds)
    {
        mkdir -p "$root/release/out" && new=$(mktemp -d "$look.XXXXXX") &&
            begun=$(LC_ALL=C stat -c %.9Z "$new") && list_halves "$@" &&
            note "$new/first" >"$new/first.listed" && note "$new/second" >"$new/second.listed"
    } 2>/dev/null
    listed=$?
    sources=$(digest) || look_failed
    [ "$sources" != "$released" ] || check_released
}

# Whether the kept look counts. If so, it has found `sources` and `starts`.
recall_look() {
    read -r sources begun starts noted <"$look/first.notes" && is_digest "$sources" &&
        [ "$noted" = "$machine" ] || return
    same_notes second &
    same_notes first
    first=$?
    wait $! && [ $first = 0 ]
}

# Whether the notes of a half are those of the kept look. (Another start may put a new look in the place
# of this one meanwhile: its notes begin with another line.)
same_notes() {
    { echo "$sources $begun $starts $machine" && note "$look/$1"; } | cmp -s - "$look/$1.notes"
}

# Writes the notes of the paths in a file.
note() (
    CDPATH='' cd "$root/" && LC_ALL=C xargs -0 stat -L -c '%.9Z %.9Y %i %s' <"$1"
)

# Lists what counts, in halves of about the same size: each second crate is in the same one.
#   list_halves FILE..
list_halves() (
    counted=$(crates) && CDPATH='' cd "$root/" || exit
    IFS=$newline
    files=${ours#"$root/"}
    set -- ./crates.txt release/sources.sh "$files/sources.sha256" "$files/SHA256SUMS" \
        "$files/pmb" "$files/libpmb.a" "$files/libpmb.so" "$@"
    first="$*" second=''
    for line in $counted; do
        folder=crates/${line%%[ :]*} other=$second
        second=$first$newline$folder/src$newline$folder/specs$newline$folder/proofs
        first=$other
    done
    # shellcheck disable=SC2086 # (a path a line)
    list_paths $first >"$new/first" && list_paths $second >"$new/second"
)

# Lists files, and folders with the folders and sources in them. What is missing would come in the folder
# above it, which stands for it.
list_paths() {
    for path in "$@"; do
        shift
        if [ -d "$path" ]; then
            set -- "$@" "$path"
        elif [ -e "$path" ] || [ -h "$path" ]; then
            printf '%s\0' "$path"
        else
            printf '%s\0' "${path%/*}"
        fi
    done
    # (-xtype: what a link names can become a folder)
    find -L "$@" \( -type d -o -name '*.rt' -o -name '*.antt' -o -xtype l \) -print0
}

# Keeps a look that found the sources of a program that is there, so that no digest that went wrong
# is kept.
keep_look() {
    [ -n "$new" ] || return 0
    {
        [ "$listed" = 0 ] && { [ "$sources" = "$released" ] || [ -s "$(built "$sources")" ]; } &&
            keep_notes first && keep_notes second && mkdir -p "$look" &&
            mv -f "$new/first" "$new/first.notes" "$new/second" "$new/second.notes" "$look" &&
            rm -rf "$look".*
    } 2>/dev/null
    drop_look
}

# Writes the notes of a half. A change since the look began shows in the next notes, but for one in the
# same tick of the clock as another before it. Where a file or folder changed as late as that, the look
# is not kept. (A tick has 10 ms at most. A file system may leave out digits, or all of the seconds but
# the even ones.)
keep_notes() {
    awk -v begun="$begun" -v found="$sources $begun $starts $machine" '
        BEGIN { print found }
        !/^[0-9]+\.[0-9]+ / || $1 + ($1 ~ /0000000$/ ? 2 : 0.02) >= begun + 0 { exit failed = 1 }
        { print }
        END { exit failed }
    ' "$new/$1.listed" >"$new/$1.notes"
}

# Removes what a look leaves that isn't kept.
drop_look() {
    [ -z "$new" ] || rm -rf "$new" 2>/dev/null
}

# Ends where a look failed, which has said why.
look_failed() {
    drop_look
    exit 125
}

# Fails where a released file is not the one of SHA256SUMS.
check_released() {
    find_sum
    sums=$(cat "$ours/SHA256SUMS" 2>/dev/null)
    found=$(CDPATH='' cd "$ours/" && $sum pmb libpmb.a libpmb.so 2>/dev/null)
    if [ -n "$found" ] && [ "$found" = "$sums" ]; then return; fi
    # One is missing, which is no fault, or is another file.
    for file in pmb libpmb.a libpmb.so; do
        [ -e "$ours/$file" ] || continue
        line=$(CDPATH='' cd "$ours/" && $sum "$file")
        case $newline$sums$newline in
            *"$newline${line:-none}$newline"*) continue ;;
        esac
        drop_look
        fail "$ours/$file is not the file that SHA256SUMS there lists: one of the two is" \
            "cut off or replaced. Bring them back (git checkout release)"
    done
}

# Keeps other builds of this clone out until the script ends, and waits while one is under way
# (`waited`). Where there is flock, the system ends the lock with the script that has it. Elsewhere
# the lock is a file with the number of that script's process, and counts while that lives.
lock() {
    lock=$root/release/out/lock waited='' own_lock=''
    { mkdir -p "$root/release/out" && true >>"$lock"; } 2>/dev/null ||
        fail "the folder $root/release/out can't be written"
    if command -v flock >/dev/null; then
        exec 9>>"$lock"
        while :; do
            flock -n 9 2>/dev/null
            case $? in
                0) return ;;
                1) wait_for_lock ;;
                *) break ;;
            esac
        done
    fi
    own_lock=$lock.$$
    echo $$ >"$own_lock" || fail "the folder $root/release/out can't be written"
    lock=$lock.process
    trap unlock EXIT
    until ln "$own_lock" "$lock" 2>/dev/null; do
        holder=$(cat "$lock" 2>/dev/null)
        if [ -n "$holder" ] && ! kill -0 "$holder" 2>/dev/null && [ ! -e "/proc/$holder" ]; then
            # Two that wait may both see this: what is moved away can be the lock of the other.
            mv "$lock" "$own_lock.stale" 2>/dev/null || continue
            [ "$(cat "$own_lock.stale")" = "$holder" ] || mv "$own_lock.stale" "$lock"
            rm -f "$own_lock.stale"
        else
            [ -e "$lock" ] || [ -n "$waited" ] || fail "$lock can't be made"
            wait_for_lock "$holder"
        fi
    done
}

# Waits a second, and says so the first time.
wait_for_lock() {
    [ -n "$waited" ] || echo "pmb: waiting for another build here${1:+ (process $1)}" >&2
    waited=yes
    sleep 1
}

# Ends a lock that the system doesn't end.
unlock() {
    if [ -n "$own_lock" ]; then
        [ "$(cat "$lock" 2>/dev/null)" != $$ ] || rm -f "$lock"
        rm -f "$own_lock"
    fi
}

# Puts the first twelve digits of the digest of the program's sources into its object, in the place of
# the zeros in the text of `pmb --version`. There is one such place.
#   stamp OBJECT
stamp() {
    zeros=000000000000
    digits=$(digest) && digits=${digits%"${digits#????????????}"} || return
    [ "$(LC_ALL=C grep -ao "sources $zeros" "$1" | wc -l)" -eq 1 ] || {
        echo "pmb: $1 does not say once where the digest of its sources goes" >&2
        return 1
    }
    LC_ALL=C sed "s/sources $zeros/sources $digits/" "$1" >"$1.stamped" && mv -f "$1.stamped" "$1"
}

# Where a program that was built here from the sources with the digest stands.
built() {
    echo "$root/release/out/$1/pmb"
}

# Keeps the program that stands in crates/pmb/out, linked for older C libraries too, as the one that
# was built from the sources with the digest: whole, or not at all. Those of other sources go.
keep() {
    new=$root/release/out/new.$$
    mkdir -p "$root/release/out/$1" && sh "$root/release/link" "$new" && chmod 755 "$new" &&
        mv -f "$new" "$(built "$1")" || return
    for other in "$root"/release/out/*/; do
        other=${other%/}
        [ "${other##*/}" = "$1" ] || ! is_digest "${other##*/}" || rm -rf "$other"
    done
}

# (the last line: without it this file is cut off)
# shellcheck disable=SC2034 # (who reads it asks for this)
whole=yes
