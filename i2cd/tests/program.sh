# program.sh: what pmb-i2cd says to its words, and how it treats its socket, its log and its command. It is
# a part of .ci/i2cd, whose functions and variables it has.
# shellcheck shell=sh disable=SC2154

# ---- its words

socket=$temporary/socket
ends 0 '^usage: pmb-i2cd PROFILE' "$i2cd" --help
ends 2 'no PROFILE' "$i2cd"
ends 2 'one of --socket, --cuse and --run is needed' "$i2cd" "$sample"
ends 2 'more than one PROFILE' "$i2cd" "$sample" "$sample" --socket "$socket"
ends 2 'a COMMAND without --run' "$i2cd" "$sample" --socket "$socket" -- true
ends 2 'NAME is' "$i2cd" "$sample" --cuse ../i2c-0
ends 2 'PATH is empty' "$i2cd" "$sample" --socket ''
ends 2 '^usage: ' "$i2cd" "$sample" --rum
ends 2 '^pmb-i2cd: .*--rum' "$i2cd" "$sample" --rum
ends 125 '^usage: ' "$i2cd" "$sample" --rum --run -- true
ends 3 'null: File exists' "$i2cd" "$sample" --cuse null
ends 125 'no COMMAND' "$i2cd" "$sample" --run --
ends 3 'none.toml: No such file' "$i2cd" "$temporary/none.toml" --socket "$socket"
ends 3 "$temporary: Is a directory" "$i2cd" "$temporary" --socket "$socket"
ends 3 'none/socket: No such file' "$i2cd" "$sample" --socket "$temporary/none/socket"
ends 3 'none/log: No such file' "$i2cd" "$sample" --socket "$socket" --log "$temporary/none/log"
ends 3 'File name too long' "$i2cd" "$sample" --socket "$temporary/$(printf '%0120d' 0)"
[ -e /dev/cuse ] || ends 3 '/dev/cuse: No such file' "$i2cd" "$sample" --cuse i2c-0
printf '[[device]]\naddress = 0xb0\npec = "on"\n' >"$temporary/bad.toml"
"$program" profile <"$temporary/bad.toml" 2>&1 | sed 's/^pmb: /pmb-i2cd: /' >"$temporary/right"
grep -q '^pmb-i2cd: profile: BadAddress' "$temporary/right"
check $? 'pmb profile tells a wrong profile in other words, so that this tries nothing'
"$i2cd" "$temporary/bad.toml" --socket "$socket" 2>"$said"
[ $? = 2 ] && cmp -s "$said" "$temporary/right"
check $? 'a wrong profile is not told as pmb profile tells it'
ends 125 'BadAddress in device 0' "$i2cd" "$temporary/bad.toml" --run -- true
head -c 1048577 /dev/zero | tr '\0' '#' >"$temporary/long.toml"
ends 2 'long.toml: profile too long' "$i2cd" "$temporary/long.toml" --socket "$socket"

# ---- its socket

echo kept >"$temporary/file"
ends 3 'Address already in use' "$i2cd" "$sample" --socket "$temporary/file"
[ "$(cat "$temporary/file")" = kept ]
check $? 'a file that is no socket is replaced'
# (under nohup HUP is ignored, which what it starts inherits)
for signal in TERM INT HUP; do
    start "$socket" env --default-signal=HUP "$i2cd" "$sample"
    end $signal
done
start "$socket" "$i2cd" "$sample"
[ -n "$(find "$socket" -perm 600)" ]
check $? 'others than the user may use the socket'
ends 3 'Address already in use' "$i2cd" "$sample" --socket "$socket"
kill -s KILL "$server"
wait "$server" 2>/dev/null
[ -S "$socket" ]
check $? 'a server that is killed leaves no socket, so that this tries nothing'
start "$socket" "$i2cd" "$sample"
cp "$temporary/server_said" "$said"
kill -s KILL "$server"
wait "$server" 2>/dev/null
# (of several that would replace the socket that was left, one does)
for number in 1 2 3 4 5 6 7 8; do
    (
        # shellcheck disable=SC2016
        sh -c 'echo $$ >"$0" && exec "$@"' "$temporary/process.$number" \
            "$plain" "$sample" --socket "$socket" 2>/dev/null
        echo $? >"$temporary/status.$number"
    ) &
done
tries=0
while [ "$(cat "$temporary"/status.* 2>/dev/null | wc -l)" -lt 7 ] && [ $tries -lt 200 ]; do
    sleep 0.05
    tries=$((tries + 1))
done
sleep 0.2
[ "$(cat "$temporary"/status.* | tr '\n' ' ')" = '3 3 3 3 3 3 3 ' ]
check $? 'several servers have one socket, or none'
for number in 1 2 3 4 5 6 7 8; do
    [ -e "$temporary/status.$number" ] || kill "$(cat "$temporary/process.$number")"
done
wait
server=''

# ---- its log

# (a log that nobody reads any further stops the bus, and not the end of the server)
mkfifo "$temporary/pipe"
# shellcheck disable=SC2217 # (it holds the pipe, and reads nothing)
sleep 100 <"$temporary/pipe" &
reader=$!
start "$socket" "$i2cd" "$sample" --log "$temporary/pipe"
LD_PRELOAD=$temporary/plain/libpmb-i2cdev.so PMB_I2C_SOCKET=$socket timeout 2 \
    "$temporary/random_calls" /dev/i2c-0 100000 1 >/dev/null 2>&1
[ $? = 124 ]
check $? 'a pipe never holds up the bus, so that this tries nothing'
end TERM
kill "$reader"
wait "$reader" 2>/dev/null

# ---- its command

export TMPDIR="$temporary/run"
mkdir "$TMPDIR"
ends 7 '' "$i2cd" "$sample" --run -- sh -c 'exit 7'
# shellcheck disable=SC2016
ends 143 '' "$i2cd" "$sample" --run -- sh -c 'kill -s TERM $$'
ends 127 'none-such: No such file' "$i2cd" "$sample" --run -- none-such
ends 126 'Permission denied' "$i2cd" "$sample" --run -- "$sample"
ends 125 'none: No such file' env TMPDIR="$temporary/none" "$i2cd" "$sample" --run -- true
# shellcheck disable=SC2016
ends 0 "^$TMPDIR/.*/socket $temporary/plain/libpmb-i2cdev.so:libm.so.6\$" \
    env LD_PRELOAD=libm.so.6 "$plain" "$sample" --run -- sh -c 'echo "$PMB_I2C_SOCKET $LD_PRELOAD"'
# shellcheck disable=SC2016
ends 0 "^$temporary/socket $temporary/plain/libpmb-i2cdev.so\$" sh -c 'cd "$1" && shift && "$@"' sh \
    "$temporary" plain/pmb-i2cd sample.toml --socket socket --run -- \
    sh -c 'echo "$PMB_I2C_SOCKET $LD_PRELOAD"'
# (the command could not use a socket whose whole path is too long, though it has a short name here)
mkdir "$temporary/$(printf '%0100d' 0)"
# shellcheck disable=SC2016
ends 125 'File name too long' sh -c 'cd "$1" && shift && "$@"' sh "$temporary/$(printf '%0100d' 0)" \
    "$i2cd" "$sample" --socket socket --run -- true
(
    trap '' INT HUP # (as nohup and a job in the background have it)
    grep -E '^Sig(Blk|Ign)' /proc/self/status >"$temporary/right"
    "$i2cd" "$sample" --run -- grep -E '^Sig(Blk|Ign)' /proc/self/status 2>&1 |
        diff "$temporary/right" - >"$said"
)
check $? 'a command has other signals blocked or ignored'
"$i2cd" "$sample" --run -- sh -c 'trap "exit 9" TERM; echo; for i in 1 2 3 4 5 6 7 8 9; do sleep 1; done' \
    >"$temporary/began" 2>"$said" &
server=$!
tries=0
while [ ! -s "$temporary/began" ] && [ $tries -lt 200 ]; do
    sleep 0.05
    tries=$((tries + 1))
done
kill -s TERM "$server"
wait "$server"
[ $? = 9 ]
check $? 'a signal is not handed on to the command'
server=

# ---- what is left of a server that is killed

# Starts a server whose command has written its process to $temporary/process.
start_command() {
    rm -f "$temporary/process"
    # shellcheck disable=SC2016
    "$i2cd" "$sample" --run -- sh -c 'echo $$ >"$0.new" && mv "$0.new" "$0" && exec sleep 100' \
        "$temporary/process" 2>"$temporary/server_said" &
    server=$!
    tries=0
    while [ ! -s "$temporary/process" ] && [ $tries -lt 200 ]; do
        sleep 0.05
        tries=$((tries + 1))
    done
}

mkdir "$TMPDIR/pmb-i2cd.mine" "$TMPDIR/pmb-i2cd.new"
echo mine >"$TMPDIR/pmb-i2cd.mine/file"
start_command
kill -s KILL "$server"
wait "$server" 2>/dev/null
tries=0
while kill -0 "$(cat "$temporary/process")" 2>/dev/null && [ $tries -lt 200 ]; do
    sleep 0.05
    tries=$((tries + 1))
done
! kill -0 "$(cat "$temporary/process")" 2>/dev/null
check $? 'a command goes on without its bus'
left=$(cd "$TMPDIR" && find . -name socket)
[ -n "$left" ]
check $? 'a server that is killed leaves no directory, so that this tries nothing'
start_command
[ ! -e "$TMPDIR/$left" ] && [ ! -d "$TMPDIR/${left%/socket}" ]
check $? 'a server leaves the directory of one that was killed'
# (what is in use, is not its own or may be new stays)
ends 0 '' "$i2cd" "$sample" --run -- true
[ "$(cd "$TMPDIR" && find . -name socket | wc -l)" = 1 ] && [ -e "$TMPDIR/pmb-i2cd.mine/file" ] &&
    [ -d "$TMPDIR/pmb-i2cd.new" ]
check $? 'a server removes a directory that is in use, is another one, or is new'
kill -s TERM "$server"
wait "$server"
server=
touch -d '2 minutes ago' "$TMPDIR/pmb-i2cd.new"
ends 0 '' "$i2cd" "$sample" --run -- true
[ "$(ls "$TMPDIR")" = pmb-i2cd.mine ]
check $? 'a server leaves an old directory without a socket'
rm -r "$TMPDIR/pmb-i2cd.mine"

# ---- where it finds the shim, and what install.sh does

mkdir -p "$temporary/alone" "$temporary/a blank" "$temporary/clone/release" "$temporary/clone/i2cd/out"
cp "$plain" "$temporary/alone"
cp "$temporary/plain/libpmb-i2cdev.so" "$temporary/a blank"
ends 125 'libpmb-i2cdev.so: No such file' "$temporary/alone/pmb-i2cd" "$sample" --run -- true
ends 125 'none.so: No such file' "$i2cd" "$sample" --shim none.so --run -- true
# (the loader would pass it over in silence, and the command would reach what buses there are)
ends 125 'LD_PRELOAD takes no path with a blank' "$i2cd" "$sample" \
    --shim "$temporary/a blank/libpmb-i2cdev.so" --run -- true
# shellcheck disable=SC2016
ends 0 "^$temporary/plain/libpmb-i2cdev.so\$" sh -c 'cd "$1" && shift && "$@"' sh "$temporary" \
    "$i2cd" "$sample" --shim plain/libpmb-i2cdev.so --run -- sh -c 'echo "$LD_PRELOAD"'
mkdir "$temporary/clone/examples"
cp -R install.sh include man completions "$temporary/clone" &&
    cp -R examples/profiles "$temporary/clone/examples" &&
    cp -R release/pmb release/libpmb.* release/SHA256SUMS release/abi release/templates \
        "$temporary/clone/release" &&
    cp i2cd/pmb-i2cd.1 "$temporary/clone/i2cd" &&
    cp "$temporary/plain/pmb-i2cd" "$temporary/plain/libpmb-i2cdev.so" "$temporary/clone/i2cd/out"
for libraries in lib lib64 lib/x86_64-linux-gnu; do
    put=$temporary/put/$libraries
    ends 0 "^$put/bin/pmb-i2cd\$" "$temporary/clone/install.sh" PREFIX="$put" LIBDIR="$put/$libraries"
    # shellcheck disable=SC2016
    ends 0 "^$put/$libraries/libpmb-i2cdev.so\$" "$put/bin/pmb-i2cd" "$sample" --run -- \
        sh -c 'echo "$LD_PRELOAD"'
    rm -r "$temporary/clone/i2cd/out"
    ends 0 'libpmb-i2cdev.so is removed' "$temporary/clone/install.sh" --uninstall PREFIX="$put" \
        LIBDIR="$put/$libraries"
    [ ! -e "$put/bin/pmb-i2cd" ]
    check $? 'install.sh --uninstall leaves pmb-i2cd'
    ends 0 '/bin/pmb$' "$temporary/clone/install.sh" PREFIX="$put" LIBDIR="$put/$libraries"
    [ ! -e "$put/bin/pmb-i2cd" ]
    check $? 'install.sh installs a pmb-i2cd that is not built'
    mkdir "$temporary/clone/i2cd/out"
    cp "$temporary/plain/pmb-i2cd" "$temporary/plain/libpmb-i2cdev.so" "$temporary/clone/i2cd/out"
done
[ -z "$(ls "$TMPDIR")" ]
check $? '--run leaves the directory of its socket'
