# device.sh: the calls and the clients over /dev/cuse, in user-mode-linux. It is a part of .ci/i2cd, whose
# functions and variables it has.
# shellcheck shell=sh disable=SC2154

# (the address sanitizer can't run there; memcheck can)
uml=$temporary/uml
# shellcheck disable=SC2016
printf '#!/bin/sh\nexec python3 i2cd/tests/uml.py "%s" "$@"\n' "$temporary/cuse" >"$uml"
chmod +x "$uml"
cuse=$temporary/cuse/pmb-i2cd
sample=$temporary/cuse/sample.toml

# (before all else: whether a program can be started there)
"$uml" true >"$said" 2>&1
if [ $? = 77 ]; then
    : >"$said"
    missing 'a processor on which user-mode-linux starts programs' 'the device'
    return
fi
: >"$said"
part 'calls over CUSE' "$uml" "$cuse" "$sample" --cuse i2c-3 --run -- "$temporary/cuse/calls" /dev/i2c-3
"$uml" "$cuse" "$sample" --log "$temporary/cuse/random.log" --cuse i2c-3 --run -- \
    "$temporary/cuse/random_calls" /dev/i2c-3 3000 1 >"$temporary/random_over_cuse" 2>"$said"
cmp "$temporary/random" "$temporary/random_over_cuse" >>"$said" 2>&1 &&
    cmp "$temporary/random.log" "$temporary/cuse/random.log" >>"$said" 2>&1
check $? 'random calls print something else over CUSE, or put something else on the wire'
part 'clients over CUSE' "$uml" python3 i2cd/tests/clients.py "$cuse" "$program" --cuse
if has valgrind 'the device, by memcheck'; then
    cp "$plain" "$temporary/cuse/plain"
    part 'calls over CUSE, by memcheck' "$uml" valgrind -q --error-exitcode=9 "$temporary/cuse/plain" \
        "$sample" --cuse i2c-3 --run -- "$temporary/cuse/calls" /dev/i2c-3
fi
if has go 'a program of Go'; then
    CGO_ENABLED=0 GOFLAGS=-mod=mod GOCACHE=$temporary/go go build -o "$temporary/cuse/read" \
        i2cd/tests/read.go >"$said" 2>&1
    check $? 'i2cd/tests/read.go cannot be built'
    ends 0 '^2 0 00 d3$' "$uml" "$cuse" "$sample" --cuse i2c-3 --run -- "$temporary/cuse/read" /dev/i2c-3
fi
