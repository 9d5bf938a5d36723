#!/bin/sh
# Installs what stands in release/, and says what it puts where: the program pmb with the profiles of
# real parts, and what bash, zsh and fish need to complete its words; the library for C with its header,
# the manual's pages, and what pkg-config and CMake need to find the library. It needs no make, no
# compiler and no toolchain. Where i2cd/build has made them, it also installs
# pmb-i2cd and libpmb-i2cdev.so, the simulated bus as /dev/i2c-N (docs/i2cd.md).
#
#   ./install.sh                  into /usr/local
#   ./install.sh --firmware       the same, and the libraries for microcontrollers
#   ./install.sh --uninstall      removes from there all that it would install, and the folders that
#                                 are empty then, but for those that a system has anyway
#
# Variables, in the environment or as words, such as `./install.sh PREFIX=/opt/pmb`:
#
#   PREFIX        /usr/local
#   BINDIR        PREFIX/bin
#   LIBDIR        PREFIX/lib
#   INCLUDEDIR    PREFIX/include
#   DATADIR       PREFIX/share
#   MANDIR        DATADIR/man
#   DESTDIR       nothing: a folder in front of all of these, for who makes a package
#   PROCESSOR     that of this machine: x86_64 or aarch64
#
# The status is 0, or 1 where something can't be installed, or 2 for a word that it doesn't know.

here=$(pwd)
root=$(CDPATH='' cd -P -- "$(dirname "$0")" && pwd) || exit 1

# Tells why nothing is installed.
fail() {
    echo "install.sh: $*" >&2
    exit 1
}

# Ends where a word makes no sense.
usage() {
    echo "install.sh: $1" >&2
    sed -n '/^#   [.A-Z]/s/^#   //p' "$root/install.sh" >&2
    exit 2
}

# ---- what is asked for

# Takes the words of the command line.
parse() {
    task=put firmware=''
    for word; do
        case $word in
            --uninstall) task=remove firmware=yes ;;
            --firmware) firmware=yes ;;
            --help | -h) sed -n '2,/^$/s/^# \{0,1\}//p' "$root/install.sh" && exit ;;
            PREFIX=*) PREFIX=${word#*=} ;;
            BINDIR=*) BINDIR=${word#*=} ;;
            LIBDIR=*) LIBDIR=${word#*=} ;;
            INCLUDEDIR=*) INCLUDEDIR=${word#*=} ;;
            DATADIR=*) DATADIR=${word#*=} ;;
            MANDIR=*) MANDIR=${word#*=} ;;
            DESTDIR=*) DESTDIR=${word#*=} ;;
            PROCESSOR=*) PROCESSOR=${word#*=} ;;
            *) usage "it knows no word $word" ;;
        esac
    done
}

# Finds the folders. One that is installed into is told to other programs, so it is a whole path; that
# in front of it may be one from the folder in which this is called.
find_folders() {
    PREFIX=${PREFIX:-/usr/local}
    # (a `/` at its end, and a prefix that is `/`)
    while [ "${PREFIX%/}" != "$PREFIX" ]; do PREFIX=${PREFIX%/}; done
    BINDIR=${BINDIR:-$PREFIX/bin}
    LIBDIR=${LIBDIR:-$PREFIX/lib}
    INCLUDEDIR=${INCLUDEDIR:-$PREFIX/include}
    DATADIR=${DATADIR:-$PREFIX/share}
    MANDIR=${MANDIR:-$DATADIR/man}
    for folder in "$PREFIX/" "$BINDIR" "$LIBDIR" "$INCLUDEDIR" "$DATADIR" "$MANDIR"; do
        case $folder in
            *"$newline"* | *[\"\'\`\\\$\#\;\|\@]*)
                fail "pkg-config and CMake read a mark in this name as one of their own: ${folder%/}"
                ;;
            /*) ;;
            *)
                fail "a folder to install into is a whole path, such as /usr/local, and not" \
                    "${folder%/}"
                ;;
        esac
    done
    case ${DESTDIR:=} in
        '' | /*) ;;
        *) DESTDIR=$here/$DESTDIR ;;
    esac
}

# ---- what there is

# Finds the released files for the processor, and fails where there are none.
find_released() {
    machine=${PROCESSOR:+Linux }${PROCESSOR:-$(uname -sm)}
    case $machine in
        'Linux x86_64') released=release processors='x86_64|amd64|AMD64' ;;
        'Linux aarch64') released=release/aarch64 processors='aarch64|arm64|ARM64' ;;
        *)
            fail "the released program and library are for Linux on x86-64 and on aarch64, and this" \
                "is $machine"
            ;;
    esac
}

# Fails where a released file is not the one that was committed.
check_sums() {
    if command -v sha256sum >/dev/null; then
        sum=sha256sum
    elif command -v shasum >/dev/null; then
        sum='shasum -a 256'
    else
        fail 'neither sha256sum nor shasum is on the PATH, so the released files are not checked'
    fi
    sums=$(cat $released/SHA256SUMS) || exit 1
    found=$(cd $released && $sum pmb libpmb.a libpmb.so) || exit 1
    [ "$found" = "$sums" ] ||
        fail "a file in $root/$released is not the one that SHA256SUMS there lists: it is cut off or" \
            "replaced. Bring it back (git checkout release), or make all anew ($released/make)"
    [ -n "$firmware" ] || return 0
    sums=$(sed 1d release/firmware.sha256) && found=$(cd release && $sum libpmb_firmware-*.a) ||
        exit 1
    [ "$found" = "$sums" ] ||
        fail "a library for microcontrollers in $root/release is not the one of firmware.sha256 there:" \
            'bring it back (git checkout release), or make all anew (release/firmware)'
}

# Finds the version, which is the header's, and the names of the shared library: the one that linked
# programs look for, and the file's, which has the version too.
find_version() {
    number=$(sed -n 's/^#define PMB_VERSION \(0x[0-9a-fA-F]*\)u$/\1/p' include/pmb.h)
    [ -n "$number" ] || fail 'include/pmb.h has no PMB_VERSION'
    version=$((number >> 16)).$((number >> 8 & 255)).$((number & 255))
    soname=$(sh release/abi/nodes --soname) || fail 'release/abi/nodes has no name for the library'
    shared=$soname.$version
}

# ---- what is made

# A text as the right side of a sed command.
quoted() {
    printf '%s\n' "$1" | sed 's/[\\&|]/\\&/g'
}

# A folder as pmb.pc names it, where a blank has a mark in front.
in_pc() {
    printf '%s\n' "$1" | sed 's/ /\\ /g'
}

# The same, from the prefix where it lies under it.
in_prefix() {
    case $1 in
        "$PREFIX"/*) in_pc "\${prefix}${1#"$PREFIX"}" ;;
        *) in_pc "$1" ;;
    esac
}

# The header's folder, from that of the libraries where both lie under the prefix, so that the whole
# may be moved.
headers() {
    case $LIBDIR:$INCLUDEDIR in
        "$PREFIX"/*:"$PREFIX"/*)
            printf '%s\n' "${LIBDIR#"$PREFIX"}" | sed 's|/[^/][^/]*|../|g' | tr -d '\n'
            printf '%s\n' "${INCLUDEDIR#"$PREFIX"/}"
            ;;
        *) printf '%s\n' "$INCLUDEDIR" ;;
    esac
}

# Makes a file of its template.
fill() {
    sed -e "s|@VERSION@|$version|g" -e "s|@SONAME@|$soname|g" -e "s|@SHARED@|$shared|g" \
        -e "s|@PREFIX@|$(quoted "$(in_pc "$PREFIX")")|g" \
        -e "s|@LIBDIR@|$(quoted "$(in_prefix "$LIBDIR")")|g" \
        -e "s|@INCLUDEDIR@|$(quoted "$(in_prefix "$INCLUDEDIR")")|g" \
        -e "s|@HEADERS@|$(quoted "$(headers)")|g" \
        -e "s|@PROCESSORS@|$(quoted "$processors")|g" -e "s|@MACHINE@|$machine|g" \
        "release/templates/$1.in" >"$made/$1"
}

# ---- what goes where

# Calls a function for each installed file: with its mode, what it is a copy of, and its place; or
# with `link`, what it names, and its place.
each_file() {
    "$1" 755 "$released/pmb" "$BINDIR/pmb" &&
        "$1" 644 include/pmb.h "$INCLUDEDIR/pmb.h" &&
        "$1" 644 "$released/libpmb.a" "$LIBDIR/libpmb.a" &&
        "$1" 755 "$released/libpmb.so" "$LIBDIR/$shared" &&
        "$1" link "$shared" "$LIBDIR/$soname" &&
        "$1" link "$soname" "$LIBDIR/libpmb.so" &&
        "$1" 644 "$made/pmb.pc" "$LIBDIR/pkgconfig/pmb.pc" &&
        "$1" 644 "$made/pmb-config.cmake" "$LIBDIR/cmake/pmb/pmb-config.cmake" &&
        "$1" 644 "$made/pmb-config-version.cmake" "$LIBDIR/cmake/pmb/pmb-config-version.cmake" ||
        return
    for page in man/*.[13]; do
        "$1" 644 "$page" "$MANDIR/man${page##*.}/${page##*/}" || return
    done
    for profile in examples/profiles/*.toml; do
        "$1" 644 "$profile" "$DATADIR/pmb/profiles/${profile##*/}" || return
    done
    each_completion "$1" pmb || return
    for library in ${firmware:+release/libpmb_firmware-*.a}; do
        "$1" 644 "$library" "$LIBDIR/${library##*/}" || return
    done
    # (what is removed may have been made by another clone)
    if [ "$1" = remove ] || { [ -e i2cd/out/pmb-i2cd ] && [ -e i2cd/out/libpmb-i2cdev.so ]; }; then
        "$1" 755 i2cd/out/pmb-i2cd "$BINDIR/pmb-i2cd" &&
            "$1" 755 i2cd/out/libpmb-i2cdev.so "$LIBDIR/libpmb-i2cdev.so" &&
            "$1" 644 i2cd/pmb-i2cd.1 "$MANDIR/man1/pmb-i2cd.1" &&
            each_completion "$1" pmb-i2cd
    fi
}

# The same for what completes a program's words, where each shell looks for it.
each_completion() {
    "$1" 644 "completions/$2.bash" "$DATADIR/bash-completion/completions/$2" &&
        "$1" 644 "completions/_$2" "$DATADIR/zsh/site-functions/_$2" &&
        "$1" 644 "completions/$2.fish" "$DATADIR/fish/vendor_completions.d/$2.fish"
}

# Puts a file there. It is whole from the first moment, also where one of that name is in use.
put() {
    place=$DESTDIR$3
    mkdir -p "${place%/*}" || return
    if [ "$1" = link ]; then
        ln -s "$2" "$place.new$$" && mv -f "$place.new$$" "$place" && echo "$place -> $2"
    else
        cp "$2" "$place.new$$" && chmod "$1" "$place.new$$" && mv -f "$place.new$$" "$place" &&
            echo "$place"
    fi || { rm -f "$place.new$$" && false; }
}

# Removes a file, if it is there.
remove() {
    place=$DESTDIR$3
    [ -e "$place" ] || [ -h "$place" ] || return 0
    rm -f "$place" && echo "$place is removed"
}

# Removes the shared library of other versions, which no link names any more. (A program that has one
# open keeps it.)
remove_others() {
    for other in "$DESTDIR$LIBDIR/$soname".[0-9]*; do
        [ "$other" = "$DESTDIR$LIBDIR/$shared" ] || remove 644 none "${other#"$DESTDIR"}"
    done
}

# Whether a folder is one that the system has anyway.
is_of_system() {
    case $DESTDIR$PREFIX in
        '' | /usr | /usr/local) ;;
        *) return 1 ;;
    esac
    case ${1#"$PREFIX"} in
        '' | /bin | /include | /lib | /lib64 | /share | /share/man) ;;
        *) return 1 ;;
    esac
}

# Removes a folder if it is empty, and then those in which it lies, up to the prefix, and below DESTDIR
# up to that.
remove_empty() {
    folder=$1
    while [ -n "$folder" ] && ! is_of_system "$folder"; do
        [ ! -d "$DESTDIR$folder" ] || rmdir "$DESTDIR$folder" 2>/dev/null || return 0
        case $folder in
            "$PREFIX"/*) ;;
            *) [ -n "$DESTDIR" ] || return 0 ;;
        esac
        folder=${folder%/*}
    done
}

# Removes the folders that have nothing any more.
remove_folders() {
    for own in "$LIBDIR/cmake/pmb" "$LIBDIR/pkgconfig" "$MANDIR/man1" "$MANDIR/man3" "$INCLUDEDIR" \
        "$BINDIR" "$DATADIR/pmb/profiles" "$DATADIR/bash-completion/completions" \
        "$DATADIR/zsh/site-functions" "$DATADIR/fish/vendor_completions.d"; do
        remove_empty "$own"
    done
}

# Lets the loader see what came or went, or says what to do. The folders are those where it looks by
# itself; a package's own scripts do this for what stands below DESTDIR.
tell_loader() {
    [ -z "$DESTDIR" ] || return 0
    case $LIBDIR in
        /lib | /lib64 | /usr/lib | /usr/lib64 | /usr/local/lib | /usr/local/lib64 | \
            /lib/*-linux-gnu | /usr/lib/*-linux-gnu | /usr/local/lib/*-linux-gnu)
            if [ "$(id -u)" != 0 ]; then
                echo "install.sh: with glibc, call ldconfig as root, so that the loader looks anew"
            elif command -v ldconfig >/dev/null; then
                ldconfig
            fi
            ;;
        *)
            [ "$task" = remove ] ||
                echo "install.sh: the loader doesn't look in $LIBDIR by itself: link programs with" \
                    "-Wl,-rpath,$LIBDIR, or set LD_LIBRARY_PATH=$LIBDIR"
            ;;
    esac
}

newline='
'
umask 022
parse "$@"
find_folders
cd "$root" || exit 1
find_version
made='' released=release
if [ "$task" = put ]; then
    find_released
    check_sums
    made=$(mktemp -d) || exit 1
    trap 'rm -rf "$made"' EXIT
    trap 'exit 1' HUP INT TERM
    for file in pmb.pc pmb-config.cmake pmb-config-version.cmake; do
        fill "$file" || fail "$file can't be made of release/templates/$file.in"
    done
fi
each_file "$task" || fail 'not all is done: see above'
remove_others
[ "$task" = put ] || remove_folders
tell_loader
