# Finds the program: read by the scripts rc and install, with $top set to the repository's folder.
#
# The release in release/ is taken where it was made of these very sources, is undamaged and runs here.
# Else it is out/rc, which tools/build makes. Each has a file of facts beside it, release/SOURCES and
# out/built, which tells by checksums which sources it was made of, and which program it is:
#     sources sha256 HEX          as tools/sources prints it
#     toolchain TEXT              as rt version prints it
#     program sha256 HEX
# What was found is kept in out/program, and holds until a file that it rests on changes.

fail() {
    echo "rc: $1" >&2
    exit 125
}

# Prints what the file of facts $1 says of $2.
fact() {
    sed -n "s/^$2 sha256 //p" "$1"
}

# Prints the checksum of the file $1.
sum_of() {
    sum=$(sha256sum <"$1") && echo "${sum%% *}"
}

# Prints why the release can't be used here, or nothing where it can.
reason_to_build() {
    release=$top/release/rc-x86_64-linux
    facts=$top/release/SOURCES
    if [ ! -f "$release" ] || [ ! -f "$facts" ]; then
        echo "there is no release here"
    elif [ "$machine" != "Linux x86_64" ]; then
        echo "the release is for Linux x86_64, and this machine is $machine"
    elif [ "$(fact "$facts" sources)" != "$sources" ]; then
        echo "the release was made of other sources than these"
    elif [ "$(fact "$facts" program)" != "$(sum_of "$release")" ]; then
        echo "the release is damaged, as its checksum shows"
    elif [ ! -x "$release" ]; then
        echo "release/rc-x86_64-linux may not be executed (chmod +x allows it)"
    elif ! said=$("$release" run "$top/crates/rc/data/hello.c" 2>&1 </dev/null); then
        # (its first line is the loader's, where the C library is too old)
        echo "the release does not run here ($(printf '%s\n' "$said" | head -n 1))"
    fi
}

# Whether out/rc was built of these sources, and is whole.
is_built() {
    [ -x "$top/out/rc" ] && [ -f "$top/out/built" ] &&
        [ "$(fact "$top/out/built" sources)" = "$sources" ] &&
        [ "$(fact "$top/out/built" program)" = "$(sum_of "$top/out/rc")" ]
}

# Whether what out/program names may be used: made on such a machine, and of files that have all stayed
# the same since. A file's change time tells, which no tool sets back; a find without it takes the other.
is_remembered() {
    [ -r "$memo" ] && { read -r made_on && read -r found; } <"$memo" || return 1
    [ "$made_on" = "$machine" ] && [ -x "$top/$found" ] || return 1
    changed=$(changed_since -cnewer 2>/dev/null) || changed=$(changed_since -newer 2>&1)
    [ -z "$changed" ]
}

# Prints a file, or a folder that lost or got one, which is newer than out/program by find's test $1.
changed_since() {
    newer=$1
    set -- "$top/crates.txt" "$top/crates" "$top/tools"
    [ ! -d "$top/release" ] || set -- "$@" "$top/release"
    [ "$found" != out/rc ] || set -- "$@" "$top/out/rc" "$top/out/built"
    find "$@" \( -name out -o -name data -o -name must-fail -o -name wrong \) -prune -o "$newer" "$memo" -print -quit
}

# Notes when a look at the files begins, and sums up the sources.
begin() {
    began=0
    { mkdir -p "$top/out" && true >"$memo.new.$$" && began=$(stat -c %Y "$memo.new.$$"); } 2>/dev/null || :
    sources=$("$top/tools/sources") || {
        rm -f "$memo.new.$$"
        exit 125
    }
}

# Keeps what was found. The file's time is two seconds before the look began, so that what changed since
# is newer also where times are whole seconds. Where the folder can't be written, each run looks anew.
remember() {
    printf '%s\n' "$machine" "$found" >"$memo.new.$$" && touch -d "@$((began - 2))" "$memo.new.$$" &&
        mv -f "$memo.new.$$" "$memo"
    rm -f "$memo.new.$$" || :
} 2>/dev/null

find_program() {
    memo=$top/out/program
    machine=$(uname -sm)
    if ! is_remembered; then
        begin
        why=$(reason_to_build)
        if [ -z "$why" ]; then
            found=release/rc-x86_64-linux
        else
            found=out/rc
            is_built || build "$why"
        fi
        remember
    fi
    program=$top/$found
}

# Builds out/rc for the reason $1, and looks at the files again, as they may have changed since.
build() {
    rm -f "$memo.new.$$"
    command -v python3 >/dev/null ||
        fail "$1, and building it from source needs Python 3, which isn't installed here"
    "$top/tools/build" --because "$1" </dev/null >&2 || exit 125
    begin
    is_built || fail "the sources changed while the program was built: run this again"
}
