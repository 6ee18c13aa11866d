# shellcheck shell=sh disable=SC2154
# What the scripts of bin/ share, which source it: they run only what a completed check of the present sources made, and make
# it first where it is not kept. A script sets `program`, its name, and `self`, where it stands, and sources this; then
#   runs TOOL "$@"   runs a kept tool in its place
#   answers "$@"     runs a kept program on two lines and a sheet file, and ends; such a script also sets `lines`, what its two
#                    lines are, and has
#     help           prints how it is used
#     meaning N FIRST SECOND   says what fault N means
#     why N FIRST SECOND SHEETFILE   prints `refused N: ` and where, as far as the kept tools can tell
#     judge TEXT     sets `status` for an answer, given without its last line feed; fails where it is none
# All that is made stands in target/tools, with two records: of what rt proved and built from crates.txt and crates/ (the
# programs and the library), and of what cargo built from the library and bindings/rust (the tools). So a change of the bindings
# makes nobody prove again.
# POSIX sh on Linux, with its readlink -f, head -c, find -writable, mktemp, sha256sum, flock and setsid.

# shellcheck source=bin/progress.sh
. "${self%/*}/progress.sh"

programs="claim uptime" library=libcapi.a tools="sheet claims"
feed='
'

say() {
    printf '%s: %s\n' "$program" "$1" >&2
}

# Says what only helps: the script goes on where nobody can read it.
mention() {
    (say "$1") || :
}

trouble() {
    say "$1"
    exit 2
}

# Whether a word is a number, without needless zeros.
is_number() {
    case $1 in '' | *[!0-9]* | 0?*) return 1 ;; esac
}

# A word of the user's as it is told: quoted, without control characters, cut where it is long.
quoted() {
    told=$({ printf %s "$1" | head -c 61 | LC_ALL=C tr -c ' -~' '?'; } 2>/dev/null)
    case ${#told} in 61) printf '"%s"..' "${told%?}" ;; *) printf '"%s"' "$told" ;; esac
}

# What the faults of a sheet mean.
meaning_of_sheet() {
    case $1 in
    14) echo "the file is no sheet: its mark or version is wrong or cut short; bin/sheet make makes a sheet of a text" ;;
    15) echo "the sheet's count is missing or over 32, or the sheet is cut short or too long" ;;
    16) echo "a name in the sheet is malformed or repeated" ;;
    17) echo "a signal in the sheet breaks the rules of lists" ;;
    *) echo "a fault with this number" ;;
    esac
}

# Ends what is under way, with every process of its group, and removes what is temporary.
checking='' watcher='' temporary=''
clean() {
    if [ -n "$checking" ] && [ -n "${!-}" ]; then
        kill -s KILL -- "-$!" 2>/dev/null || kill -s KILL "$!" 2>/dev/null
        wait "$!" 2>/dev/null
    fi
    unwatch
    [ -z "$temporary" ] || rm -rf -- "$temporary" 2>/dev/null || { sleep 1 && rm -rf -- "$temporary"; }
    temporary=''
}

interrupted() { # SIGNAL
    trap '' HUP INT QUIT PIPE TERM
    clean
    trap - EXIT "$1"
    kill -s "$1" $$
}

# A folder for what is temporary, once.
make_room() {
    [ -z "$temporary" ] || return 0
    if ! temporary=$(mktemp -d 2>/dev/null) || ! temporary=$(CDPATH='' cd -- "$temporary" && pwd); then
        temporary=''
        trouble "no temporary folder can be made in ${TMPDIR:-/tmp}"
    fi
}

# The digest of files and folders of the repository: the names and contents of all their files, but of those that rt and cargo make.
digest() { # NAME..
    files=$(cd "$root" && find -L "$@" -path bindings/rust/target -prune -o -path 'crates/*/out' ! -path 'crates/*/*/out' -prune -o \
        -type f -exec sha256sum {} + 2>/dev/null) || return 1
    printf '%s\n' "$files" | LC_ALL=C sort | sha256sum | cut -d ' ' -f 1
}

# Whether a record is of these sources, and what is kept under these names is what it says was made.
recorded() { # RECORD SOURCES NAME..
    record=$(cat -- "$keep/$1" 2>/dev/null)$feed
    case $record in "$2$feed"*) ;; *) return 1 ;; esac
    shift 2
    for made; do
        line=$(cd "$keep" && [ -r "$made" ] && sha256sum "$made") || return 1
        case $record in *"$feed$line$feed"*) ;; *) return 1 ;; esac
    done
}

# Keeps what was made, and records of what it was made; a record that is cut short, or whose files are, is none.
record() { # RECORD SOURCES FILE..
    kept=$keep/$1 of=$2
    shift 2
    rm -f -- "$kept"
    for made; do
        rm -f -- "$keep/${made##*/}"
        cp -- "$made" "$keep/" 2>/dev/null || trouble "it is made, but $made cannot be copied to $keep"
        set -- "$@" "${made##*/}"
        shift
    done
    (cd "$keep" && printf '%s\n' "$of" && sha256sum "$@") >"$kept"
}

# Ends where this machine lacks what making the tools needs, or what telling what is kept does: all of it is named.
need() { # COMMAND..
    lacking=$(missing "$@" cc cargo flock setsid find sha256sum sort cut mktemp awk date sleep)
    [ -n "$lacking" ] || return 0
    mention "the tools are to be made first, and this machine lacks what that needs:"
    printf '%s\n' "$lacking" | while read -r line; do say "$line"; done
    exit 2
}

# Whether these are kept as a completed check of the present sources made them: the record also has the name of the toolchain
# (taken as it is where there is no toolchain).
proved_kept() { # NAME..
    for needed in find sha256sum sort cut; do
        command -v "$needed" >/dev/null || need rt
    done
    sources=$(digest crates.txt crates) || trouble "the sources in $root cannot be read"
    by=$(rt version 2>/dev/null) || read -r _ by 2>/dev/null <"$keep/proved" || :
    recorded proved "$sources $by" "$@"
}

# Whether these are kept as cargo made them of the kept library and the present bindings.
tools_kept() { # NAME..
    bound=$(digest "target/tools/$library" bindings/rust) && recorded bound "$bound" "$@"
}

all_kept() {
    # shellcheck disable=SC2086
    proved_kept $programs $library && tools_kept $tools
}

# What is missing on this machine, each with what it is for.
missing() { # COMMAND..
    case $(uname -sm 2>/dev/null) in "Linux x86_64") ;; *) echo "this is $(uname -sm): the programs and the library are for x86-64 Linux" ;; esac
    for needed; do
        command -v "$needed" >/dev/null && continue
        case $needed in
        rt) what="of the Rattle kit, which proves and builds the programs and the library" ;;
        cargo) what="of Rust, which builds the tools $tools" ;;
        cc) what="the C compiler, which links the tools" ;;
        *) what="of Linux" ;;
        esac
        echo "the command $needed is not there ($what)"
    done
}

# Runs a command in a folder of the repository with a log of what it says, and ends where it fails. It has a group of processes of
# its own.
step() { # WHAT FOLDER COMMAND..
    what=$1 at=$2
    shift 2
    checking=yes
    (cd "$root/$at" && TMPDIR=$temporary exec setsid "$@") </dev/null >>"$temporary/log" 2>&1 &
    wait "$!"
    status=$?
    checking=''
    [ "$status" -ne 0 ] || return 0
    unwatch
    tail -n 20 "$temporary/log" >&2
    trouble "$what ended with status $status"
}

# Proves and builds a program, runs it on its stored input, and ends where it prints something else than what is stored.
ran() { # NAME
    input=stdin
    [ -f "$root/crates/$1/stdin" ] || input=/dev/null
    # shellcheck disable=SC2016
    step "the program $1 could not be built: rt run" "crates/$1" sh -c 'exec rt run <"$1" >"$2"' sh "$input" "$temporary/printed"
    stored=$root/crates/$1/stdout
    [ ! -f "$stored" ] || [ "$(sha256sum <"$stored")" = "$(sha256sum <"$temporary/printed")" ] ||
        trouble "the program $1 is built, and does not print what crates/$1/stdout has"
}

# Proves and builds the programs and the library. Without what is removed here, rt builds it anew: what stands there afterwards is of
# this check. The libraries that they stand on rt would prove along with them, where these are new or changed; those that seem to be it
# proves before, one after the other, so that it can be told how far it is.
prove() {
    for name in $programs; do
        rm -f -- "$root/crates/$name/out/$name" "$root/crates/$name/out/$name.stamp"
    done
    rm -f -- "$root/crates/capi/out/$library"
    # shellcheck disable=SC2086
    libraries=$(below $programs capi)
    # shellcheck disable=SC2086
    watch $libraries $programs capi
    for name in $libraries; do
        ! is_due "$name" || clocked "$name" step "the library $name could not be proved: rt lib" "crates/$name" rt lib
    done
    for name in $programs; do
        clocked "$name" ran "$name"
    done
    clocked capi step "the library could not be built: rt lib" crates/capi rt lib
    [ "$(digest crates.txt crates)" = "$sources" ] || trouble "the sources changed while they were being checked: try again"
    set --
    for name in $programs; do
        set -- "$@" "$root/crates/$name/out/$name"
    done
    record proved "$sources $by" "$@" "$root/crates/capi/out/$library"
}

# Builds the tools over the kept library.
bind() {
    [ -n "$watcher" ] || watch
    # What stands there afterwards is of this build, wherever cargo is told to put it: in a folder of its target's name, too.
    cargo=$root/target/cargo
    for name in $tools; do
        rm -f -- "$cargo/release/$name" "$cargo"/*/release/"$name"
    done
    clocked cargo step "the tools could not be built: cargo build" . \
        env -u CARGO_BUILD_TARGET RASCRUNEL_LIB="$keep" CARGO_TARGET_DIR="$cargo" \
        cargo build --manifest-path bindings/rust/Cargo.toml --bins --release --offline --locked --quiet
    [ "$(digest "target/tools/$library" bindings/rust)" = "$bound" ] || trouble "bindings/rust changed while it was being built: try again"
    set --
    for name in $tools; do
        for made in "$cargo/release/$name" "$cargo"/*/release/"$name"; do
            [ ! -f "$made" ] || set -- "$@" "$made"
        done
    done
    # shellcheck disable=SC2086
    [ $# -eq "$(set -- $tools && echo $#)" ] || trouble "cargo ended well, and has not made each of the tools once in $cargo"
    record bound "$bound" "$@"
}

# A crate's folder, or its out/, that cannot be written, if there is one: rt builds there.
unwritable() {
    find "$root/crates" -mindepth 1 -maxdepth 2 -type d \( ! -path "$root/crates/*/*" -o -name out \) ! -writable -print -quit 2>&1
}

# Makes whatever is not kept. One use, of any script, does so at a time.
make_all() {
    needed=''
    # shellcheck disable=SC2086
    proved_kept $programs $library || needed=rt
    # shellcheck disable=SC2086
    need $needed
    if ! mkdir -p -- "$keep" 2>/dev/null || [ -n "$(find "$root/target/" ! -writable -print -quit 2>&1)" ]; then
        trouble "the tools are to be made first, and $root/target cannot be written"
    fi
    [ -z "$needed" ] || [ -z "$(unwritable)" ] || trouble "the tools are to be made first, and $(unwritable) cannot be written"
    exec 9>"$root/target/proving"
    if ! flock -n 9; then
        mention "another use is making the tools: waiting for it"
        until flock -w 1 9; do :; done
    fi
    if ! all_kept; then
        # Temporary files of rt and cargo go there too.
        make_room
        : >"$temporary/log"
        # shellcheck disable=SC2086
        proved_kept $programs $library || prove
        # shellcheck disable=SC2086
        tools_kept $tools || bind
        unwatch
        (keep_times) || :
    fi
    exec 9>&-
}

# Runs a kept tool in the place of the script, with its arguments, streams and status.
runs() { # TOOL ARGUMENT..
    { proved_kept "$library" && tools_kept "$1"; } || make_all
    clean
    tool=$keep/$1
    shift
    exec "$tool" "$@"
}

# The answer of the program on two lines and a sheet file, and the script's end.
answers() { # FIRST SECOND SHEETFILE
    (: 3>&1) 2>/dev/null || trouble "standard output is closed"
    if [ $# -eq 1 ] && { [ "$1" = --help ] || [ "$1" = -h ]; }; then
        help 2>/dev/null || trouble "the help cannot be written to standard output"
        exit 0
    fi
    if [ $# -ne 3 ]; then
        help >&2
        exit 2
    fi
    case $1$2 in *"$feed"*) trouble "$lines are one line each" ;; esac
    named=$(printf %s "$3" | LC_ALL=C tr '[:cntrl:]' '?')
    [ -e "$3" ] || trouble "$named: no such file"
    [ -f "$3" ] || trouble "$named: not a file"
    [ -r "$3" ] || trouble "$named: cannot be read"
    proved_kept "$program" || make_all

    # The program reads 65,536 bytes: a line, its line feed, a line, its line feed, the sheet. No sheet has over 33,095. A line
    # of over 1,024 bytes is refused whatever else stands in it, so that its first 1,025 do.
    make_room
    umask 077
    if ! { line "$1" && line "$2" && head -c 65536 <"$3"; } 2>/dev/null >"$temporary/input"; then
        trouble "$named: could not be read, or not be copied to a temporary file"
    fi
    if [ "$(wc -c <"$temporary/input")" -gt 65536 ]; then
        say "$lines have over 65,536 bytes together with the sheet: the rest is dropped"
    fi

    # An answer is the whole lines of a program that ended well, and nothing else.
    answer=$("$keep/$program" <"$temporary/input" 2>/dev/null && echo .) || trouble "the program ended with status $?, without an answer"
    text=${answer%"$feed".}
    [ "$text" != "$answer" ] || trouble "the program gave no answer: its last line is missing or cut short"
    number=${text#refused }
    if [ "$text" = "refused $number" ] && is_number "$number"; then
        status=3
    else
        judge "$text" || trouble "the program gave no answer: it printed something else"
    fi
    trap '' PIPE
    printf '%s\n' "$text" 2>/dev/null || trouble "the answer cannot be written to standard output"
    [ "$status" -ne 3 ] || say "$text: $(words "$number" "$@")"
    exit "$status"
}

# A line of the program's input.
line() {
    printf %s "$1" | head -c 1025 && echo
}

# Why it is refused, in words: as the kept tools tell it where they tell of this fault, else what the fault means.
words() { # N FIRST SECOND SHEETFILE
    told=$(why "$@" 2>/dev/null)
    case $told in
    *"$feed"*) ;;
    "refused $1: "?*) printf '%s\n' "${told#"refused $1: "}" && return ;;
    esac
    plain=$(meaning "$@")
    { proved_kept "$library" && tools_kept claims; } 2>/dev/null || plain="$plain (bin/make makes the tool that says where)"
    printf '%s\n' "$plain"
}

# What the kept tool `claims` says of a claim.
claims_why() { # F G SHEETFILE
    case $3 in /*) sheet=$3 ;; *) sheet=./$3 ;; esac
    proved_kept "$library" && tools_kept claims && "$keep/claims" --why "$1" "$2" "$sheet" </dev/null
}

# What is said on a closed standard error is lost, and nothing else.
(: 3>&2) || exec 2>/dev/null
root=${self%/bin/*}
[ -f "$root/crates.txt" ] || trouble "$0 stands in no repository of the checker"
keep=$root/target/tools
trap clean EXIT
for signal in HUP INT QUIT PIPE TERM; do
    # shellcheck disable=SC2064
    trap "interrupted $signal" "$signal"
done
