#!/bin/sh
# Makes all tools in a copy outside the repository, as bin/make does, and runs the tests of the bindings against them: in C, C++ and
# Rust, of the tools `sheet` and `claims`, of the scripts of bin/, and of README's commands.
#   bindings/build.sh          makes, tests, removes the copy
#   bindings/build.sh --into DIR   the same, and leaves libcapi.a and the tools `sheet` and `claims` in DIR
set -eu

root=$(CDPATH='' cd -- "$(dirname -- "$0")/.." && pwd)
into=
if [ "${1-}" = --into ] && [ $# -eq 2 ]; then
    mkdir -p -- "$2"
    into=$(CDPATH='' cd -- "$2" && pwd)
elif [ $# -ne 0 ]; then
    sed -n '2,5s/^# //p' "$0" >&2
    exit 2
fi

copy=$(mktemp -d)
programs=
trap 'if [ -n "$programs" ]; then kill "$programs" 2>/dev/null || true; wait "$programs" || true; fi; rm -rf -- "$copy"' EXIT
trap 'exit 1' HUP INT TERM
repository=$copy/repository
mkdir "$repository" "$copy/tmp"
# Without what rt built in the checkout: it takes by itself what its commands kept in checkouts of this machine, and the same text is not
# proved twice. (What rt ci alone has proved it proves again here.)
(cd "$root" && find crates -path 'crates/*/out' ! -path 'crates/*/*/out' -prune -o -type f -print) >"$copy/files"
(cd "$root" && tar -cf - -T "$copy/files" crates.txt bin bindings include examples README.md .gitignore) | tar -xf - -C "$repository"

fail() {
    echo "bindings: $1" >&2
    exit 1
}

# says FOUND WANTED WHAT
says() {
    [ "$1" = "$2" ] || fail "$3: $1, not $2"
}

# The scripts over stand-ins, beside the rest: they take one core.
"$root/bindings/test_programs" --quiet >"$copy/programs" 2>&1 &
programs=$!

echo "bindings: bin/make"
(cd "$repository" && git init -q && git add -A)
"$repository/bin/make"
tools=$repository/target/tools
RASCRUNEL_LIB=$tools
CARGO_TARGET_DIR=$copy/cargo
export RASCRUNEL_LIB CARGO_TARGET_DIR

echo "bindings: C"
# compiled NAME COMPILER..: also where every conversion is to be said
compiled() {
    name=$1
    shift
    "$@" -Wall -Wextra -Wconversion -Wshadow -Wpedantic -Werror -pthread -I "$root/include" -c -o "$copy/$name.o" "$root/bindings/c/$name.c"
    cc -pthread -o "$copy/$name" "$copy/$name.o" "$tools/libcapi.a"
}
compiled vectors cc -std=c11
"$copy/vectors"
if command -v c++ >/dev/null; then
    compiled vectors c++ -x c++ -std=c++11
    "$copy/vectors"
fi
for name in vectors embed stack; do
    compiled $name cc -std=c99
done
"$copy/vectors"
"$copy/embed" | cmp - "$root/bindings/c/embed.expected"
"$copy/stack"
# As the header says, the library has no variable (which nm tells by b, d or c) and calls nothing else but memcpy and memset.
if command -v nm >/dev/null; then
    says "$(nm "$tools/libcapi.a" | grep -c ' [bBdDC] ')" 0 "variables of libcapi.a"
    says "$(nm -u "$tools/libcapi.a" | sed -n 's/^ *U //p' | grep -vx 'memcpy\|memset\|sgl_[a-z_]*')" "" "what libcapi.a calls"
fi
# The header names the faults as the Rust bindings do.
sed -n 's/^    \([A-Z][A-Za-z]*\) = \([0-9]*\), ".*;$/\1 \2/p' "$root/bindings/rust/src/fault.rs" |
    sed 's/\([A-Z]\)/_\1/g' | tr '[:lower:]' '[:upper:]' | sed 's/^/SGL/' >"$copy/faults"
[ -s "$copy/faults" ] || fail "no fault is read in bindings/rust/src/fault.rs"
sed -n '/^enum sgl_fault {/,/^}/s/^    \(SGL_[A-Z_]*\) = \([0-9]*\),\{0,1\} .*/\1 \2/p' "$root/include/rascrunel.h" | grep -v '^SGL_OK 0$' |
    diff "$copy/faults" - >&2 || fail "the faults of include/rascrunel.h are not those of bindings/rust/src/fault.rs"

echo "bindings: Rust"
cd "$repository/bindings/rust"
cargo test --offline --quiet
cargo run --offline --quiet --example embed | cmp - "$root/bindings/c/embed.expected"
if cargo clippy --version >/dev/null 2>&1; then
    cargo clippy --offline --quiet --all-targets -- -D warnings
fi
if [ -f rustfmt.toml ] && cargo fmt --version >/dev/null 2>&1; then
    cargo fmt --check
fi
SHEET=$tools/sheet "$root/bindings/test_sheet" --quiet

echo "bindings: the same answers as plain Rust"
"$root/compare/run" --equal

echo "bindings: bin/claim, bin/uptime, bin/claims"
# use SCRIPT ARGUMENT..
use() {
    script=$1
    shift
    (cd "$repository/examples" && "../bin/$script" "$@") 2>"$copy/said"
}
# refuses N WORDS PROGRAM FIRST SECOND SHEET
refuses() {
    number=$1 words=$2
    shift 2
    status=0
    found=$(use "$@") || status=$?
    says "$status $found" "3 refused $number" "bin/$*"
    case $(cat "$copy/said") in
    "$1: refused $number: "*"$words"*) ;;
    *) fail "bin/$*: it says $(cat "$copy/said"), and not $words" ;;
    esac
}
grep -v '^#' "$repository/examples/claims.txt" | while read -r sheet f g verdict; do
    found=$(use claim "$f" "$g" "$sheet") || [ $? -eq 1 ]
    says "$found" "$verdict" "bin/claim $f $g $sheet"
done
grep -v '^#' "$repository/examples/uptimes.txt" | while read -r sheet name horizon page; do
    found=$(use uptime "$name" "$horizon" "$sheet")
    says "$(printf '%s\n' "$found" | paste -s -d , -)" "$page" "bin/uptime $name $horizon $sheet"
done
# as many lines as the drawer has claims, and the total
found=$(use claims claims.txt) || fail "bin/claims claims.txt: $found"
says "$(printf '%s\n' "$found" | wc -l)" "$(($(grep -vc '^#' "$repository/examples/claims.txt") + 1))" "bin/claims claims.txt, its lines"
long=$(head -c 40000 /dev/zero | tr '\0' a)
refuses 13 'G: ' claim cut needel trim.sgl
refuses 13 '"needel"' claim cut needel trim.sgl
refuses 11 'F: ' claim 'cut+' cut trim.sgl
refuses 10 'F: ' claim "$long" cut trim.sgl
refuses 10 'G: ' claim cut "$long" trim.sgl
refuses 14 'sheet make' claim cut cut trim.txt
refuses 13 '"knife"' uptime knife 8 trim.sgl
refuses 16 '"Knife" is malformed: ' uptime Knife 8 trim.sgl
refuses 16 'is malformed: ' uptime "$long" 8 trim.sgl
refuses 14 'sheet make' uptime cut 8 trim.txt
refuses 19 '"08" is no number' uptime cut 08 trim.sgl
refuses 19 '"1073741824" is above 1073741823' uptime cut 1073741824 trim.sgl
for program in claim uptime; do
    status=0
    found=$(use $program cut 8 none.sgl) || status=$?
    says "$status $found" "2 " "bin/$program cut 8 none.sgl"
done

echo "bindings: README's commands"
# readme STATUS COMMAND: README has the command, which ends so and leaves no file that git shows. What it writes in /tmp, it writes here.
readme() {
    grep -qF -- "$2" "$root/README.md" || fail "README has not: $2"
    status=0
    (cd "$repository" && sh -c "$(printf %s "$2" | sed "s|/tmp/|$copy/tmp/|g")") >"$copy/said" 2>&1 || status=$?
    says "$status" "$1" "README, $2: $(cat "$copy/said"): status"
    left=$(cd "$repository" && git ls-files --others --modified --exclude-standard)
    says "$left" "" "README, $2: git shows"
}
readme 0 "bin/make"
readme 0 "bin/claim cut '!needle' examples/trim.sgl"
readme 0 "bin/uptime drive 7200000 examples/shift.sgl"
readme 0 "bin/claims examples/claims.txt"
readme 1 "bin/claim cut 'TON(50,!needle)' examples/trim.sgl"
readme 1 "bin/claim left.right press examples/guard.sgl"
readme 1 "bin/claim '~needle' '!pedal' examples/trim.sgl"
readme 1 "bin/claim 'SR(cut,pedal)' cut examples/trim.sgl"
readme 3 "bin/claim cut needel examples/trim.sgl"
readme 0 "bin/claims --json examples/claims.txt"
readme 0 "bin/sheet make examples/trim.txt /tmp/my.sgl"
readme 0 "bin/sheet show /tmp/my.sgl"
readme 0 "bin/sheet check /tmp/my.sgl"
readme 0 "bin/sheet tidy examples/old.txt /tmp/my.txt"
cmp "$copy/tmp/my.sgl" "$repository/examples/trim.sgl"
cmp "$copy/tmp/my.txt" "$repository/examples/old-tidied.txt"
readme 0 "cc -I include bindings/c/embed.c target/tools/libcapi.a -o /tmp/embed"
"$copy/tmp/embed" | cmp - "$root/bindings/c/embed.expected"

echo "bindings: the scripts of bin/ over stand-ins"
if ! wait "$programs"; then
    programs=
    cat "$copy/programs" >&2
    exit 1
fi
programs=

if [ -n "$into" ]; then
    cp "$tools/libcapi.a" "$tools/sheet" "$tools/claims" "$into/"
fi
echo "bindings: all tests passed"
