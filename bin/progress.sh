# shellcheck shell=sh disable=SC2154
# How far a build of the tools is, and about how long it will take yet: for bin/proved.sh, which sources it. It reads the log of
# the build, which goes on whatever becomes of it.
#   watch NAME..     begins to tell; the NAMEs are the crates that rt is run for, in their order, if it is run at all
#   clocked NAME COMMAND..   runs a step, of one of these crates or of cargo, and notes its seconds in the log
#   unwatch          ends the telling
#   keep_times       keeps the seconds of this build for the next one
#   is_due NAME      whether rt seems to have to prove a crate that is told of
#   below NAME..     prints the crates of crates.txt that these crates stand on, each after those that it stands on itself
# Known are the seconds of the last builds here (target/tools/times), else those of bin/times.txt.

# Reads a line of crates.txt in awk: the crate, and what it uses.
# shellcheck disable=SC2016
line_of_crate='
    { sub(/#.*/, ""); at = index($0, ":"); if (!at) at = length($0) + 1; name = substr($0, 1, at - 1); split(name, words, " ") }
    words[1] != "" { used[words[1]] = substr($0, at + 1) }'

below() { # NAME..
    awk -v wanted="$*" "$line_of_crate"'
        function visit(name,    names, n, i) {
            if (name in met) return
            met[name] = 1
            n = split(used[name], names, " ")
            for (i = 1; i <= n; i++) if (names[i] in used) {
                visit(names[i])
                if (!(names[i] in printed)) print names[i]
                printed[names[i]] = 1
            }
        }
        END { n = split(wanted, names, " "); for (i = 1; i <= n; i++) visit(names[i]) }' "$root/crates.txt"
}

clocked() { # NAME COMMAND..
    clock=$1 started=$(date +%s)
    shift
    "$@"
    echo "make: $clock made ($(($(date +%s) - started)) s)" >>"$temporary/log"
}

# Those of some crates that rt will prove: those with no stamp of rt's, as the library for C never has one, or with a source newer
# than it (the plan adds what stands on them). All, where another toolchain proved them.
changed() { # NAME..
    read -r _ last 2>/dev/null <"$keep/proved" || last=$by
    for crate; do
        for stamp in "$root/crates/$crate/out/rlib/stamp" "$root/crates/$crate/out/$crate.stamp"; do
            if [ "$last" = "$by" ] && [ -f "$stamp" ] && [ -z "$(cd "$root/crates/$crate" &&
                find src specs proofs -newer "$stamp" -print 2>/dev/null | head -n 1)" ]; then
                continue 2
            fi
        done
        echo "$crate"
    done
}

# What the build goes through, in its order: the name, its known seconds, and whether it is to be made (1) or stands (0).
plan() { # NAME..
    changed "$@" >"$temporary/changed"
    cat "$root/bin/times.txt" "$keep/times" 2>/dev/null >"$temporary/known"
    awk -v wanted="$*" '
        FILENAME ~ /known$/ { sub(/#.*/, ""); if (NF == 2) seconds[$1] = $2; next }
        FILENAME ~ /changed$/ { todo[$1] = 1; next }'"$line_of_crate"'
        END {
            for (name in seconds) { sum += seconds[name]; known++ }
            average = known ? sum / known : 10
            todo["cargo"] = 1
            n = split(wanted " cargo", order, " ")
            for (i = 1; i <= n; i++) {
                name = order[i]
                m = split(used[name], names, " ")
                for (j = 1; j <= m; j++) if (names[j] in used && todo[names[j]]) todo[name] = 1
                print name, name in seconds ? seconds[name] : average, todo[name] + 0
            }
        }' "$temporary/known" "$temporary/changed" "$root/crates.txt"
}

# By the plan and the log: how many crates are proved and how many there are to prove, the known seconds of what is made, of what is
# under way and of what is to come, and what is under way.
reckon() {
    awk '
        FILENAME ~ /plan$/ { seconds[$1] = $2; todo[$1] = $3; order[++count] = $1; next }
        /^make: [a-z0-9_]+ made \([0-9]+ s\)$/ { done[$2] = 1 }
        END {
            for (i = 1; i <= count; i++) if (todo[name = order[i]]) {
                if (name != "cargo") { all++; proved += done[name] }
                if (done[name]) past += seconds[name]
                else if (present != "") rest += seconds[name]
                else { present = name; now = seconds[name] }
            }
            print proved + 0, all + 0, past + 0, now + 0, rest + 0, present
        }' "$temporary/plan" "$temporary/log"
}

# Whether the plan has a crate as one that is to be made.
is_due() { # NAME
    while read -r made _ isto; do
        [ "$made" != "$1" ] || return "$((1 - isto))"
    done <"$temporary/plan"
    return 1
}

minutes() { # SECONDS
    printf '%d:%02d' "$(($1 / 60))" "$(($1 % 60))"
}

# The columns of a line that is written again and again on the terminal.
columns() {
    wide=$(stty size <&2 2>/dev/null | cut -d ' ' -f 2)
    [ "${wide:-0}" -gt 20 ] || wide=80
    echo "$((wide - 1))"
}

# Tells every second on a terminal, on one line, and every ten seconds elsewhere. The seconds to come are taken as many times
# longer, or shorter, as those of the steps that are over were, or that the present step takes already; at the start, when that says
# little, as they are known.
tell() {
    over=0 at=0 every=10 asleep=''
    [ ! -t 2 ] || every=1
    trap '[ -z "$asleep" ] || kill "$asleep" 2>/dev/null; exit 0' TERM
    while sleep "$every" 2>/dev/null & asleep=$! && wait "$asleep" && kill -0 $$ 2>/dev/null; do
        gone=$(($(date +%s) - began))
        read -r proved all past now rest names <<TOLD
$(reckon 2>/dev/null)
TOLD
        [ "$past" = "$over" ] || over=$past at=$gone
        left=$(awk -v past="$past" -v now="$now" -v rest="$rest" -v at="$at" -v gone="$gone" '
            BEGIN {
                pace = (at + 20) / (past + 20)
                if (pace < (gone + 20) / (past + now + 20)) pace = (gone + 20) / (past + now + 20)
                now = now * pace - (gone - at)
                print int(rest * pace + (now < 1 ? 1 : now))
            }')
        case $names in
        '') what="finishing" ;;
        cargo) what="building the tools with cargo" ;;
        *) what="proving crate $((proved + 1)) of $all ($names)" ;;
        esac
        what="$program: $what: $(minutes "$gone") so far, about $(minutes "$left") left"
        if [ -t 2 ]; then
            wide=$(columns)
            printf "\r%-$wide.${wide}s" "$what" >&2
        else
            printf '%s\n' "$what" >&2
        fi
    done
}

# What is to be done, and how long that took before.
announce() {
    read -r _ all _ now rest _ <<TOLD
$(reckon 2>/dev/null)
TOLD
    what="building the tools"
    [ "$all" -eq 0 ] || what="proving $all crates of the present sources and building the tools"
    say "$what: about $(minutes "$((${now%.*} + ${rest%.*}))") by the last known times"
}

watch() { # NAME..
    (plan "$@") >"$temporary/plan" 2>/dev/null
    (announce) || :
    began=$(date +%s)
    tell </dev/null >/dev/null 9>&- &
    watcher=$!
}

unwatch() {
    [ -n "$watcher" ] || return 0
    kill "$watcher" 2>/dev/null
    wait "$watcher" 2>/dev/null
    watcher=''
    [ ! -t 2 ] || (printf "\r%$(columns)s\r" '' >&2) || :
}

# Of a crate that stood, and was not proved, the seconds of when it was are kept.
keep_times() {
    cat "$keep/times" 2>/dev/null >"$temporary/last.times"
    awk '
        FILENAME ~ /times$/ { if (NF == 2) seconds[$1] = $2; next }
        /^logic=proved / { proved = 1 }
        /^make: [a-z0-9_]+ made \([0-9]+ s\)$/ { if (proved || $2 == "cargo") seconds[$2] = substr($4, 2); proved = 0 }
        END { for (name in seconds) print name, seconds[name] }' "$temporary/last.times" "$temporary/log" 2>/dev/null |
        LC_ALL=C sort >"$temporary/times"
    mv -- "$temporary/times" "$keep/times" 2>/dev/null || :
}
