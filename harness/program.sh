# shellcheck shell=bash
# Sourced by modeline, replay, install and harness/build, from the repository's top: proves and builds the program or
# the static library NAME, and copies it to target/bin/NAME or target/staticlib/libNAME.a; a line is said for each crate
# as it is proved.

# The crates that a program or a library needs, itself included, one to a line.
needed_crates() { # NAME
    awk -F ': *' -v name="$1" '
        /^[^#]/ { split($1, words, " "); uses[words[1]] = $2 }
        END {
            todo[1] = name; last = 1
            for (i = 1; i <= last; i++) {
                if ((todo[i] in seen) || !(todo[i] in uses)) continue
                seen[todo[i]] = 1
                print todo[i]
                count = split(uses[todo[i]], below, " ")
                for (j = 1; j <= count; j++) todo[++last] = below[j]
            }
        }' crates.txt
}

# Whether a file is there, and nothing that it is made of has changed since. A change of a crate that it does not need
# is none of its own, and each crate's folder out/ is rt's.
is_current() { # FILE NAME
    local needed newer
    mapfile -t needed < <(needed_crates "$2" | sed 's,^,crates/,')
    [ -s "$1" ] && [ ! crates.txt -nt "$1" ] &&
        newer=$(find "${needed[@]}" -mindepth 1 -regex 'crates/[^/]*/out' -prune -o -newer "$1" -print -quit) &&
        [ -z "$newer" ]
}

# Each line of rt as it comes, with how far it is.
progress() { # NAME COUNT
    local name=$1 count=$2 done=0 crate='' line
    while IFS= read -r line; do
        case $line in
            'crate '*': modules '*) crate=${line#crate } crate=${crate%%:*} ;;
            'logic=proved '*) done=$((done + 1)) && echo "$name: $done of $count: $crate proved" ;;
            'rt: chose '* | 'rt: running '* | 'rt: rt '*) ;;
            rt:*) echo "$name: ${line#rt: }" ;;
        esac
    done
}

# Has rt prove and build, and copies what it made, with the date of the start: what is changed meanwhile is newer.
build() { # NAME COMMAND FILE COPY
    local name=$1 command=$2 file=crates/$1/out/$3 copy=$4 log=target/$1.log start=target/$1.start
    mkdir -p "$(dirname "$copy")"
    touch "$start"
    sleep 0.02 # dates have steps of some milliseconds: what is changed from here on has a later one
    (cd "crates/$name" && rt "$command") </dev/null 2>&1 | tee "$log" |
        progress "$name" "$(needed_crates "$name" | wc -l)" || { cat "$log"; return 1; }
    [ -s "$file" ] || { echo "rt $command has built no $file"; return 1; }
    cp "$file" "$copy.new" && touch -r "$start" "$copy.new" && mv -f "$copy.new" "$copy"
}

# rt runs the program that it has built: here on no input, where it ends at once.
build_program() { # NAME
    build "$1" run "$1" "target/bin/$1"
}

build_library() { # NAME
    build "$1" lib "lib$1.a" "target/staticlib/lib$1.a"
}

have_library() { # NAME
    is_current "target/staticlib/lib$1.a" "$1" || build_library "$1"
}

have_program() { # NAME
    is_current "target/bin/$1" "$1" || {
        command -v rt >/dev/null || { echo 'the Rattle kit is missing: no rt on PATH (CONTRIBUTING.md says what to do)'; return 1; }
        echo "$1: proving and building the program; from nothing this takes some minutes"
        build_program "$1"
    } >&2
}
