#!/bin/sh
# Proves a crate and those that it uses, lowest first, and puts what is built of it into target/, which the commands and the tests read:
#     tools/prove.sh NAME..     target/bin/NAME with target/stamp/NAME of a program, target/staticlib/libNAME.a of a static library NAME_c
# Called at the top of the project. A line for each crate on standard output; what rt says of it is in target/log. Ends with 1 where one is not proved.
set -u
mkdir -p target/log target/bin target/stamp target/staticlib || exit 1

# The crates that are proved for one, itself among them.
reached() {
    awk -v wanted="$1" '
        function visit(name,    list, k, n) {
            if (name in seen || !(name in needs)) return
            seen[name]
            n = split(needs[name], list, " ")
            for (k = 1; k <= n; k++) visit(list[k])
            print name
        }
        { sub(/#.*/, ""); at = index($0, ":") }
        at { split(substr($0, 1, at - 1), words, " "); needs[words[1]] = substr($0, at + 1) }
        END { visit(wanted) }' crates.txt
}

is_static() { grep -q "^$1 staticlib" crates.txt; }

# A library's rlib stands there, and neither its text nor the list of crates is newer.
is_built() {
    [ -f "crates/$1/out/rlib/stamp" ] && [ -z "$(find "crates/$1/src" "crates/$1/specs" "crates/$1/proofs" crates.txt -newer "crates/$1/out/rlib/stamp" -print 2>/dev/null | head -n 1)" ]
}

# What rt is asked of a crate, in its folder. A program is run once on no input, and its status is rt's.
asked() {
    if [ -f src/main.rt ]; then rt run; else rt lib; fi
}

# Beside its place first, so that what is there is whole.
kept() { # FILE PLACE
    cp "$1" "$2.new" && mv "$2.new" "$2"
}

anew=''
for name in "$@"; do
    for crate in $(reached "$name"); do
        if [ -z "$anew" ] && [ "$crate" != "$name" ] && is_built "$crate"; then
            echo "rt: $crate proved (unchanged since it was last proved)"
            continue
        fi
        began=$(date +%s)
        (cd "crates/$crate" && asked) >"target/log/$crate.out" 2>&1 </dev/null
        status=$?
        took=$(($(date +%s) - began))
        if [ "$status" -ne 0 ]; then
            echo "rt: $crate NOT PROVED (exit $status, $took s)"
            echo "rt: FAILED: $crate"
            exit 1
        fi
        [ "$crate" = "$name" ] || anew=1
        echo "rt: $crate proved ($took s)"
    done
    if is_static "$name"; then
        kept "crates/$name/out/lib$name.a" "target/staticlib/lib${name%_c}.a" || exit 1
    else
        kept "crates/$name/out/$name" "target/bin/$name" && echo "$name" >"target/stamp/$name" || exit 1
    fi
done
