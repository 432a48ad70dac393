# Proves and builds what a command needs, where it is missing or older than its text. Read by bin/lower and bin/install, which have root, say and die.
# What is started is in a process group of its own, $job, and `stop` ends it: a command that is interrupted calls it.
job=''

stop() {
    [ -n "$job" ] || return 0
    [ ! -t 2 ] || printf '\r\033[K' >&2
    kill -s TERM -- "-$job" 2>/dev/null || kill -s TERM "$job" 2>/dev/null
    wait "$job" 2>/dev/null
    turns=0
    while [ "$turns" -lt 20 ] && kill -s 0 -- "-$job" 2>/dev/null; do
        pause
        turns=$((turns + 1))
    done
    kill -s KILL -- "-$job" 2>/dev/null
    job=''
}

pause() { sleep 0.2 2>/dev/null || sleep 1; }

# Whether a file of target/ stands there and no text is newer; a program has its stamp too, or it was not seen to run.
is_made() { # FILE
    [ -s "$root/target/$1" ] && [ -z "$(find "$root/crates" "$root/crates.txt" -name out -prune -o \( -type f -o -path "$root/crates/*/*" \) -newer "$root/target/$1" -print 2>/dev/null | head -n 1)" ] || return 1
    case $1 in bin/*) [ -f "$root/target/stamp/${1#bin/}" ] ;; esac
}

# A file of target/, made by tools/prove.sh of a crate if it is not there. Two at once wait for each other.
made() { # FILE CRATE
    file=$1 crate=$2
    ! is_made "$file" || return 0
    command -v rt >/dev/null 2>&1 || die "rt is missing: install the Rattle kit and put its bin/ on PATH"
    take_lock
    if ! is_made "$file"; then
        # without the program its stamp says nothing
        case $file in bin/*) [ -e "$root/target/$file" ] || rm -f -- "$root/target/stamp/$crate" ;; esac
        run_rt && touch -c -- "$root/target/$file" && is_made "$file" ||
            die "$file is not proved or not built: $(grep -m 1 -e 'NOT PROVED' -e FAILED "$log" || tail -n 1 "$log"); $log has the rest"
        say "proved and built after $(($(date +%s) - began)) s"
    fi
    drop_lock
}

# ---- the lock: a file of target/ that flock holds for as long as a process of ours lives, or a link that names its holder
take_lock() {
    lock=$root/target/first-use.lock
    mkdir -p -- "$root/target" 2>/dev/null && (: >>"$lock") 2>/dev/null ||
        die "$root/target cannot be written, and the program is proved and built there: copy the checkout to a folder that can be, or have its owner call this first"
    if command -v flock >/dev/null 2>&1; then
        exec 8>>"$lock"
        flock -n 8 && return
        say "another first use is at work in $root: waiting for it"
        flock 8 &
        job=$!
        wait "$job"
        job=''
    else
        link_lock
    fi
}

link_lock() {
    told=''
    until ln -s "$$" "$lock.held" 2>/dev/null; do
        holder=$(readlink -- "$lock.held" 2>/dev/null)
        if [ -n "$holder" ] && ! kill -s 0 "$holder" 2>/dev/null && [ ! -d "/proc/$holder" ]; then
            rm -f -- "$lock.held" # its holder is gone
            continue
        fi
        [ -n "$told" ] || say "another first use is at work in $root: waiting for it"
        told=1
        pause
    done
}

drop_lock() {
    exec 8>&-
    [ "$(readlink -- "$lock.held" 2>/dev/null)" != "$$" ] || rm -f -- "$lock.held"
}

# ---- rt, and what it says boiled down
run_rt() {
    log=$root/target/first-use.log ended=$root/target/first-use.ended started=$root/target/first-use.started
    rm -f -- "$ended"
    : >"$log"
    : >"$started"
    crates=$(reached) && total=$(printf '%s\n' "$crates" | wc -l)
    began=$(date +%s) done_before=0 last=$began
    say "proving and building $file, once: $total crates, which takes minutes"
    own_group=''
    command -v setsid >/dev/null 2>&1 && own_group=setsid
    $own_group sh -c 'cd -- "$1" && { sh tools/prove.sh "$4" >"$2" 2>&1 </dev/null; echo $? >"$3"; }' \
        sh "$root" "$log" "$ended" "$crate" &
    job=$!
    while [ ! -s "$ended" ] && kill -s 0 "$job" 2>/dev/null; do
        progress
        pause
    done
    wait "$job"
    job=''
    progress
    [ ! -t 2 ] || printf '\r\033[K' >&2
    [ "$(cat -- "$ended" 2>/dev/null)" = 0 ]
}

# The crates that are proved for $crate, itself among them.
reached() {
    awk -v wanted="$crate" '
        function visit(name,    list, k, n) {
            if (name in seen || !(name in needs)) return
            seen[name]
            n = split(needs[name], list, " ")
            for (k = 1; k <= n; k++) visit(list[k])
            print name
        }
        { sub(/#.*/, ""); at = index($0, ":") }
        at { split(substr($0, 1, at - 1), words, " "); needs[words[1]] = substr($0, at + 1) }
        END { visit(wanted) }' "$root/crates.txt"
}

# What is proved, which of how many, for how long: on a terminal one line that changes, elsewhere a line for each crate and one after 30 s without.
progress() {
    found=$(sed -n 's/^rt: \([a-z0-9_]*\) proved (\(.*\))$/\1 \2/p' "$log")
    now=$(date +%s) done_now=0
    [ -z "$found" ] || done_now=$(printf '%s\n' "$found" | wc -l)
    if [ -t 2 ]; then
        [ "$now" -eq "$last" ] || printf '\r\033[K%s' "$(at_work)" >&2
        last=$now
    elif [ "$done_now" -gt "$done_before" ]; then
        printf '%s\n' "$found" | tail -n "+$((done_before + 1))" | while read -r name took; do
            done_before=$((done_before + 1))
            case $took in unchanged*) ;; *) say "$done_before of $total proved: $name ($took)" ;; esac
        done
        last=$now
    elif [ $((now - last)) -ge 30 ]; then
        say "$(at_work)"
        last=$now
    fi
    done_before=$done_now
}

# Crates that rt has started and not yet told of.
at_work() {
    names=$(find "$root/target/log" -name '*.out' -newer "$started" 2>/dev/null | sed 's,.*/,,; s,\.out$,,' | while read -r name; do
        case $found in "$name "* | *"
$name "*) ;; *) printf ' %s' "$name" ;; esac
    done)
    echo "$done_now of $total proved, $((now - began)) s; at work:${names:- rt}"
}
