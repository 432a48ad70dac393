#!/bin/sh
# Finds and starts a proved program for the commands that are written in Python, as program.sh does it for those of the shell.
#     start.sh find COMMAND PROGRAM                     where it stands, its emulator and the kit, each with a zero byte behind it
#     start.sh run PROGRAM EMULATOR KIT WORDS..         what was found, with the program's own words
set -u
unset CDPATH
command=${2:-start}
say() { printf '%s\n' "$command: $(printf '%s' "$*" | tr '\000-\037\177' '?')" >&2; }
die() { say "$*"; exit 2; }

self=$(readlink -f -- "$0") || die "cannot tell where this script stands"
root=$(dirname -- "$(dirname -- "$self")")
. "$root/tools/first-use.sh"
. "$root/tools/program.sh"

case $1 in
find)
    trap 'stop; exit 2' HUP INT TERM
    find_program "$3"
    printf '%s\0' "$program" "$emulator" "${kit:-}"
    ;;
run)
    program=$2 emulator=$3 kit=$4
    shift 4
    free_stack
    program_itself "$@"
    ;;
esac
