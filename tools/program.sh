# The proved programs behind bin/lower and bin/list, which read this: where one stands, and how it is run. It ends with 0, and with 3 where there is
# not enough memory: the command gives the status by what was written.

find_program() { # NAME
    program=$root/libexec/$1 # in an installed package
    if [ ! -x "$program" ]; then
        program=$root/target/bin/$1
        made "bin/$1" "$1"
    fi
    # programs are for x86-64; on another processor the kit's emulator runs them, as rt does
    emulator=''
    case $(uname -m) in
    x86_64) ;;
    *)
        kit=$(rt doc 2>/dev/null) && kit=${kit%/docs/*}/on/$(uname -m)/toolchain
        if [ -x "$kit/bin/qemu-x86_64" ]; then emulator=$kit/bin/qemu-x86_64; fi
        ;;
    esac
}

# The program on standard input, what it writes on descriptor 3, what it says on standard error in $said.
run_program() { # WORDS..
    said=$(
        free_stack
        if [ -n "$copy" ]; then
            { tee -- "$copy" || rm -f -- "$copy"; } | program_itself "$@" 2>&1 >&3 3>&-
        else
            program_itself "$@" 2>&1 >&3 3>&-
        fi
        exit $?
    )
    ended=$?
}

# Calls nest as deep as the tree, so the stack may grow as far as the system lets it.
free_stack() {
    exec 2>/dev/null # the shell's own words on a program that is ended by a signal, and the program's where they are not read
    ulimit -s unlimited || ulimit -s "$(ulimit -H -s)"
}

program_itself() { # WORDS..
    if [ -z "$emulator" ]; then
        "$program" "$@"
    else
        stack=$(ulimit -s)
        case $stack in *[!0-9]*) stack=3145728 ;; esac
        # without string stores, by which the C library clears memory and which are emulated byte by byte
        "$emulator" -cpu max,erms=off,fsrm=off -s "$((stack * 1024))" "$kit/lib/ld-linux-x86-64.so.2" --library-path "$kit/lib" "$program" "$@"
    fi
}
