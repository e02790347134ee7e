# For bench/instructions, bench/before and bench/copies: the program that makes the calls, with any build of the library, and its counts by
# callgrind.

# What stands in for the calls that a build does not have.
absent() { # LIBRARY
    local call
    for call in page shell_patch depths_for; do
        nm -g --defined-only "$1" | grep " silo_$call\$" >/dev/null || echo bench/no_$call.c
    done
}

build_calls() { # LIBRARY PROGRAM
    # Bound at the start, so that no call's stack has the loader's in it.
    gcc -O2 -Wall -Wextra -Wl,-z,now -Iinclude bench/calls.c bench/measured.c bench/sheet.c bench/plain.c $(absent "$1") "$1" -lm -o "$2"
}

collected() { # PROGRAM CALL SHEET COUNT
    valgrind --tool=callgrind --callgrind-out-file=/dev/null "$@" 2>&1 | sed -n 's/.*Collected : *//p'
}

# The instructions of one call over an empty one: a tenth of the difference between 11 calls and 1, both numbers in two digits.
instructions() { # PROGRAM CALL SHEET
    local eleven one
    eleven=$(collected "$@" 11) && one=$(collected "$@" 01) && echo $(((eleven - one) / 10))
}
