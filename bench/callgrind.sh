# Counts of what a function of a program takes, with all that it calls: callgrind counts inside it alone. A copy takes more or
# fewer instructions by where the stack lies, so there is no environment, which would move it.
command -v valgrind >/dev/null || { echo "instructions: no valgrind here" >&2; exit 1; }

callgrind() { # FILE FUNCTION PROGRAM WORDS...
    out=$1
    inside=$2
    shift 2
    env -i "$(command -v valgrind)" --tool=callgrind --callgrind-out-file="$out" --dump-instr=yes --dump-line=no --compress-pos=no \
        --toggle-collect="$inside" "$@" 2>&1
}

# A program that fails is not counted.
instructions() { # FUNCTION PROGRAM WORDS...
    said=$(callgrind /dev/null "$@")
    echo "$said" | sed -n 's/.*Collected : //p'
}

# The divisions of whole numbers among them. The program has to be linked with -no-pie: its addresses are then its file's.
divisions() { # FUNCTION PROGRAM WORDS...
    counts=$(mktemp)
    callgrind "$counts" "$@" >/dev/null
    objdump -d --no-show-raw-insn "$2" |
        awk 'FNR == NR { if ($2 ~ /^i?div[bwlq]?$/) { sub(":", "", $1); is["0x" $1] = 1 } next }
             /^calls=/ { getline; next }
             $1 in is { all += $2 }
             END { print all + 0 }' - "$counts"
    rm "$counts"
}
