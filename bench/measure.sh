# What benches have in common. bash reads this file with `.`; `top` is the repository's folder, from the root, and `room` a folder for files.
. "$top/tools/program.sh" || return

# Sets `program` to the file that TMR names, else to the program that ./tmr would run, which is built first if there is none. A bench calls it
# and not ./tmr: that script looks at all sources first, which takes up to 0.2 s. What is run from here on gets large pages of memory, as from ./tmr.
take_program() {
    ask_large_pages
    if [ -z "${TMR:-}" ]; then
        find_or_build_program
    elif [ -f "$TMR" ] && [ -x "$TMR" ]; then
        program=$(realpath -- "$TMR")
    else
        echo "TMR names no program: $TMR" >&2
        return 1
    fi
}

# Runs a command, and returns its status. `clock` and `seconds` are its seconds by the clock and of a processor, user and system, in
# thousandths; `memory` is the most that it held at once, in MB. What it prints is in `$room/printed`.
spend() { # COMMAND ..
    local status user system TIMEFORMAT='%3R %3U %3S'
    { time /usr/bin/time -q -f %M -o "$room/memory" "$@" > "$room/printed" 2>&1; } 2> "$room/time"
    status=$?
    read -r clock user system < "$room/time"
    seconds=$(awk "BEGIN { printf \"%.3f\", $user + $system }")
    memory=$(awk '{ printf "%d", $1 / 1024 }' "$room/memory")
    return "$status"
}

# How many times the second number the first one is, with so many decimals; `-` where the second is 0.
ratio() { # NUMBER NUMBER DECIMALS
    awk "BEGIN { if ($2 > 0) printf \"%.$3f\", $1 / $2; else printf \"-\" }"
}
