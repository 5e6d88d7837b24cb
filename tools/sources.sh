# Which files the program is made of, for ./tmr, release/make and the gate. bash reads this file with `.`; `top` is the repository's folder, from the root.

# Reads crates.txt. `crates` are then the names of the crates that the program stands on, itself among them, in the order of that file, and
# `lines` are their lines without comments.
read_crates() {
    local line name names=() todo=(tmr)
    local -A text=() wanted=()
    while read -r line || [ -n "$line" ]; do
        line=${line%%#*}
        [[ $line == *:* ]] || continue
        name=${line%%[: ]*}
        names+=("$name")
        text[$name]=${line%"${line##*[![:space:]]}"}
    done < "$top/crates.txt"
    while [ ${#todo[@]} -gt 0 ]; do
        name=${todo[-1]}
        unset 'todo[-1]'
        [ -z "${text[$name]-}" ] || [ -n "${wanted[$name]-}" ] && continue
        wanted[$name]=yes
        # shellcheck disable=SC2206
        todo+=(${text[$name]#*:})
    done
    crates=() lines=()
    for name in ${names[@]+"${names[@]}"}; do
        [ -n "${wanted[$name]-}" ] && crates+=("$name") lines+=("${text[$name]}")
    done
    return 0
}

# The text that the release's hash is over: the toolchain's line (the one word given), the lines of crates.txt, and each file's hash.
list_sources() ( # TOOLCHAIN
    cd "$top" && read_crates && [ ${#crates[@]} -gt 0 ] || exit 1
    folders=()
    for name in "${crates[@]}"; do
        for part in src specs proofs; do [ -d "crates/$name/$part" ] && folders+=("crates/$name/$part"); done
    done
    [ ${#folders[@]} -gt 0 ] || exit 1
    printf '%s\n' "$1" "${lines[@]}"
    find "${folders[@]}" -type f -print0 | LC_ALL=C sort -z | xargs -0 sha256sum --
)

# Whether release/sources.sha256 is the hash of the sources that stand here.
is_released() {
    local toolchain want got
    { IFS= read -r toolchain < "$top/release/toolchain" && IFS= read -r want < "$top/release/sources.sha256"; } 2> /dev/null || return 1
    got=$(set -o pipefail; list_sources "$toolchain" 2> /dev/null | sha256sum) && [ "$got" = "$want" ]
}

# Whether a source is newer than a file, or a crate is gone. Each call of ./tmr asks this, so that it starts one program and no more.
is_older() { # FILE
    local name part folders=()
    read_crates
    [ ${#crates[@]} -gt 0 ] && ! [ "$top/crates.txt" -nt "$1" ] || return 0
    for name in "${crates[@]}"; do
        # The folder of a crate is newer where src/, specs/ or proofs/ came or went.
        [ -d "$top/crates/$name/src" ] && ! [ "$top/crates/$name" -nt "$1" ] || return 0
        for part in src specs proofs; do [ -d "$top/crates/$name/$part" ] && folders+=("$top/crates/$name/$part"); done
    done
    [ -n "$(find "${folders[@]}" -newer "$1" -print -quit)" ]
}

# The sources that are newer than a file, one a line, and crates whose src/ is gone. Where there is none of these, the folders that are newer,
# with `/` behind: a file came or went there.
newer_than() ( # FILE
    cd "$top" && read_crates || exit 1
    folders=(crates.txt) files=() changed=()
    for name in ${crates[@]+"${crates[@]}"}; do
        [ -d "crates/$name/src" ] || files+=("crates/$name/src/")
        [ "crates/$name" -nt "$1" ] && changed+=("crates/$name/")
        for part in src specs proofs; do [ -d "crates/$name/$part" ] && folders+=("crates/$name/$part"); done
    done
    while IFS=' ' read -r kind path; do
        if [ "$kind" = d ]; then changed+=("$path/"); else files+=("$path"); fi
    done < <(find "${folders[@]}" -newer "$1" -printf '%y %p\n')
    [ ${#files[@]} -gt 0 ] && changed=("${files[@]}")
    [ ${#changed[@]} -gt 0 ] && printf '%s\n' "${changed[@]}" | LC_ALL=C sort
)
