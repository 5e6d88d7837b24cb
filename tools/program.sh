# Which program ./tmr runs, for ./tmr and bench/*. bash reads this file with `.`; `top` is the repository's folder, from the root.
. "$top/tools/sources.sh" || return

# Asks the C library for memory in large pages, unless the caller says what it shall do. A large design takes less time then: docs/speed.md has
# figures. Nothing else hangs on it: where the library or the system has no such pages, it takes small ones.
ask_large_pages() {
    case ":${GLIBC_TUNABLES:-}" in
        *:glibc.malloc.hugetlb=*) ;;
        *) export GLIBC_TUNABLES="${GLIBC_TUNABLES:+$GLIBC_TUNABLES:}glibc.malloc.hugetlb=1" ;;
    esac
}

# The first three of some lines, in one line.
first_of() {
    local lines
    mapfile -t lines <<< "$1"
    local more=$((${#lines[@]} - 3)) text
    printf -v text '%s, ' "${lines[@]:0:3}"
    if [ "$more" -gt 0 ]; then echo "${text%, } and $more more"; else echo "${text%, }"; fi
}

# Without words the program prints its usage and ends with status 2. It cannot start on another system, or with an older C library.
starts() {
    "$1" < /dev/null > /dev/null 2>&1
    [ $? = 2 ]
}

# Sets `program`: to the program that was built here, where no source is newer than it; else to the released one, where it was made from the
# sources that stand here. Where neither will do, `why_not_built` and `why_not_released` tell why.
find_program() {
    local newer built="$top/crates/tmr/out/tmr" released="$top/release/tmr-x86_64-linux"
    why_not_built="no program is built here"
    if [ -x "$built" ]; then
        program=$built
        is_older "$built" || return 0
        why_not_built="newer than the program that was built here: $(first_of "$(newer_than "$built")")"
    fi
    if [ ! -f "$released" ] || [ ! -f "$top/release/sources.sha256" ]; then
        why_not_released="there is no release"
    elif ! command -v sha256sum > /dev/null; then
        why_not_released="sha256sum is not installed, so nobody can tell whether the release fits these sources"
    elif ! is_released; then
        newer=$(newer_than "$top/release/sources.sha256")
        why_not_released="the release was made from other sources${newer:+. Newer than it: $(first_of "$newer")}"
    elif ! starts "$released"; then
        why_not_released="the release fits these sources, but does not start here: release/README.md says what it needs"
    else
        program=$released
        return 0
    fi
    return 1
}

# Sets `program` as `find_program` does. Where it finds none, the program is proved and built.
find_or_build_program() {
    ! find_program || return 0
    echo "tmr: $why_not_built" >&2
    echo "tmr: $why_not_released" >&2
    if ! command -v rt > /dev/null; then
        echo "tmr: the program cannot be built either: rt, the Rattle toolchain, is not installed" >&2
        return 1
    fi
    echo "tmr: the program is proved and built now, which can take an hour" >&2
    program="$top/crates/tmr/out/tmr"
    if ! "$top/build" < /dev/null >&2 || [ ! -x "$program" ]; then
        echo "tmr: the program could not be built" >&2
        return 1
    fi
}
