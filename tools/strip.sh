# Strips a program by the toolchain's own tool, for release/make and the gate: so one toolchain gives one file.

# Writes a program without its symbols, which no run needs.
stripped() { # FROM TO
    local page
    page=$(rt doc) && (exec -a llvm-strip "${page%/*}/toolchain/bin/clang" --strip-all -o "$2" "$1")
}
