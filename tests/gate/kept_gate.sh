# Writes out/gate, which a whole gate leaves for tools/release if it passes.

# Prints the commit of the work tree, or nothing if the tree differs from it.
clean_commit() {
    if [[ -z $(git status --porcelain 2>&1) ]]; then git rev-parse HEAD 2>/dev/null; fi
}

# Removes what an earlier gate left, because this one may fail.
begin_gate() {
    rm -f -- out/gate
    commit_of_gate=$(clean_commit)
}

# Keeps the gate only if the sources were those of one commit from the beginning to the end, and the toolchain reports
# its version.
keep_gate() { # LAST LINES
    local toolchain program ordered library
    if [[ -z $commit_of_gate || $commit_of_gate != "$(clean_commit)" ]]; then return; fi
    if ! toolchain=$(rt version) || ! program=$(sha256sum <crates/tpr/out/tpr) ||
        ! ordered=$(sha256sum <crates/tpr_ordered/out/tpr_ordered) ||
        ! library=$(sha256sum <out/port/lib/libtp_port.a); then
        echo "test: out/gate isn't kept: rt version, or the sum of a program or of the library, failed" >&2
        return 1
    fi
    mkdir -p out
    {
        echo "commit $commit_of_gate"
        echo "toolchain $toolchain"
        echo "program ${program%% *}"
        echo "tpr_ordered ${ordered%% *}"
        echo "library ${library%% *}"
        echo
        cat -- "$1"
    } >out/gate.begun && mv -- out/gate.begun out/gate
}
