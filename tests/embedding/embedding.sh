# Tests the queue in programs in C and C++ (docs/EMBEDDING.md): the proofs of the exports are those of their template,
# the header is that of the library, and the programs of `programs/` and of the page run, built by gcc and clang, with
# sanitizers. Eclipse Titan runs the examples with its own queue and with ours.

# Provides the library in `port`: the folder that TP_PORT names, or the one that `embedding/build` makes of this tree.
# That proves the crates below again, since rt doesn't use the libraries of `rt ci`.
port_library() {
    set_up "the library for C and C++ can be built" build_port && count 0
}

build_port() {
    if [[ -z ${TP_PORT-} ]] && ! env --default-signal=INT embedding/build >"$room/port" 2>&1; then
        tail -n 20 -- "$room/port"
        return 1
    fi
    [[ -e $port/lib/libtp_port.a ]]
}

embedding() {
    told "$room/walks" tests/embedding/walks.py
    told "$room/headers" tests/embedding/headers.py
    told "$room/port_classes" tests/embedding/port_classes.py
    mkdir -- "$room/programs"
    told "$room/embedded" tests/embedding/embedded.py "$port" "$room/programs"
}

titan_ports() {
    mkdir -- "$room/titan"
    told "$room/told" tests/embedding/titan_ports.py "$port" "$room/titan"
}
