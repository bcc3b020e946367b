# Sourced at the repository's root by the scripts that build the Rust beside the proved code.
# The Rust is read where it lies and never copied into the repository: only target/ holds the patched files.

rust_source=${GINGERFILE_RUST_SRC:-../shared/docs/src/src}
mkdir -p target/compare

# rust_at_hand WHAT: says so and returns 1 where the renderer's source or the compiler is missing.
rust_at_hand() {
    if [ ! -f "$rust_source/model.rs" ]; then
        echo "$1 skipped: there is no $rust_source/model.rs (GINGERFILE_RUST_SRC names another folder)"
        return 1
    fi
    if ! command -v rustc >/dev/null; then
        echo "$1 skipped: there is no rustc"
        return 1
    fi
}

# stands FILE SOURCE..: whether the file is there, and newer than all that it is made of.
stands() {
    local file=$1
    shift
    [ -e "$file" ] && [ -z "$(find "$@" -name out -prune -o -newer "$file" ! -type d -print -quit)" ]
}

# made FILE COMMAND..: runs a command of rt where FILE does not stand over the crates; prints what it said only where it
# fails. One command of rt runs at a time, and a second that waits for the same file finds it made.
made() {
    local file=$1
    shift
    (
        flock 9
        stands "$file" crates crates.txt || "$@" >target/compare/rt.log 2>&1 || {
            cat target/compare/rt.log
            exit 1
        }
    ) 9>target/compare/lock
}

# proved_library NAME: makes target/staticlib/libNAME.a.
proved_library() {
    made "target/staticlib/lib$1.a" scripts/build "$1"
}

# proved_libraries NAME..: the same of several at a time. Each looks at the crates below it first and writes down what it finds, so the next begins a
# little later; one that fails is made again, and its failure told, by the first that needs it.
proved_libraries() {
    (
        flock 9
        for name in "$@"; do
            stands "target/staticlib/lib$name.a" crates crates.txt && continue
            scripts/build "$name" >"target/compare/$name.log" 2>&1 &
            sleep 10
        done
        wait
    ) 9>target/compare/lock
}

# proved_program NAME: makes target/bin/NAME.
proved_program() {
    made "target/bin/$1" scripts/build "$1"
}

# rustc_of OUT WORDS..: no fast-math and no target-cpu, so that every operation is rounded once, as in the proved code.
rustc_of() {
    local out=$1
    shift
    rustc --edition 2021 -C opt-level=3 -o "$out" "$@"
}

# shared_library: makes target/compare/libcomparison.rlib of compare/lib, the patched Rust and the library's wrapper.
shared_library() {
    stands target/compare/libcomparison.rlib compare/lib compare/patch.rs embed/src "$rust_source/model.rs" && return
    rustc --edition 2021 -o target/compare/patch compare/patch.rs
    target/compare/patch "$rust_source/model.rs" target/compare
    rustc_of target/compare/libcomparison.rlib --crate-name comparison --crate-type rlib compare/lib/lib.rs
}

# rust_program SOURCE PROGRAM LIBRARY..: makes PROGRAM, linked with the proved libraries that are named.
rust_program() {
    local source=$1 program=$2 words=()
    shift 2
    shared_library
    for library in "$@"; do
        proved_library "$library"
        words+=(-l "static=$library")
    done
    rustc_of "$program" "$source" --extern comparison=target/compare/libcomparison.rlib -L native=target/staticlib "${words[@]}"
}

# comparison NAME LIBRARY..: makes target/compare/NAME of compare/NAME.rs. bench: target/compare/bench_NAME of bench/NAME.rs.
comparison() {
    rust_program "compare/$1.rs" "target/compare/$1" "${@:2}"
}
bench() {
    rust_program "bench/$1.rs" "target/compare/bench_$1" "${@:2}"
}
