# shellcheck shell=bash disable=SC2154
# For bindings/build, and release/aarch64, release/portable and release/wasm, which set `target`.
# The libraries below gix_validate_c have to be built.

cd -- "$(dirname -- "${BASH_SOURCE[0]}")/../crates/gix_validate_c" || exit 1
kit=$(dirname -- "$(rt doc)")
room=$(mktemp -d)
trap 'rm -rf -- "$room"' EXIT

# Runs a command, and shows the end of what it says if it fails. quiet COMMAND..
quiet() {
    "$@" >"$room/log" 2>&1 || {
        tail -n 20 -- "$room/log" >&2
        exit 1
    }
}

# Proves the functions, and builds an archive of them. (What one system's build has proved is kept
# for the next, where it is the same.) compile BACKEND TOOLCHAIN FILE
compile() {
    quiet ../../scripts/rattle build ${target:+--target "$target"} --jobs 1 --backend "$1" \
        --toolchain "$2" -o "$3"
    grep -q '^logic=proved ' "$room/log" || {
        tail -n 20 -- "$room/log" >&2
        exit 1
    }
}

# The same by the clang on standard input, which calls that of the kit. (rattle empties its
# environment.) archive FILE
archive() {
    cp -rL --symbolic-link -- "$kit/toolchain" "$room"
    install -m 755 -- /dev/stdin "$room/toolchain/bin/clang"
    compile llvm "$room/toolchain" "$1"
}
