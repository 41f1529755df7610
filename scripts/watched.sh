# shellcheck shell=bash disable=SC2154
# For scripts that build by rt, which set `who`, the name that messages begin with.

# Ends the script if there is no rt.
need_rt() {
    type -P rt >/dev/null && return
    echo "$who: this needs the Rattle kit, whose \`rt\` isn't on the PATH:" \
        'see "Build from source" in README.md' >&2
    exit 2
}

# Runs rt without input. Shows which crate is being proved, and what isn't proved. The status is 0
# or 2. watched WORD..
watched() {
    rt "$@" 2>&1 </dev/null | sed -u -n -E \
        -e "s|^rt: chose --jobs [0-9]+ for |$who: proving |p" \
        -e '/^rt: (waiting for another rt|the library )/p' \
        -e '/^(note: )?[^ ]+:[0-9]+:[0-9]+: (error|it is not proved)/p' >&2 && return
    echo "$who: it was not built; run \`rt $*\` in $PWD for the whole message" >&2
    return 2
}
