# shellcheck shell=bash
# Sourced by `rust/compare`, `rust/station` and `bench/run`, in the repository's
# folder.

# What the original's files use.
registry=/usr/share/cargo/registry
used="rayon hashbrown num-traits log smallvec"

# Whether a cargo is there that can build the original and the wrapper: Rust 1.65
# or newer, with a linker.
rust_there() {
    if ! command -v cargo > /dev/null && [ -x "${HOME:-}/.cargo/bin/cargo" ]; then
        PATH=$HOME/.cargo/bin:$PATH
    fi
    command -v cargo > /dev/null && command -v cc > /dev/null || return 1
    local minor
    minor=$(rustc --version 2> /dev/null | sed -n 's/^rustc 1\.\([0-9]*\)\..*/\1/p')
    [ "${minor:-0}" -ge 65 ]
}

# The packages that are missing, one to a line.
missing_packages() {
    local name
    for name in $used; do
        if ! compgen -G "$registry/$name-[0-9]*" > /dev/null; then
            echo "librust-$name-dev"
        fi
    done
    if ! rust_there; then
        printf '%s\n' cargo-web rustc-web gcc libc6-dev
    fi
}

# Installs the named packages, where this machine lets us. Ends in any case.
install_packages() {
    if [ "$(id -u)" != 0 ] || ! command -v apt-get > /dev/null; then
        return 0
    fi
    echo "installing: $*"
    export DEBIAN_FRONTEND=noninteractive
    timeout 40 apt-get update > /dev/null 2>&1 || true
    timeout 100 apt-get install -y --no-install-recommends "$@" > /dev/null 2>&1 || true
}

# Whether the original can be built here. Installs what is missing; where that
# does not help, says what is not there.
original_ready() {
    local shared=${SHARED_DIR:-../shared}
    if [ ! -f "$shared/src--INDEX.md" ]; then
        echo "the original's files are not there: no folder 'shared' beside the repository, and SHARED_DIR names none"
        return 1
    fi
    SHARED_DIR=$(cd "$shared" && pwd)
    export SHARED_DIR
    local missing
    missing=$(missing_packages)
    if [ -n "$missing" ]; then
        # shellcheck disable=SC2086
        install_packages $missing
        missing=$(missing_packages)
    fi
    if [ -n "$missing" ]; then
        # shellcheck disable=SC2086
        echo "these packages are missing and could not be had:" $missing
        return 1
    fi
    rust_there
}
