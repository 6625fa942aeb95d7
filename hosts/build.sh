# The tools, the proofs and the build, for ./serve, ./print and ./install. They read this file, with `top` (the top of the repository) and `name` (their own) set.

fail() {
    echo "$name: $1" >&2
    exit 1
}

need() {
    command -v "$1" >/dev/null || fail "the command $1 is not on the PATH: $2"
}

# The version has one place, the header.
version() {
    sed -n 's/^#define SONDE_VERSION "\(.*\)"/\1/p' "$top/include/sonde.h"
}

wanted_rust() {
    sed -n 's/^rust-version = "\(.*\)"/\1/p' "$top/hosts/serve/Cargo.toml"
}

found_rust() {
    (cd "$top" && cargo --version 2>/dev/null) | sed -n 's/^cargo \([0-9.]*\).*/\1/p'
}

# A version as a number that can be compared: 1089 for 1.89 and for 1.89.0.
rank() {
    echo "$1" | awk -F. '{ print $1 * 1000 + $2 }'
}

rust_serves() {
    [ "$(rank "$(found_rust)")" -ge "$(rank "$(wanted_rust)")" ]
}

proved() {
    "$top/tests/library" --built
}

# What the proofs and the build need, so that nothing is found missing after minutes.
tools() {
    need cargo "install Rust, $(wanted_rust) or later"
    [ -n "$(found_rust)" ] || fail "cargo doesn't tell its version: $(cd "$top" && cargo --version 2>&1)"
    rust_serves || fail "cargo is $(found_rust), and Rust $(wanted_rust) or later is needed"
    need cc 'install a C compiler, which Rust links with'
    proved || need rt 'it is the Rattle toolchain, which proves the library'
}

# build PACKAGE: cargo says something only where it fails. The program's time is then that of cargo's word on it.
build() {
    said=$(cd "$top" && unset CARGO_BUILD_TARGET && cargo build --quiet --release --package "$1" --target-dir target/cargo 2>&1) ||
        { printf '%s\n' "$said" >&2; fail 'cargo failed, see above'; }
    [ -x "$top/target/cargo/release/$1" ] || fail "cargo has built no target/cargo/release/$1"
    touch "$top/target/cargo/release/$1"
}

prove() {
    # The time is that of the older rattle-kit-5b.
    echo "$name: proving the library first; from nothing this takes about 5 minutes" >&2
    "$top/tests/library" --progress "$name" >&2 || fail 'rt failed, see above'
}
