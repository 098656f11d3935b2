# The programs: where they stand and how they are built. For sh, read in at the repository's root.

# rt builds each crate in the crate's own out/. What cargo builds stands apart.
export CARGO_TARGET_DIR=build/cargo

# Rattle builds for x86-64. On another processor an emulator runs what it built, and tools/emulated has the replay program and the
# commands that build hosts, under their usual names. `to_run` and `to_link` are the packages that this takes.
case $(uname -m) in
x86_64) emulated='' to_run='' to_link='' ;;
*)
    emulated=tools/emulated
    # The plainest one: on others the C library copies by rep movsb, which the emulator does byte by byte.
    export QEMU_CPU=qemu64
    to_run='qemu-user libc6:amd64'
    to_link='gcc-x86-64-linux-gnu libc6-dev-amd64-cross libubsan1:amd64 cargo-web rustc-web libstd-rust-web-dev:amd64'
    ;;
esac

# REPLAY names another program to try in the proved one's place, which is then not built.
replay=${REPLAY:-${emulated:-crates/replay/out}/replay}
second=$CARGO_TARGET_DIR/release/second
differential=$CARGO_TARGET_DIR/release/differential
# THINNAROM_LIBRARY likewise names another library.
library=${THINNAROM_LIBRARY:-crates/thinnarom/out/libthinnarom.a}
# Hosts in C, by name.
hosts=build/hosts
second_cost=$CARGO_TARGET_DIR/release/examples/cost

# Proves and builds the replay program, unless nothing has changed since. rt builds a program to run it, so it replays the crate's own
# recording, and its reply is dropped.
build_replay() {
    [ -z "${REPLAY:-}" ] || return 0
    echo 'proving and building crates/replay/out/replay (some minutes the first time)'
    mkdir -p build
    (cd crates/replay && rt run <stdin >/dev/null) 2>build/replay.log || { cat build/replay.log; return 1; }
}

# Proves and builds the static library, unless nothing has changed since.
build_library() {
    [ -z "${THINNAROM_LIBRARY:-}" ] || return 0
    echo 'proving and building crates/thinnarom/out/libthinnarom.a (some minutes the first time)'
    mkdir -p build
    (cd crates/thinnarom && rt lib) >build/library.log 2>&1 || { cat build/library.log; return 1; }
}

# From here on cc, nm and cargo are those for the library's processor.
build_for_library() {
    [ -z "$emulated" ] || PATH=$PWD/$emulated:$PATH
}

# Builds a host in C over the library, with these further flags and sources.
build_host() { # NAME FLAG-OR-SOURCE..
    mkdir -p "$hosts"
    host=$hosts/$1
    shift
    cc -std=c99 -Wall -Wextra -Wpedantic -Wconversion -Werror -O2 -Iinclude -o "$host" "$@" "$library"
}

# Builds the two programs that time single actions.
build_costs() {
    build_host cost hosts/c/cost.c hosts/c/guest.c &&
        cargo build --release --offline --quiet --manifest-path second/Cargo.toml --example cost
}

# Builds the second program, and the one that compares the two.
build_others() {
    for package in second differential; do
        cargo build --release --offline --quiet --manifest-path "$package/Cargo.toml" || return 1
    done
}
