#!/usr/bin/env bash
# The library as a Rust host meets it, once it is built: the crate's tests and examples, the worked story, and the programs on the
# pages for hosts' engineers, in C and in Rust. THINNAROM_LIBRARY names another library to try.
set -u
cd "$(dirname "$0")/.." || exit 2
. tools/programs.sh
build_for_library
# Cargo runs the crate's build script in another folder.
[ -z "${THINNAROM_LIBRARY:-}" ] || THINNAROM_LIBRARY=$(realpath "$THINNAROM_LIBRARY") || exit 2
steps_of='embedding in Rust'
. tests/steps.sh

story() {
    cargo run --offline --quiet --manifest-path rust/Cargo.toml --example story >build/story_rust.txt || return 1
    told_as_written build/story_rust.txt
}

step tests package_tests rust
step story story
step pages tests/embedding_page.py
exit "$failed"
