# Steps of one part of the gate. For bash, read in at the repository's root, with the part's name in `steps_of`.
failed=0

# Runs one step; its output is shown where it fails, its last line where it passes.
step() { # NAME COMMAND..
    local name=$1 printed
    shift
    if printed=$("$@" 2>&1); then
        echo "$steps_of: $name: $(tail -n 1 <<<"$printed")"
    else
        echo "$steps_of: $name: FAILED"
        tail -n 40 <<<"$printed" | sed 's/^/  /'
        failed=1
    fi
}

# Runs the tests of a Rust package; what cargo prints is shown where one fails, else how many passed.
package_tests() { # PACKAGE
    local printed
    printed=$(cargo test --offline --quiet --manifest-path "$1/Cargo.toml" 2>&1) || { echo "$printed"; return 1; }
    awk '/^test result: ok/ { n += $4 } END { print n + 0 " tests passed" }' <<<"$printed"
}

# Holds what a host has told to the story.
told_as_written() { # FILE
    diff hosts/story.txt "$1" && echo "as in hosts/story.txt, $(wc -l <"$1") lines"
}
