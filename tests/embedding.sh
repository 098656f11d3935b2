#!/usr/bin/env bash
# The library as a C host meets it: its symbols, its header, and the hosts of hosts/c over it, built with every warning an error.
# Those that run here are built with sanitizers; the library is not, so the boundary test lays what it lends against
# inaccessible pages.
set -u
cd "$(dirname "$0")/.." || exit 2
. tools/programs.sh
build_for_library
checked='-g -fsanitize=address,undefined -fno-sanitize-recover=all'
# The address sanitizer reserves terabytes, and the emulator keeps a record for each page of them: more than any machine's memory.
# What guards the stack and the C library's copies stands in for it, as far as it goes.
[ -z "$emulated" ] || checked='-g -fsanitize=undefined -fno-sanitize-recover=all -fstack-protector-all -D_FORTIFY_SOURCE=2'
# Nothing is allocated, and looking for leaks needs rights that not every machine gives.
export ASAN_OPTIONS=detect_leaks=0
steps_of='embedding'
. tests/steps.sh

# The ten calls and no other name; and nothing is wanted of others but what moves and compares bytes.
symbols() {
    local calls given wanted
    calls=$(sed -n 's/^thinnarom_reply \(thinnarom_[a-z_]*\)(.*/\1/p' include/thinnarom.h | sort)
    given=$(nm -g --defined-only "$library" | awk 'NF == 3 { print $3 }' | sort)
    wanted=$(nm -u "$library" | awk '$1 == "U" { print $2 }' | sort -u | grep -vxE 'memcpy|memmove|memset|memcmp|bcmp')
    diff <(echo "$calls") <(echo "$given") || return 1
    [ -z "$wanted" ] || { echo "the library wants $wanted"; return 1; }
    echo "$(wc -l <<<"$calls") calls, no other name, nothing allocated"
}

# In C++ too, where a compiler for it is there.
header() {
    local warnings='-Wall -Wextra -Wpedantic -Wconversion -Werror -Iinclude -fsyntax-only'
    cc -std=c99 $warnings -x c include/thinnarom.h || return 1
    command -v c++ >/dev/null || { echo 'compiles as C99; no C++ compiler to try'; return 0; }
    c++ -std=c++11 $warnings -x c++ include/thinnarom.h && echo 'compiles as C99 and as C++11'
}

story() {
    build_host story $checked hosts/c/story.c hosts/c/guest.c || return 1
    "$hosts/story" >build/story.txt || return 1
    told_as_written build/story.txt
}

mapped() {
    build_host mapped $checked hosts/c/mapped.c hosts/c/guest.c || return 1
    "$hosts/mapped" build/mapped.disk
    local status=$?
    rm -f build/mapped.disk build/mapped.disk.state
    return "$status"
}

# Where pages are larger than x86-64's, the emulator can't keep a single one of those inaccessible.
keeps_single_pages() {
    [ -z "$emulated" ] || [ "$(getconf PAGESIZE)" -eq 4096 ] || { echo 'pages here are not of 4096 bytes'; return 1; }
}

# What it covered goes to a file; it fails by itself where a class was never reached.
boundary() {
    keeps_single_pages || return 1
    build_host boundary $checked hosts/c/boundary/*.c || return 1
    "$hosts/boundary" >build/boundary.log || { cat build/boundary.log; return 1; }
    awk '/none amiss$/ { n += $(NF - 2) } END { print n " calls and setups, none amiss (build/boundary.log)" }' build/boundary.log
}

# Times are not judged here, but the program that takes them has to work.
cost() {
    build_host cost hosts/c/cost.c hosts/c/guest.c || return 1
    "$hosts/cost" >build/cost.txt && echo "times $(wc -l <build/cost.txt) kinds of action"
}

build_library || exit 1
[ -z "$emulated" ] || echo 'embedding: under an emulator, so without the address sanitizer, which runs on x86-64 only'
step symbols symbols
step header header
step story story
step 'mapped file' mapped
step boundary boundary
step cost cost
exit "$failed"
