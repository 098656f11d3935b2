#!/usr/bin/env bash
# Installs those of the named commands and packages that are missing, a command from Debian's package of the same name:
# python3 for every script, valgrind for the bench; for cc it is gcc, which brings the sanitizers' runtimes, and the
# headers of the C library. The scripts call it for what they need.
set -eu
missing=()

is_installed() { # PACKAGE
    [ "$(dpkg-query --show --showformat='${db:Status-Status}' "$1" 2>/dev/null)" = installed ]
}

for name in "$@"; do
    command -v "$name" >/dev/null || is_installed "$name" && continue
    case $name in
    cc) missing+=(gcc libc6-dev) ;;
    *) missing+=("$name") ;;
    esac
done
[ ${#missing[@]} -gt 0 ] || exit 0
echo "installing ${missing[*]}"
# On another processor apt looks for x86-64's packages only once it is told to.
[[ ${missing[*]} != *:amd64* ]] || dpkg --add-architecture amd64
apt-get update -qq
apt-get install -y -qq --no-install-recommends "${missing[@]}" >/dev/null
