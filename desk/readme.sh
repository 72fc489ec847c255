#!/usr/bin/env bash
# Follows README.md's lines for C, as printed, in a home of its own: installs the library, builds README.md's program
# for C and for C++, and holds what it prints to README.md.
set -euo pipefail
cd "$(dirname "$0")/.."
root=$PWD
HOME=$(mktemp -d)
export HOME
trap 'rm -rf "$HOME"' EXIT
fail() {
    echo "desk/readme.sh: $1" >&2
    exit 1
}
cd "$HOME"
sed -n '/^```c$/,/^```$/p' "$root/README.md" | sed '1d;$d' > first.c
cp first.c first.cpp
count=0
while IFS= read -r line; do
    case $line in
    *"make install "*) (cd "$root" && eval "$line") ;;
    *"export "*) eval "$line" ;;
    *)
        rm -f first
        eval "$line -Wall -Wextra -Werror -pedantic"
        printed=$(./first)
        grep -qxF "    $printed" "$root/README.md" || fail "README.md does not have what its program prints: $printed"
        ;;
    esac
    count=$((count + 1))
done < <(grep -E '^    (make install|export|gcc -std=c11|g\+\+ -std=c\+\+17) ' "$root/README.md")
[ $count = 4 ] || fail "README.md has $count lines for C, not 4"
echo "README.md's program builds for C and C++, and prints what is said"
