#!/usr/bin/env bash
# prove.sh NAME: proves a crate and all that it names, and builds it, a program as crates/NAME/out/NAME, a static library
# as crates/NAME/out/libNAME.a. Prints a line for each crate that had to be proved, its seconds, and how many are left.
# target/prove.log has all that the prover says.
set -euo pipefail
cd "$(dirname "$0")/.."
name=$1
log=target/prove.log

# The names in order from the crates.txt line of a crate on: the crate itself, and all that it names, directly or not.
names() {
    awk -v crate="$1" '
        { sub(/#.*/, "") }
        /:/ { name = $1; sub(/:/, "", name); sub(/^[^:]*:/, ""); names[name] = $0 }
        function visit(name, parts, i, most) {
            if (!(name in names) || (name in seen)) return
            seen[name]
            print name
            most = split(names[name], parts, " ")
            for (i = 1; i <= most; i++) visit(parts[i])
        }
        END { visit(crate) }' crates.txt
}

# Reads what the prover prints, and writes the lines for people. It names a crate below its functions, and says then
# whether the crate is proved; a crate that was proved before goes without a line, so that all that it names is done.
progress() {
    local crate='' begun=$SECONDS line below
    local -A done=()
    local count
    count=$(names "$name" | wc -l)
    while IFS= read -r line; do
        case $line in
        "crate "*": modules "*)
            crate=${line#crate }
            crate=${crate%%:*}
            ;;
        "logic=proved "*)
            for below in $(names "$crate"); do done[$below]=1; done
            printf '%-12s proved in %3d s, %2d left\n' "$crate" $((SECONDS - begun)) $((count - ${#done[@]}))
            begun=$SECONDS
            ;;
        esac
    done
}

# In the crate's folder. A program is run once, on an empty input, since nothing else builds one.
build() {
    if [ -e src/main.rt ]; then
        rt run < /dev/null 2>&1 > /dev/null
    else
        rt lib 2>&1
    fi
}

command -v rt > /dev/null || {
    echo "$0: no command rt; it comes with the Rattle toolchain"
    exit 2
}
mkdir -p target
(cd "crates/$name" && build) | tee "$log" | progress || {
    status=$?
    tail -n 5 "$log"
    echo "$0: not proved; $log has all that was said"
    exit $status
}
