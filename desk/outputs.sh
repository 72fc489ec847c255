#!/usr/bin/env bash
# Holds the plan printer and the desk programs to what they say where their output takes nothing: a full disk, a closed
# output, and a pipe that nobody reads, with the pipe's signal ignored.
set -euo pipefail
cd "$(dirname "$0")/.."
pipe=target/desk/pipe
rm -f $pipe
mkfifo $pipe
exec 3<> $pipe 4> $pipe 3<&-
rm $pipe
trap '' PIPE
card=examples/case-a.card

# says COMMAND STATUS WORDS: for each such output the command ends so, and says something that begins so.
says() {
    local output said status
    for output in '/dev/full' '&-' '&4'; do
        status=0
        said=$(eval "$1 2>&1 >$output") || status=$?
        [[ $status = "$2" && $said = "$3"* ]] || {
            echo "desk/outputs.sh: with output to $output, $1 ends with $status and says: $said" >&2
            exit 1
        }
    done
}
says "target/bin/printer < $card" 0 "printer: standard output did not take the whole answer"
says "target/desk/plan $card" 2 "standard output: "
says "target/desk/edit $card target/desk/edited.card" 2 "standard output: "
says "target/desk/pages $card" 2 "standard output: "
echo "a program says where its output takes nothing"
