#!/usr/bin/env bash
# Holds the plan printer to a stored output for every card of examples/, and the cards to their text. Case A is also
# the stored run of the crate printer. Writes each card anew, which has to give what tools/card.py makes of its text
# without the note; or the refusal that the printer writes, and no card. What `plan` draws for a card has to be what
# `edit` draws for the one written, and the first of the plans that `pages` prints has to be the one that the printer
# writes.
set -euo pipefail
cd "$(dirname "$0")/.."
fail() {
    echo "desk/cards.sh: $1" >&2
    exit 1
}
python3 tools/card.py check examples/cards.txt examples
cmp examples/case-a.card crates/printer/stdin
cmp examples/case-a.out crates/printer/stdout
bare=target/desk/bare
rm -rf $bare
mkdir -p $bare
sed -E '/^(note|bytes|fill) /d' examples/cards.txt > $bare/cards.txt
python3 tools/card.py make $bare/cards.txt $bare
count=0
written=0
for card in examples/*.card; do
    out=${card%.card}.out
    target/bin/printer < "$card" | diff "$out" - || fail "the printer writes something else for $card"
    new=$bare/new.card
    rm -f $new
    target/desk/edit "$card" $new > $bare/edit.out || [ $? = 1 ]
    target/desk/plan "$card" > $bare/plan.out || [ $? = 1 ]
    target/desk/pages "$card" > $bare/pages.out || [ $? = 1 ]
    read -r answer number _ < "$out"
    if [ "$answer" = refused ]; then
        grep -q "^refused $number[:,]" $bare/edit.out || fail "$card is not refused as by the printer"
        tail -n 1 $bare/plan.out | diff $bare/edit.out - || fail "$card is not refused by plan as by edit"
        diff $bare/edit.out $bare/pages.out || fail "$card is not refused by pages as by edit"
        [ ! -e $new ] || fail "$card is refused, and was written anew"
    else
        cmp "$bare/$(basename "$card")" $new || fail "$card is written as something else"
        tail -n +2 $bare/edit.out | diff - $bare/plan.out || fail "$card is drawn by plan as something else"
        marks=$(sed -nE 's/^[0-9].* ([0-3])$/\1/p' "$out" | paste -sd ' ')
        first=${marks:-no plan}
        [ "$(wc -w <<< "$marks")" -le 12 ] || first="refused 34"
        read -r page < $bare/pages.out
        [ "${page%%:*}" = "$first" ] || fail "$card has another first plan by pages: $page"
        written=$((written + 1))
    fi
    count=$((count + 1))
done
echo "$count cards: each prints what is stored; $written are written anew, the others refused"
