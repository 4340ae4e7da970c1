#!/bin/sh
# Puts each fault of src/faults.rs into the mock, one at a time: the harness must find every one, and say where. A fault
# whose name begins with "chain:", "timeline:", "encoder:", "packed:" or "lookup:" is looked for in its kinds of runs only.
# Needs a build with `--features mock`; run it in this folder. Arguments: the program, and the first fault to try.
program=${1:-../../target/differential/release/differential}
faults=$(sed -n '/^pub const FAULTS/,/^];/p' src/faults.rs | grep '^    "')
chain=$("$program" --list | sed -n 's/^\(c-[a-z]*\) .*/--only \1/p')
timeline=$("$program" --list | sed -n 's/^\(tc*-[a-z]*\) .*/--only \1/p')
number=$(echo "$faults" | wc -l)
missed=0
i=${2:-1}
while [ "$i" -le "$number" ]; do
    case $(echo "$faults" | sed -n "${i}p") in
    *'"chain: '*) kinds=$chain ;;
    *'"timeline: '*) kinds=$timeline ;;
    *'"encoder: '*) kinds="--only encode" ;;
    *'"packed: '*) kinds="--only packed" ;;
    *'"lookup: '*) kinds="--only lookup" ;;
    *) kinds= ;;
    esac
    # shellcheck disable=SC2086 # the kinds are words
    found=$(MOCK_FAULT=$i "$program" $kinds 2>/dev/null)
    if echo "$found" | grep -q DIFFERENCE; then
        echo "fault $i: $(echo "$found" | grep -m 1 DIFFERENCE), $(echo "$found" | grep -m 1 -e '^smallest:' | cut -c 1-150)"
    else
        echo "fault $i: NOT FOUND"
        missed=$((missed + 1))
    fi
    i=$((i + 1))
done
echo "$number faults, $missed not found"
[ "$missed" -eq 0 ]
