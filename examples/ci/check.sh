#!/bin/sh
# The check of a pipeline: hunts in each guest, and fails if one that is right doesn't pass, or if a mistake isn't found.
#   check.sh
# What was found lies in out/: NAME.txt, NAME.err, NAME.html, the list of the races NAME.list, and the schedules in NAME.found/. RVCOLLIDE names the program, BUDGET how many steps each hunt makes.
set -eu
cd "$(dirname "$0")"
: "${RVCOLLIDE:=rvcollide}" "${BUDGET:=50000000}"
make -s all

# hunt NAME OPTIONS: the folder of the schedules has to be empty.
hunt() {
    name=$1
    shift
    rm -rf "out/$name.found"
    mkdir "out/$name.found"
    status=0
    "$RVCOLLIDE" hunt "out/$name.elf" --budget "$BUDGET" --check-ends --quiet --page "out/$name.html" --list "out/$name.list" --save-to "out/$name.found" "$@" \
        >"out/$name.txt" 2>"out/$name.err" || status=$?
}

# passes NAME OPTIONS
passes() {
    hunt "$@"
    if [ $status -ne 0 ]; then
        cat "out/$name.err" "out/$name.txt"
        echo "$name doesn't pass: status $status"
        exit 1
    fi
    echo "$name passes"
}

# fails NAME WHAT OPTIONS: a hunt that finds something has the status 5. Any other says that it didn't work. WHAT is a pattern of a line that it writes.
fails() {
    name=$1 what=$2
    shift 2
    hunt "$name" "$@"
    found=$(cat "out/$name.err" "out/$name.txt" | grep -m 1 -o "$what") || found=
    if [ $status -ne 5 ] || [ -z "$found" ]; then
        echo "the mistake of $name isn't found: status $status"
        exit 1
    fi
    echo "$name fails, as it should: $found"
}

# The guests as they are.
passes queue --check
passes jobs --check
passes sensor --check

# The same with a mistake each.
fails queue-1 'kept' --check
fails queue-2 'harts wait for ever' --check
fails queue-3 'kept' --check
fails queue-4 'harts wait for ever' --check
fails jobs-wrong 'kept' --check
fails sensor-wrong 'exited 00000001' --check

# A race that the team knows of. The list of one build says what is expected of the next: it passes, also once a function was added before it, and a race
# that is new fails by its name.
passes queue-known
passes queue-moved --expect out/queue-known.list
fails queue-new 'new: note note on started' --expect out/queue-known.list
