#!/usr/bin/env bash
# A hunt in pieces by GNU parallel, over this machine's processors or over ssh. Then its races are shown, as a whole hunt shows them.
#   parallel.sh IMAGE RUNS PIECES KNOWN [HOSTS [OPTION ..]]
# RUNS is how many runs there are in all, a multiple of PIECES. KNOWN is a table or a list of the races that are known, an empty file where
# none are. HOSTS is a file with a host a line, as parallel's --sshloginfile takes it; `-` is this machine. Each host needs rvcollide on its
# path; the image is copied. The options are those of `hunt` that change its runs.
# A piece that fails or is killed is made again, four times at most. Started again, only the pieces that are missing are made.
# In IMAGE.pieces are then: table, races (the text), races.html and saved (the schedules). The status is that of `show`: 5 if a race is new.
set -eu
if [ $# -lt 4 ]; then
    sed -n 's/^# //; 2,8p' "$0" >&2
    exit 2
fi
image=$1 runs=$2 pieces=$3 known=$4 hosts=${5:--}
shift $(($# < 5 ? 4 : 5))
folder=$(basename "$image").pieces
mkdir -p "$folder"
over=(--jobs 100%)
if [ "$hosts" != - ]; then
    over=(--sshloginfile "$hosts" --basefile "$image")
fi
# What parallel calls {} is the number of a piece. Its standard output is its table, its standard error what the piece saw.
parallel "${over[@]}" --joblog "$folder/log" --resume-failed --retries 5 --results "$folder/{}.table" \
    rvcollide hunt "$image" --first "{= \$_ *= $((runs / pieces)) =}" --runs $((runs / pieces)) --workers 1 --table "$@" \
    ::: $(seq 0 $((pieces - 1))) > "$folder/all" 2> "$folder/seen"
seq -f "$folder/%g.table" 0 $((pieces - 1)) | xargs rvcollide merge > "$folder/table"
rm -rf "$folder/saved"
mkdir "$folder/saved"
rvcollide show "$image" "$folder/table" --expect "$known" --page "$folder/races.html" --save-to "$folder/saved" > "$folder/races"
