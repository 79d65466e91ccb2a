#!/usr/bin/env bash
# A hunt in pieces by Slurm: an array job of the pieces, and a job that merges their tables when all have ended well and shows the races.
#   slurm.sh IMAGE RUNS PIECES KNOWN [OPTION ..]
# RUNS is how many runs there are in all, a multiple of PIECES. KNOWN is a table or a list of the races that are known, an empty file where
# none are. The options are those of `hunt` that change its runs. rvcollide is on the nodes' path.
# In IMAGE.pieces, on a file system that the nodes share, are then: table, races (the text), races.html and saved (the schedules). The status of
# the last job is that of `show`: 5 if a race is new.
# Slurm starts a piece again whose node fails (--requeue); one that fails or is killed asks for that itself, four times at most.
set -eu
if [ "${SLURM_ARRAY_TASK_ID-}" ]; then
    image=$1 size=$2 table=$1.pieces/$SLURM_ARRAY_TASK_ID.table
    shift 2
    if ! rvcollide hunt "$image" --first $((SLURM_ARRAY_TASK_ID * size)) --runs "$size" --workers 1 --table "$@" > "$table.new"; then
        [ "${SLURM_RESTART_COUNT:-0}" -lt 4 ] && exec scontrol requeue "${SLURM_ARRAY_JOB_ID}_$SLURM_ARRAY_TASK_ID"
        exit 1
    fi
    exec mv "$table.new" "$table"
fi
if [ $# -lt 4 ]; then
    sed -n 's/^# //; 2,8p' "$0" >&2
    exit 2
fi
image=$1 runs=$2 pieces=$3 known=$4
shift 4
folder=$image.pieces
mkdir -p "$folder"
tables=$(seq -f "$folder/%g.table" 0 $((pieces - 1)) | tr '\n' ' ')
job=$(sbatch --parsable --requeue --open-mode=append --array=0-$((pieces - 1)) --output="$folder/%a.seen" "$0" "$image" $((runs / pieces)) "$@")
sbatch --dependency=afterok:"$job" --output="$folder/merged" --wrap="set -e
rvcollide merge $tables > $folder/table
rm -rf $folder/saved
mkdir $folder/saved
rvcollide show $image $folder/table --expect $known --page $folder/races.html --save-to $folder/saved > $folder/races"
