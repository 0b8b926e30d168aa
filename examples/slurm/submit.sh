#!/bin/sh
# Runs a network over records as an array of jobs, one a part, and then merges their reports to FOLDER/whole.report. FOLDER is made, and
# all nodes have to see it by this path. Prints the number of the job that merges.
set -eu
[ $# -eq 4 ] || { echo 'usage: sh examples/slurm/submit.sh NET RECORDS PARTS FOLDER' >&2; exit 2; }
PATH=$PWD/bin:$PATH
folder=$4
mkdir -- "$folder"
cp -- "$1" "$folder/network.toml"
flow split "$3" --name "$folder/records" "$2" > "$folder/parts"
array=$(sbatch --parsable --array="1-$3" --output="$folder/part.%a.log" examples/slurm/part.sh "$folder")
sbatch --parsable --dependency="afterany:${array%;*}" --output="$folder/merge.log" examples/slurm/merge.sh "$folder"
