#!/bin/sh
#SBATCH --job-name=merge --requeue --open-mode=append
# Merges the reports of all parts of the folder $1. Where one is missing, or has another status than 0, merge.log says so.
set -eu
PATH=$PWD/bin:$PATH
folder=$1
set --
while IFS= read -r part; do
    set -- "$@" "$part.report"
done < "$folder/parts"
flow merge "$folder/network.toml" "$@" > "$folder/whole.report.new"
mv -- "$folder/whole.report.new" "$folder/whole.report"
