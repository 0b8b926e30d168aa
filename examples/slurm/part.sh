#!/bin/sh
#SBATCH --job-name=part --requeue --open-mode=append
# Runs one part of the folder $1. Each try writes a file of its own, which becomes the report of the part once it is whole: so a try that
# is killed leaves none, and two tries at a time leave one.
set -eu
PATH=$PWD/bin:$PATH
part=$(sed -n "${SLURM_ARRAY_TASK_ID}p" "$1/parts")
tries=${SLURM_RESTART_COUNT:-0}
status=0
flow_run "$1/network.toml" 1 18446744073709551615 < "$part" > "$part.try.$tries" || status=$?
case $status in
    0 | 1 | 3) mv -- "$part.try.$tries" "$part.report" ;;
esac
# A run that was killed is queued again, up to three times.
if [ "$status" -gt 128 ] && [ "$tries" -lt 3 ]; then
    scontrol requeue "$SLURM_JOB_ID"
fi
exit "$status"
