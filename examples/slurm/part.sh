#!/bin/bash
#SBATCH --array=0-255 --cpus-per-task=4 --mem=16G --time=01:15:00 --output=part-%a.err
n=256 k=${1:-$SLURM_ARRAY_TASK_ID} start=()
ulimit -v $((15 * 1024 * 1024)) # memory is refused before Slurm kills
[ -e best.plan ] && start=(--start best.plan)
ttplan solve k.toml --from first.cert --part "$k/$n" "${start[@]}" --workers "${SLURM_CPUS_PER_TASK:-1}" \
    --budget 4000000000 --seconds 3600 --keep "part-$k.plan" --cert "part-$k.new" > "part-$k.out"
case $? in 0 | 10 | 11) mv "part-$k.new" "part-$k.cert" ;; *) exit 1 ;; esac
