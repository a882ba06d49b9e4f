#!/bin/bash
# Task K of N; `submit` starts it. N is a word and not $SLURM_ARRAY_TASK_COUNT, which is 2 where tasks 3 and 7 of 16 are run
# again by --array=3,7.
#SBATCH --job-name=ix_export
#SBATCH --cpus-per-task=1
#SBATCH --requeue
#SBATCH --open-mode=append
threads=${SLURM_CPUS_PER_TASK:-1}
[ "$threads" -le 64 ] || threads=64
exec "$IX_SCRIPTS/part" "$SLURM_ARRAY_TASK_ID" "$4" "$1" "$2" "$3" --walkers "$threads" --verifiers "$threads"
