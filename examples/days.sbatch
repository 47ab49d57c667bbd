#!/bin/bash
#SBATCH --job-name=glock
#SBATCH --cpus-per-task=1
#SBATCH --mem=1G
#SBATCH --time=00:30:00
# Solves one day of a folder for each task of a Slurm array, from a file system that all machines see:
#   sbatch --array=1-$(ls days/*.lock | wc -l) examples/days.sbatch days
# OPTIONS are those of solve; GLOCK names the program where it isn't on the PATH of the machines.
days=("${1:-days}"/*.lock)
day=${days[$((${SLURM_ARRAY_TASK_ID:?names the day, from 1 on; sbatch sets it} - 1))]-}
[ -f "$day" ] || { echo "days.sbatch: the folder ${1:-days} has no day number ${SLURM_ARRAY_TASK_ID}" >&2; exit 2; }
exec "${GLOCK:-glock}" solve "$day" -o "${day%.lock}.report" --workers 1 ${OPTIONS-}
