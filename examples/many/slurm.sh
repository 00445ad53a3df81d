#!/usr/bin/env bash
#SBATCH --job-name=osrun
#SBATCH --ntasks=1
#SBATCH --cpus-per-task=4
#SBATCH --mem=1G
# Serves one file of jobs, as a task of an array: sbatch --array=0-7 slurm.sh FOLDER, where FOLDER has the files jobs.000 to jobs.007
# and stands on a file system that every machine sees. OSRUN names the program, without it the one that is installed.
set -eu
[ $# = 1 ] || { echo "sbatch --array=0-LAST slurm.sh FOLDER" >&2; exit 2; }
number=$(printf '%03d' "${SLURM_ARRAY_TASK_ID:?it is a task of an array}")
"${OSRUN:-osrun}" serve "$1/jobs.$number" >"$1/answers.$number"
