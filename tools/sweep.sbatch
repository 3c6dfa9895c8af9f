#!/usr/bin/env bash
# A sweep as a Slurm array: each task takes its share of the batches that aren't done.
#
#   tools/sweep-batches begin CONFIG FIRST LAST FOLDER [COMMAND..]
#   sbatch --array=0-9 tools/sweep.sbatch FOLDER
#   tools/sweep-batches table FOLDER        once all have ended
#
# Every node has to see these files, the program and FOLDER. What was cut off goes on when the array
# is sent in again. Installed, both files lie in lib/faultyard.
#SBATCH --job-name=sweep
#SBATCH --ntasks=1
#SBATCH --output=/dev/null
set -euo pipefail
folder=$1
# Slurm runs a copy of this file, so the folder says where the tools are.
tool=$(cat "$folder/tool")
tasks=${SLURM_ARRAY_TASK_COUNT:-1}
task=$((${SLURM_ARRAY_TASK_ID:-0} - ${SLURM_ARRAY_TASK_MIN:-0}))
for batch in $("$tool" left "$folder"); do
    if ((batch % tasks == task)); then
        "$tool" run "$folder" "$batch"
    fi
done
