#!/bin/sh
# A hundred tasks of a Slurm array carry out 10,000 soaks each, and leave their lines in soaks.TASK.
#
# usage: sbatch array.sbatch, in the folder of these files; rio is on the path of the nodes

#SBATCH --job-name=soaks
#SBATCH --array=0-99
#SBATCH --cpus-per-task=4
#SBATCH --mem-per-cpu=100M
#SBATCH --time=01:00:00

first=$((SLURM_ARRAY_TASK_ID * 10000))
seq "$first" "$((first + 9999))" |
    xargs -P "$SLURM_CPUS_PER_TASK" -n 100 sh soaks.sh >"soaks.$SLURM_ARRAY_TASK_ID"
