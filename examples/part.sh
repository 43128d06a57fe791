#!/bin/sh
# usage: mpirun -n N examples/part.sh --mesh M --problem P [--faces once --ghost once] ..
#
# Assembles the part of one subdomain: of that with the number of this process, as mpirun, srun or an array of Slurm tells it.
# The texts are part-S.mtx and part-S-rhs.mtx of the folder where it is called. ASSEMBLE names the program, if it is another one.
set -eu

here=$(cd "$(dirname "$0")/.." && pwd)
part=${OMPI_COMM_WORLD_RANK:-${PMI_RANK:-${SLURM_ARRAY_TASK_ID:-${SLURM_PROCID:?no number of a process}}}}
exec "${ASSEMBLE:-$here/assemble}" "$@" --subdomain "$part" --matrix "part-$part.mtx" --rhs "part-$part-rhs.mtx"
