#!/usr/bin/env bash
# Runs the built program on files as a user would, and compares each answer whole: exit status,
# standard output, standard error and files. Ends with status 1 at the first that is wrong.
# What is wanted is made here from the formats, with sha256sum, sha512sum and base32; nothing is taken from the program.
#
# usage: tests/program.sh [--prefetch WHEN]: each run of `get` and `jobs` has this option, if it has none of its own.
set -Eeuo pipefail
export LC_ALL=C

prefetch=
[ "${1-}" != --prefetch ] || prefetch=$2
top=$(cd "$(dirname "${BASH_SOURCE[0]}")/.." && pwd)
scratch=$(mktemp -d)
title='before the first case'
trap 'cd / && rm -rf "$scratch"' EXIT
trap 'exit 1' HUP INT TERM PIPE
trap 'echo "tests/program.sh: $title: the command failed: $BASH_COMMAND" >&2' ERR

# The program that ./ix_export takes, which is built where it isn't. It is run under this name, which is in the lines on usage.
program=$scratch/ix_export
ln -s "$("$top/ix_export" --where)" "$program"

source "$top/tests/program/cases.sh"
source "$top/tests/program/blocks.sh"
for part in examples root jobs hashes faults words streams two_runs selectors progress parts many check_jobs input complete once get several whole outputs resume prefer carv2 short quiet inspect verify asked receive with without missing lists agree block paths skips json prefetch; do
  source "$top/tests/program/$part.sh"
done

echo "tests/program.sh${prefetch:+ --prefetch $prefetch}: $cases cases passed, $verified archives verified"
