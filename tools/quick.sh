#!/bin/sh
# Runs the tests of all crates without a proof, the scripts of commands/tests/rows by the program before its proof, and those
# tests of the commands and of tools/ that need no program, side by side, in some minutes. Each crate of tests and the program
# are compiled with run-time checks by `rt try`.
#
# usage: tools/quick.sh
#
# It prints a line for each part as it ends, and what a part that failed printed. The last line says how many tests passed and
# failed, and that nothing was proved. The exit status is 0 if none failed, 1 if one did or rt is not installed, and 128
# and the signal's number if it is interrupted.
set -eu
PYTHONPATH=$(dirname "$0") exec python3 -B -m lib.quick
