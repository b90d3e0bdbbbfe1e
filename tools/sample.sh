#!/bin/sh
# sample.sh: proves the program with all that it stands on, runs it on the sample delivery (crates/ferry/data, the trial week), and prints what it said.
set -eu
cd "$(dirname "$0")/../crates/ferry"
rt run
echo
cd data
../out/ferry
