#!/bin/sh
# Builds both sides and prints the table.
set -e
. "$(dirname "$0")/lib.sh"
exec target/bench
