#!/bin/sh
# Builds target/oracle and target/oracle64 from the published sources in the folder NVX_SRC.
set -e
. "$(dirname "$0")/lib.sh"
lay_out instant instant
lay_out nanos nanos
# Library, program and the standard library as one: slow to build, so for these two alone.
compile instant oracle "-C lto=fat" &
compile nanos oracle64 "-C lto=fat"
wait $!
