#!/usr/bin/env bash
# Runs each script of this folder through the program and compares what it writes, and the status that it ends with,
# with the files kept beside it.
exec "$(dirname "$0")/../rows/check.sh" "$(dirname "$0")"
