#!/usr/bin/env bash
# Whether plans ever get stuck, over the C interface: stored examples, plans at the limits and random ones, beside the reference.
#   tests/stuck.sh [FILE]     the lines of FILE only
exec "$(dirname "$0")/joint.sh" stuck "$@"
