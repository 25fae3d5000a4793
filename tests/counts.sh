#!/usr/bin/env bash
# How many words of a length lead where, over the C interface: stored examples, plans at the limits and random ones, beside the reference.
#   tests/counts.sh [FILE]     the lines of FILE only
exec "$(dirname "$0")/joint.sh" counts "$@"
