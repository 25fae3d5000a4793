#!/usr/bin/env bash
# Writes the bytes of a file of hexadecimal digits: `#` starts a comment, and HEX*N is N copies of HEX.
set -eu
text=$(sed 's/#.*//' "$1" | tr -s ' \t\n' '\n' | awk -F'*' '
    NF { n = NF > 1 ? $2 : 1; gsub(/../, "\\x&", $1); for (i = 0; i < n; i++) printf "%s", $1 }')
# shellcheck disable=SC2059
printf "$text"
