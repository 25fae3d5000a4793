#!/usr/bin/env bash
# Writes, as the digits that tests/bytes.sh takes, an accepted plan of as many bytes as one may have, 49,152: a module with 64 events, one of them
# controllable, and three supervisors that know them all, with 9,767 moves and one disabling.
exec awk 'BEGIN {
  printf "10 01 03 40\n11 00 00 01\n"
  for (e = 1; e < 64; e++) printf "11 %02X 00 00\n", e
  printf "12 00 01 00\n13 00 00 00 00\n"
  for (v = 0; v < 3; v++) printf "14 %02X 40 00 FFFFFFFFFFFFFFFF\n", v
  for (i = 0; i < 9767; i++) printf "15 %02X %02X %02X %02X\n", int(i / 4096), int(i / 64) % 64, i % 64, (int(i / 64) + 1) % 64
  printf "16 02 3F 0000000000000001\n1F\n"
}'
