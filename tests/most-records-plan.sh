#!/usr/bin/env bash
# Writes, as the digits that tests/bytes.sh takes, an accepted plan of as many records as one may have, 10,049: 64 events of 16 modules, with all that
# these may have of moves and markings, and two supervisors that know all events, with 7,405 moves. It has 49,150 bytes.
exec awk 'BEGIN {
  printf "10 10 02 40\n"
  for (e = 0; e < 64; e++) printf "11 %02X %02X 01\n", e, e % 16
  for (m = 0; m < 16; m++) printf "12 %02X 20 %02X\n", m, m + 16
  for (m = 0; m < 16; m++) for (s = 0; s < 32; s++) for (e = m; e < 64; e += 16) printf "13 %02X %02X %02X %02X\n", m, s, e, (s + e) % 32
  for (v = 0; v < 2; v++) printf "14 %02X 40 %02X FFFFFFFFFFFFFFFF\n", v, v + 62
  for (i = 0; i < 7405; i++) printf "15 %02X %02X %02X %02X\n", int(i / 4096), int(i / 64) % 64, i % 64, (int(i / 64) + i) % 64
  for (m = 0; m < 16; m++) for (s = 0; s < 32; s++) printf "18 %02X %02X\n", m, s
  printf "1F\n"
}'
