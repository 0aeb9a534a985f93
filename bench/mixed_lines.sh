#!/usr/bin/env bash
# Prints mixed command lines: admissions, releases, pushes, placements with two paths, and lines with a space too many.
set -eu
awk -v n="${1:-1000000}" 'BEGIN {
    for (i = 0; i < n / 5; i++) {
        printf "admit service-%d nowhere-%d nobody 100 shared\n", i, i
        printf "release service-%d\n", i
        printf "push service-%d -%d\n", i, i % 4096 + 1
        printf "place service-%d A Z 60000 shared ab,ac,bc -%d cd,da %d\n", i, i % 4096 + 1, i % 4096
        printf "show service-%d \n", i
    }
}'
