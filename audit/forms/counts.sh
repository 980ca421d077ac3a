#!/bin/bash
# Run at the top of the repository: bash counts.sh > counts.txt. INV in a command is python3 places.py.
here=$(dirname "$(readlink -f "$0")")
echo 'point | what | command | count'
while IFS=$'\t' read -r p what cmd; do
  c=${cmd//INV /python3 $here/places.py }
  echo "$p | $what | $cmd | $(bash -c "$c" 2>&1 | tr '\n' ' ' | sed 's/ *$//; s/ / + /g')"
done < "$here/commands.tsv"
