What can't be written ends the program with a word: the answer, in a table or as JSON; help; and a trace, which can't be opened, or is cut off.

  $ faz-sim --frames 4 > /dev/full
  faz-sim: cannot write
  [2]
  $ faz-sim --frames 4 --json > /dev/full
  faz-sim: cannot write
  [2]
  $ faz-sim --help > /dev/full
  faz-sim: cannot write
  [2]
  $ faz-sim --frames 4 --trace nowhere/trace
  faz-sim: cannot write
  [2]
  $ faz-sim --frames 400 --trace /dev/full > told
  faz-sim: cannot write
  [2]

Memory that is refused, each of so many allocations in turn: the program has none, the library has none, or it is done without.

  $ for n in $(seq 1 300); do
  >     REFUSE_ALLOCATION=$n LD_PRELOAD=$REFUSE faz-sim --frames 20 --guesses best --held 2 --peers 3 > told 2>&1
  >     echo "$? $(tail -n 1 told | sed 's/^match .*/match/')"
  > done | sort -u
  0 match
  1 refused 107
  2 no memory
