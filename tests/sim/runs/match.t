Matches of two machines. `value` gives what the last line of a match has under a name.

  $ value() { tail -n 1 | tr ' ' '\n' | sed -n "s/^$1=//p"; }

A small match: the same seed prints the same, another one something else.

  $ faz-sim --frames 60 > one
  $ faz-sim --frames 60 --seed 1 | cmp - one
  $ faz-sim --frames 60 --seed 2 > two
  $ cmp -s one two
  [1]
  $ value agree < one
  yes
  $ faz-sim --frames 60 2>&1 >/dev/null

What isn't given is as the help says.

  $ faz-sim --frames 60 --seed 1 --late 8 --lost 0 --hold 10 --delay 0 --threshold 8 --guesses none --game tally --peers 2 | cmp - one
  $ faz-sim > default
  $ faz-sim --frames 1000 | cmp - default
  $ faz-sim --frames=1 | value frames
  1

Standard input isn't read.

  $ echo nothing | (faz-sim --frames 60 | cmp - one; cat)
  nothing

The machines agree, and no claim is wrong: with guesses and without, with each game, on a good network and on a bad one.

  $ for game in tally duel; do for guesses in none best; do for line in '--late 0' '--late 8 --lost 30'; do
  >   faz-sim --frames 50 --seed 7 $line --guesses $guesses --game $game > out || echo "status $?"
  >   echo "$(value agree < out) $(value wrong < out)"
  > done; done; done | sort | uniq -c | tr -s ' '
   8 yes 0,0

Tables of four frames, on a network where each word is there in the next tick. In each of them the last word is predicted, and
the word that comes differs: one frame is run again each time. Four of the six claims are of the steps. One is of the sync in the
tick in which the match begins, whose word is given in the next; and one of that after the last step, when the word of the last
frame comes. `counts` gives what the last line has from its rollbacks to its claims.

  $ counts() { tail -n 1 | sed 's/.* \(rollbacks=\)/\1/; s/ settled=.*//'; }
  $ faz-sim --frames 4 --hold 1 --late 0 > out
  $ counts < out
  rollbacks=4,4 rerun=4,4 ggpo=4,4 deepest=1,1 waited=0,0 guessed=0,0 taken=0,0 ahead=0,0 claims=6,6 wrong=0,0
  $ sed -n '/^machine rollbacks/,/^$/p' out
  machine rollbacks  run again   by GGPO   deepest    claims     wrong
  0               4          4         4         1         6         0
  1               4          4         4         1         6         0
  
  $ tail -n 1 out | grep -o ' settled=4 agree=yes state='
   settled=4 agree=yes state=

With a delay of two frames each word is there before its frame. A word that is held on is predicted right, however late.

  $ faz-sim --frames 4 --hold 1 --late 0 --delay 2 | counts | cut -d ' ' -f 1-5
  rollbacks=0,0 rerun=0,0 ggpo=0,0 deepest=0,0 waited=0,0
  $ faz-sim --frames 4 --hold 1000000 --late 8 | counts | cut -d ' ' -f 1-4
  rollbacks=0,0 rerun=0,0 ggpo=0,0 deepest=0,0

Without guesses no machine runs more frames again than GGPO, and nothing is guessed.

  $ for seed in 1 2 3 4 5 6 7 8; do faz-sim --frames 200 --seed $seed --late 6 --lost 5 > out
  >   echo "$(value rerun < out),$(value ggpo < out)" | awk -F, '{ print ($1 <= $3), ($2 <= $4), ($3 > 0), ($4 > 0) }'
  >   value guessed < out
  > done | sort | uniq -c | tr -s ' '
   8 0,0
   8 1 1 1 1

Words that are held for long are predicted right more often.

  $ faz-sim --frames 300 --hold 3 --late 6 > short
  $ faz-sim --frames 300 --hold 100 --late 6 > long
  $ echo "$(value rerun < short),$(value rerun < long)" | awk -F, '{ print ($1 > $3), ($2 > $4) }'
  1 1

Settings that no session starts with are refused, and nothing else is written. Up to four machines go 8 frames ahead at most, and
more of them 15.

  $ faz-sim --threshold 16 2>&1 | sed -n 1p
  error: invalid value '16' for '--threshold <K>': 16 is not in 1..=15
  $ faz-sim --threshold 0 2>&1 | sed -n 1p
  error: invalid value '0' for '--threshold <K>': 0 is not in 1..=15
  $ faz-sim --threshold 9
  error: --threshold takes 1 to 8 with 2 machines
  [2]
  $ faz-sim --threshold 9 --peers 4 --guesses best
  error: --threshold takes 1 to 8 with 4 machines
  [2]
  $ faz-sim --threshold 15 --peers 5 --frames 20 | value threshold
  15
  $ faz-sim --delay 8 --frames 20 | value delay
  8
  $ faz-sim --threshold 9 2>/dev/null
  [2]

Jobs are those of guesses.

  $ faz-sim --jobs 4
  error: --jobs can't be used without --guesses best
  [2]
  $ faz-sim --jobs 4 --guesses none
  error: --jobs can't be used without --guesses best
  [2]

What can't be written is a fault.

  $ faz-sim --frames 60 > /dev/full
  faz-sim: cannot write
  [2]
  $ faz-sim --frames 60 --guesses best > /dev/full
  faz-sim: cannot write
  [2]

Words that can't be understood.

  $ faz-sim --frames 0
  error: invalid value '0' for '--frames <N>': 0 is not in 1..=1048576
  
  For more information, try '--help'.
  [2]
  $ faz-sim --frames 1048577 2>&1 | sed -n 1p
  error: invalid value '1048577' for '--frames <N>': 1048577 is not in 1..=1048576
  $ faz-sim --late 61 2>&1 | sed -n 1p
  error: invalid value '61' for '--late <L>': 61 is not in 0..=60
  $ faz-sim --lost 100 2>&1 | sed -n 1p
  error: invalid value '100' for '--lost <P>': 100 is not in 0..=99
  $ faz-sim --hold 0 2>&1 | sed -n 1p
  error: invalid value '0' for '--hold <H>': 0 is not in 1..=1000000
  $ faz-sim --delay 9 --game duel 2>&1 | sed -n 1p
  error: invalid value '9' for '--delay <D>': 9 is not in 0..=8
  $ faz-sim --threshold 256 2>&1 | sed -n 1p
  error: invalid value '256' for '--threshold <K>': 256 is not in 1..=15
  $ faz-sim --seed 18446744073709551616 2>&1 | sed -n 1p
  error: invalid value '18446744073709551616' for '--seed <S>': number too large to fit in target type
  $ faz-sim --frames ten 2>&1 | sed -n 1p
  error: invalid value 'ten' for '--frames <N>': invalid digit found in string
  $ faz-sim --guesses some
  error: invalid value 'some' for '--guesses <GUESSES>'
    [possible values: none, best]
  
  For more information, try '--help'.
  [2]
  $ faz-sim --game chess 2>&1 | sed -n 1p
  error: invalid value 'chess' for '--game <GAME>'
  $ faz-sim late.roll 2>&1 | sed -n 1p
  error: unexpected argument 'late.roll' found
  $ faz-sim --explain 2>&1 | sed -n 1p
  error: unexpected argument '--explain' found
  $ faz-sim --seed 1 --seed 2 2>&1 | sed -n 1p
  error: the argument '--seed <S>' cannot be used multiple times
  $ faz-sim --lost 100 2>/dev/null
  [2]

The greatest seed is one, and the help's example prints what it says.

  $ faz-sim --frames 5 --seed 18446744073709551615 | value seed
  18446744073709551615
  $ faz-sim --help | sed -n 1p
  Plays a match over a bad network, and prints what its rollbacks cost
  $ faz-sim $(faz-sim --help | sed -n 's/^  faz-sim //p') > example
  $ sed '/^$/d;$d' example > want
  $ faz-sim --help | sed -n '/^It prints/,/^  all /s/^  //p' | cmp - want
  $ wc -l < want
  13
  $ faz-sim --help | grep -cE '^  (frames|settled|waited|silent at|left at|sent|rollbacks|run again|by GGPO|deepest|claims|wrong|jobs|taken|run ahead|words held|turns each|at most 2)  +[a-z]'
  19
