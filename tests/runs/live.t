Scripts that are played live: through a link, with workers in threads of their own.

  $ late=../examples/late-input.roll
  $ cat > told <<END
  > ok
  > frame 1 state 1
  > ok
  > frame 2 state 11
  > taken
  > frame 2 state 77
  > END

The same is printed with any number of workers, from a file and from standard input.

  $ rollduel live $late | cmp - told
  $ for workers in 1 2 3 4; do rollduel live $late --workers $workers | cmp - told; done
  $ for workers in 1 2 3 4; do rollduel live --workers=$workers - < $late | cmp - told; done
  $ rollduel live $late --game tally --workers 2 2>&1 >/dev/null
  $ for run in 1 2 3 4 5 6 7 8 9 10; do rollduel live $late --workers 4 | cmp - told; done

A file is read where one is named, and standard input isn't.

  $ echo nothing | rollduel live $late --workers 2 | cmp - told
  $ rollduel live - < /dev/null
  rollduel: unreadable: line 1
  [2]

`two` opens a session of two players, of whom the first is local, and plays it with two workers.

  $ header='roll 1 players 2 local 1 delay 0,0 threshold 8'
  $ two() { { echo "$header"; cat; } | rollduel live --workers 2 -; }
  $ echo S | two
  frame 0 state 0
  $ true | two

Guesses, branches and claims print nothing, and the states are those of a script that is played.

  $ cat > guessed <<END
  > L 1 1
  > A
  > L 1 1
  > A
  > G 2 2 3
  > B 0
  > B 17
  > R 2 0 3
  > S
  > C
  > R 2 1 3
  > S
  > END
  $ two < guessed
  ok
  frame 1 state 1
  ok
  frame 2 state 11
  taken
  frame 2 state 77
  taken
  frame 2 state 77

Refusals: a player that there isn't, one who is local, one who left, a word too early, and another one for the same frame.

  $ two <<END
  > R 3 0 1
  > R 1 0 1
  > R 2 1 1
  > R 2 0 1
  > R 2 0 1
  > R 2 0 2
  > D 2
  > R 2 1 1
  > END
  refused 2
  refused 2
  refused 103
  taken
  repeated
  refused 104
  gone 2
  refused 9
  [1]
  $ printf 'A\nL 1 1\nL 1 1\nL 2 1\nD 1\n' | two
  refused 101
  ok
  refused 102
  refused 2
  refused 2
  [1]

Each reason for which a word is refused: of a local player, of none, too early, repeated, another one, out of the queue, and of
one who left.

  $ two <<END
  > R 1 0 7
  > R 0 0 7
  > R 3 0 7
  > R 258 0 7
  > R 2 1 7
  > R 2 0 7
  > R 2 0 7
  > R 2 0 8
  > R 2 99 7
  > D 2
  > R 2 0 7
  > R 2 1 7
  > R 2 0 8
  > END
  refused 2
  refused 2
  refused 2
  refused 2
  refused 103
  taken
  repeated
  refused 104
  refused 103
  gone 2
  refused 9
  refused 9
  refused 9
  [1]

A word of a frame that is a hundred or more ahead can't be read, whoever its player is. Nothing is printed of such a
script.

  $ printf 'L 1 1\nA\nL 1 1\nA\nR 2 101 0\n' | two
  ok
  frame 1 state 1
  ok
  frame 2 state 11
  refused 103
  [1]
  $ printf 'L 1 1\nA\nL 1 1\nA\nR 2 102 0\n' | two
  rollduel: unreadable: line 6
  [2]
  $ printf 'L 1 1\nA\nL 1 1\nA\nR 7 102 0\nS\n' | two
  rollduel: unreadable: line 6
  [2]
  $ for word in '9 102' '1 4294967295'; do printf "L 1 1\nA\nL 1 1\nA\nR $word 0\n" | two; done
  rollduel: unreadable: line 6
  rollduel: unreadable: line 6
  [2]
  $ printf 'L 1 1\nA\nL 1 1\nA\nR 7 101 0\n' | two | tail -n 1
  refused 2

A duel has a ship for each of 2 to 4 players.

  $ three='roll 1 players 3 local 1 delay 0,0,0 threshold 8'
  $ printf "$three"'\nS\n' | rollduel live - --game duel --workers 3
  frame 0 state 20480,15360,0,0,0,0,0 61440,46080,0,0,4,0,0 61440,15360,0,0,4,0,0 b0
  $ printf 'L 1 1\nA\nR 2 0 1\nR 3 0 1\nS\nL 1 0\nA\n' > turns
  $ { echo "$three"; cat turns; } | rollduel live - --game duel --workers 3 > live
  $ { echo "$three"; cat turns; } | rollduel play - --game duel | sed 's/ from .* state/ state/' | cmp - live
  $ wc -l < live
  7
  $ for players in 'players 1 local 1 delay 0' 'players 5 local 1 delay 0,0,0,0,0'; do echo "roll 1 $players threshold 8" | rollduel live - --game duel; done
  refused 3
  refused 3
  [1]

Settings that no session starts with.

  $ echo 'roll 1 players 2 local 1 delay 0,0 threshold 9' | rollduel live - --workers 4
  refused 11
  [1]
  $ printf 'roll 1 players 2 local 1 delay 0,0 threshold 9\nA\n' | rollduel live - --workers 2
  refused 11
  [1]
  $ printf 'roll 1 players 1 local 1 delay 0 threshold 8\nA\n' | rollduel live - --workers 2 --game duel
  refused 3
  [1]

No worker is started for a script that can't be read.

  $ rollduel live - --workers 2 < /dev/null
  rollduel: unreadable: line 1
  [2]
  $ printf "$header"'\nA' | rollduel live - --workers 2 --game duel
  rollduel: unreadable: line 2
  [2]

Three ships, of which the words of two come late, and were guessed. `same SCRIPT` says so where another number of workers writes
something else, or where a frame isn't that of the script that is played on one thread.

  $ frames() { sed -n 's/^\(frame [0-9]*\) .*\(state .*\)/\1 \2/p'; }
  $ same() {
  >   script=$1; shift
  >   rollduel play $script "$@" | frames > played
  >   rollduel live $script --workers 1 "$@" > first; status=$?
  >   [ $status -le 1 ] || echo "$script: status $status"
  >   grep '^frame ' first | cmp - played
  >   for workers in 1 2 3 4; do
  >     rollduel live $script --workers $workers "$@" > again || [ $? = $status ] || echo "$script: another status with $workers"
  >     cmp again first
  >   done
  > }
  $ cat > ships <<END
  > $three
  > G 2 3 1,1
  > G 3 3 8
  > L 1 8
  > A
  > B 0
  > L 1 1
  > A
  > R 2 0 1
  > B 0
  > R 3 0 8
  > R 2 1 1
  > S
  > B 1
  > L 1 2
  > A
  > R 3 1 0
  > A
  > L 1 0
  > A
  > D 3
  > R 2 2 4
  > S
  > END
  $ same ships --game duel
  $ rollduel live ships --game duel --workers 3 > live
  [1]
  $ grep -c '^frame ' live
  6

200 scripts of 40 steps at random, each played with 1 to 4 workers: all write the same, and of the frames what one thread does.
About a third of the steps advance.

  $ mkdir random
  $ awk '
  >   function below(n) { x = x * 16807 % 2147483647; return int(x / 2147483647 * n) }
  >   function step(word, what, two) {
  >     word = below(3); what = below(16)
  >     if (what < 5) { frame++; return "L 1 " word "\nA" }
  >     if (what < 9) return "R 2 " next_frame++ " " word
  >     if (what == 9) { what = next_frame - below(3); return "R 2 " (what > 0 ? what : 0) " " word }
  >     if (what == 10) return "S"
  >     if (what < 14) { what = frame + below(5); two = below(3); return "G 2 " what " " word (two ? "," two : "") }
  >     if (what == 14) return "B " word
  >     what = below(20)
  >     return what == 0 ? "D 2" : what == 1 ? "L 2 " word : what == 2 ? "A" : "C"
  >   }
  >   BEGIN {
  >     header[0] = "roll 1 players 2 local 1 delay 0,0 threshold 8"
  >     header[1] = "roll 2 players 2 local 1 delay 2,0 mask 4294967295,1 threshold 5"
  >     header[2] = "roll 3 players 2 local 1 delay 0,0 mask 4294967295,4294967295 threshold 15"
  >     for (seed = 0; seed < 200; seed++) {
  >       x = seed * 7919 + 1; frame = next_frame = 0; file = "random/" seed
  >       print header[seed % 3] > file
  >       for (i = 0; i < 40; i++) print step() > file
  >       close(file)
  >     }
  >   }'
  $ ls random | wc -l
  200
  $ for seed in $(seq 0 199); do same random/$seed; cat played; done > frames
  $ grep -v '^frame ' frames
  [1]
  $ [ $(wc -l < frames) -gt 1000 ]

Each fault: status 2, its text on standard error, and nothing on standard output.

  $ printf 'A\nX\n' | two > out
  rollduel: unreadable: line 3
  [2]
  $ cat out
  $ rollduel live absent > out
  rollduel: cannot read
  [2]
  $ cat out
  $ mkdir folder
  $ rollduel live folder
  rollduel: cannot read
  [2]
  $ rollduel live $late > /dev/full
  rollduel: cannot write
  [2]
  $ rollduel live $late --game duel --workers 4 > /dev/full
  rollduel: cannot write
  [2]

Words that can't be understood, and help.

  $ rollduel live
  error: the following required arguments were not provided:
    <FILE>
  
  Usage: rollduel live <FILE>
  
  For more information, try '--help'.
  [2]
  $ rollduel live $late --workers 0
  error: invalid value '0' for '--workers <N>': 0 is not in 1..=4
  
  For more information, try '--help'.
  [2]
  $ rollduel live $late --workers 5 2>&1 | sed -n 1p
  error: invalid value '5' for '--workers <N>': 5 is not in 1..=4
  $ rollduel live $late --workers two 2>&1 | sed -n 1p
  error: invalid value 'two' for '--workers <N>': invalid digit found in string
  $ rollduel live $late --workers 1 --workers 2 2>&1 | sed -n 1p
  error: the argument '--workers <N>' cannot be used multiple times
  $ rollduel live $late --game chess 2>&1 | sed -n 1p
  error: invalid value 'chess' for '--game <GAME>'
  $ rollduel live $late --explain 2>&1 | sed -n 1p
  error: unexpected argument '--explain' found
  $ rollduel play $late --workers 2 2>&1 | sed -n 1p
  error: unexpected argument '--workers' found
  $ rollduel live $late --explain 2>/dev/null
  [2]
  $ rollduel live --help | sed -n 1p
  Plays a script on threads: a link, and workers that run guesses ahead

The example of the help is the file that it names, and prints what it says.

  $ rollduel live --help | sed -n '/^Example/,/^It prints/s/^  //p' | cmp - $late
  $ rollduel live --help | sed -n '/^It prints/,/^Exit status/s/^  //p' | cmp - told
