The greatest texts: a script of 1,048,576 bytes, each of whose replies is a refusal, and one byte more. Of its output, six
megabytes, a million bytes are taken at a time, and the fifth write fails.

  $ { echo 'roll 1 players 2 local 1 delay 0,0 threshold 8'; echo L 2 10; yes A | head -n 524261; } > greatest
  $ wc -c < greatest
  1048576
  $ rollduel play greatest > out
  [1]
  $ sort out | uniq -c | tr -s ' '
   524261 refused 101
   1 refused 2
  $ MOST_WRITTEN=1000000 LD_PRELOAD=$REFUSE rollduel play greatest | cmp - out
  $ MOST_WRITTEN=1000000 REFUSE_WRITE=5 LD_PRELOAD=$REFUSE rollduel play greatest > front
  rollduel: cannot write
  [2]
  $ head -c 4000000 out | cmp - front
  $ { echo 'roll 1 players 2 local 1 delay 0,0 threshold 8'; echo L 2 100; yes A | head -n 524261; } > longer
  $ wc -c < longer
  1048577
  $ rollduel play longer
  rollduel: unreadable: line 0
  [2]

A claim with 256 paths, of which 255 have 24 rows, and as many entries; and one entry less.

  $ widest() {
  >     echo 'rollcert 1'; echo 'players 2'; echo 'base 0'; echo 'from 0'
  >     echo 'time 24'; yes 1,3 | head -n 24
  >     echo 'kept 256'; echo -
  >     rows=$(yes 1,3 | head -n 23 | tr '\n' ' ')
  >     seq -f "${rows}1,%g" 4 258
  >     echo "differs $1"; seq -f '%g 23 2' 255 | head -n $1
  > }
  $ widest 255 | rollduel certify -
  yes: from 0 to 24 rerun 24
  $ widest 254 | rollduel certify -
  no: missing 255
  [1]

Eight players, of whom each gives a word, and a duel of four.

  $ rollduel play - <<END
  > roll 3 players 8 local 1,2,3,4,5,6,7,8 delay 0,0,0,0,0,0,0,8 mask 0,0,0,0,0,0,0,0 threshold 15
  > L 1 1
  > L 2 1
  > L 3 1
  > L 4 1
  > L 5 1
  > L 6 1
  > L 7 1
  > L 8 1
  > A
  > END
  ok
  ok
  ok
  ok
  ok
  ok
  ok
  ok
  frame 1 from 0 rerun 1 settled 1 state 28
  $ printf 'roll 1 players 4 local 1 delay 0,0,0,0 threshold 8\nS\n' | rollduel play - --game duel
  frame 0 from 0 rerun 0 settled 0 state 20480,15360,0,0,0,0,0 61440,46080,0,0,4,0,0 61440,15360,0,0,4,0,0 20480,46080,0,0,0,0,0 b0

Duels are for two to four players.

  $ echo 'roll 3 players 5 local 1 delay 0,0,0,0,0 mask 0,0,0,0,0 threshold 8' | rollduel play --game duel -
  refused 3
  [1]

Seventy thousand refusals are counted.

  $ { echo 'roll 1 players 2 local 1 delay 0,0 threshold 8'; yes A | head -n 70000; } | rollduel play - > out
  [1]
  $ uniq -c out | tr -s ' '
   70000 refused 101

Of a text that is too long, one byte more than the greatest is taken from standard input.

  $ { yes | head -c 1048579; } > beyond
  $ { rollduel play -; wc -c; } < beyond
  rollduel: unreadable: line 0
  2
