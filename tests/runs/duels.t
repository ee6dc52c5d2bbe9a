Duels by values from outside. States as bytes: the opening, and a frame in which ship 1 fires.

  $ printf 'turns duel 2\nbytes\nrow 8,0\nbytes\n' | test_stage
  2 0 0 0 80 0 0 0 60 0 0 0 0 0 0 0 0 0 0 0 240 0 0 0 180 0 0 0 0 0 4 0 0 0
  ok
  2 1 0 0 80 0 0 0 60 0 0 0 0 0 0 8 0 0 0 0 240 0 0 0 180 0 0 0 0 0 4 0 0 0 1 59 0 0 82 0 0 0 60 0 2 0 0 0

What each word makes of ship 1: its place, speed, heading, the frames until it fires again, and its hits. A player who isn't there has the
word 0. `ships` reads the bytes of a state: two for
the numbers of ships and bullets, then sixteen for each ship, numbers with the greatest byte first.

  $ ships() {
  >     awk 'function signed(n) { return n > 32767 ? n - 65536 : n }
  >     NF > 30 {
  >         for (ship = 0; ship < $1; ship++) {
  >             at = 3 + 16 * ship
  >             x = ($at * 256 + $(at + 1)) * 65536 + $(at + 2) * 256 + $(at + 3)
  >             y = ($(at + 4) * 256 + $(at + 5)) * 65536 + $(at + 6) * 256 + $(at + 7)
  >             vx = signed($(at + 8) * 256 + $(at + 9)); vy = signed($(at + 10) * 256 + $(at + 11))
  >             printf "ship %d,%d,%d,%d,%d,%d,%d\n", x, y, vx, vy, $(at + 12), $(at + 13), $(at + 14) * 256 + $(at + 15)
  >         }
  >     }'
  > }
  $ for word in 0 1 2 4 6 8 240; do
  >     printf "turns duel 2\nsame $word,0 $word\n" | test_stage
  >     printf "turns duel 2\nrow $word,0\nbytes\n" | test_stage | ships | head -n 1
  > done
  same
  ship 20480,15360,0,0,0,0,0
  same
  ship 20496,15360,16,0,0,0,0
  same
  ship 20480,15360,0,0,7,0,0
  same
  ship 20480,15360,0,0,1,0,0
  same
  ship 20480,15360,0,0,0,0,0
  same
  ship 20480,15360,0,0,0,8,0
  same
  ship 20480,15360,0,0,0,0,0

A player who has left does nothing. A ship goes on faster while it is pushed.

  $ printf 'turns duel 2\nrow x,0\nbytes\n' | test_stage | ships
  ship 20480,15360,0,0,0,0,0
  ship 61440,46080,0,0,4,0,0
  $ printf 'turns duel 2\nrow 1,0\nrow 1,0\nbytes\n' | test_stage | ships
  ship 20528,15360,32,0,0,0,0
  ship 61440,46080,0,0,4,0,0

A ship fires in every eighth frame.

  $ { echo turns duel 2; yes "$(printf 'row 8,0\nbullets')" | head -n 34; echo counts; } | test_stage | grep -v ok | uniq -c | tr -s ' '
   8 bullets 1
   8 bullets 2
   1 bullets 3
   1 loads 17 saves 17 copies 17 turns 17 refusals 0

Six hundred frames with words at random, as another program plays them.

  $ printf 'turns duel 4\nrandom 600\n' | test_stage
  digest 3534760392002540995
  bullets 24
