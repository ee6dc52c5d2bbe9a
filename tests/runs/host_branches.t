A host makes of its workers' branches what a session makes of the same branches. `two` opens a session of two players, of
whom the first is local; of every answer to `absorb` `added` says how many branches it took, how many states they added, and
how many were refused; and `kept` shows what is kept after each.

  $ header='roll 1 players 2 local 1 delay 0,0 threshold 8'
  $ two() { { echo "game tally"; echo "$header"; cat; } | test_stage; }
  $ rows() { seq -s / $1 | sed "s/[0-9]*\(\/\|$\)/$(echo $2 | sed 's/,/\\,/g')\1/g"; }
  $ zeros() { rows $1 0,0; }
  $ added() { sed -n 's/^taken \([0-9]*\) added \([0-9]*\) dropped \([0-9]*\) unmade 0$/\1 \2 \3/p' "$1"; }
  $ kept() { grep '^kept' "$1"; }

Branches made by hand, of a session that has run nothing: none is taken, and only the opening is kept, as in a session to
which they are grafted one by one.

  $ cat > branches <<END
  > 0 . 4 1,3
  > 0 . 100000 0,0
  > 1 . 0 0,0
  > 0 0 0 0,0
  > 0 0,0,0 0 0,0
  > 0 . 0 0,0,0
  > 0 . 0 0,0/0
  > 0 $(zeros 17) 0 $(zeros 8)
  > 0 $(zeros 16) 0 $(zeros 8)
  > 0 0,7 14 0,0
  > END
  $ { echo workers 1; sed 's/^/issue /' branches; echo host; sed 's/.*/work 0\nabsorb\nkept/' branches; } | two > hosted
  $ grep -c '^did' hosted
  10
  $ added hosted | sort | uniq -c | sed 's/^ *//'
  10 1 0 1
  $ kept hosted | sort | uniq -c | sed 's/^ *//'
  10 kept 1; 0 .
  $ sed 's/.*/graft &\nkept/' branches | two > grafted; kept hosted > a; kept grafted > b; diff a b

The same past a settled row: 11 branches are refused, two add nothing, and two a state each.

  $ cat > branches <<END
  > 2 . 11 1,5
  > 1 $(zeros 17) 0 $(zeros 8)
  > 0 . 7 5,5
  > 0 5,0 50 1,0
  > 0 . 0 5,0/1,0
  > 1 $(zeros 16) 0 $(zeros 8)
  > 0 1,0/1,7 99 1,0
  > 0 1,0/1,7 25 1,0
  > 0 . 4 1,0/1,5
  > 0 1,0 2 1,0
  > 1 1,0 1 2,5
  > 0 1,0 1 1,0
  > 0 . 0 1,0/1,0
  > 1 1,0 11 2,5
  > 0 . 100000 1,0/1,5
  > END
  $ settled_one='L 1 1\nA\nL 1 1\nA\nR 2 0 0\nS\n'
  $ { printf "${settled_one}workers 1\n"; sed 's/^/issue /' branches; echo host; sed 's/.*/work 0\nabsorb\nkept/' branches; } \
  > | two > hosted
  $ added hosted
  1 0 1
  1 0 1
  1 0 1
  1 0 1
  1 0 1
  1 0 1
  1 0 1
  1 0 1
  1 0 1
  1 0 1
  1 0 1
  1 0 0
  1 0 0
  1 1 0
  1 1 0
  $ { printf "$settled_one"; sed 's/.*/graft &\nkept/' branches; } | two > grafted; kept hosted > a; kept grafted > b; diff a b

A guess, made twice, whose word comes before its branches: nothing is added, and the second is late.

  $ four='L 1 1\nA\nL 1 1\nA\n'
  $ { printf "${four}workers 1\nhost\nspeculate 2 2 3\nspeculate 2 2 3\nkept\nsend 0 2 0 3\npump\nkept\nS\nkept\n"; \
  > printf "work 0\nabsorb\nkept\nsend 0 2 1 3\npump\nkept\nS\nkept\nwork 0\nabsorb\nkept\n"; } | two | tee hosted | tail -n +7 \
  > | grep -v kept
  ticket 0
  ticket 1
  sent
  applied 1 refused 0
  frame 2 from 0 rerun 2 settled 1 state 77 row 1,3
  did 0
  taken 1 added 0 dropped 0 unmade 0
  sent
  applied 1 refused 0
  frame 2 from 2 rerun 0 settled 2 state 77 row 1,3
  did 1
  taken 1 added 0 dropped 1 unmade 0
  $ { printf "${four}G 2 2 3\nG 2 2 3\nkept\nR 2 0 3\nkept\nS\nkept\nB 0\nkept\nR 2 1 3\nkept\nS\nkept\nB 1\nkept\n"; } | two \
  > | tee grafted | tail -n +5 | grep -v kept
  job 0 rows 2 path 0
  job 1 rows 2 path 0
  taken
  frame 2 from 0 rerun 2 settled 1 state 77 row 1,3
  added 0
  taken
  frame 2 from 2 rerun 0 settled 2 state 77 row 1,3
  refused 110
  $ kept hosted > a; kept grafted > b; diff a b

A guess, made twice, in whose place another word comes: 10 (1 + 2·5) + 1 + 2·5 = 121. The first adds nothing, and the second is
refused, since the settled row contradicts it.

  $ { printf "${four}workers 1\nhost\nspeculate 2 2 3\nspeculate 2 2 3\nkept\nsend 0 2 0 5\npump\nkept\nwork 0\nabsorb\nkept\n"; \
  > printf "S\nkept\nwork 0\nabsorb\nkept\n"; } | two | tee hosted | tail -n +9 | grep -v kept
  sent
  applied 1 refused 0
  did 0
  taken 1 added 0 dropped 0 unmade 0
  frame 2 from 0 rerun 2 settled 1 state 121 row 1,5
  did 1
  taken 1 added 0 dropped 1 unmade 0
  $ { printf "${four}G 2 2 3\nG 2 2 3\nkept\nR 2 0 5\nkept\nB 0\nkept\nS\nkept\nB 1\nkept\n"; } | two | tee grafted | tail -n +8 \
  > | grep -v kept
  taken
  added 0
  frame 2 from 0 rerun 2 settled 1 state 121 row 1,5
  refused 112
  $ kept hosted > a; kept grafted > b; diff a b

64 guesses can be out. The next one takes the place of the oldest that no worker has taken, here the second. Where the workers
have taken all 64 it finds no place, though the game made its copy.

  $ { printf "${four}workers 1\nhost\n"; for word in $(seq 64); do echo "speculate 2 2 $word"; done; \
  > printf 'work 0\nspeculate 2 2 65\nsettle\n'; } | two | tail -n 3
  did 0
  ticket 64
  issued 65 collected 0 withdrawn 1 late 0 left 2 3 4 5 6 7 8 9 10 11 12 13 14 15 16 17 18 19 20 21 22 23 24 25 26 27 28 29 30 31 32 33 34 35 36 37 38 39 40 41 42 43 44 45 46 47 48 49 50 51 52 53 54 55 56 57 58 59 60 61 62 63 64
  $ { printf "${four}workers 4\nhost\n"; for word in $(seq 64); do echo "speculate 2 2 $word"; done; \
  > for worker in 0 1 2 3; do for turn in $(seq 16); do echo "work $worker"; done; done; \
  > printf 'speculate 2 2 65\nabsorb\nspeculate 2 2 65\n'; } | two | tail -n 3 | sed 's/ added.*//'
  refused 119
  taken 64
  ticket 64

Branches may fill 240 kept states: 29 guesses add 8 states each and one more adds 7, so the next finds no place. Even then
the first frame can be played.

  $ {
  > printf 'workers 1\nhost\n'
  > for word in $(seq 29); do printf "speculate 2 8 $word\nwork 0\nabsorb\nkept\n"; done
  > printf 'speculate 2 7 30\nwork 0\nabsorb\nkept\nspeculate 2 1 31\nwork 0\nabsorb\nkept\nL 1 0\nA\n'
  > } | two > hosted
  $ added hosted | uniq -c | sed 's/^ *//'
  29 1 8 0
  1 1 7 0
  1 1 0 1
  $ kept hosted | tail -n 1 | cut -d ';' -f 1
  kept 240
  $ tail -n 2 hosted
  ok
  frame 1 from 0 rerun 1 settled 0 state 0
  $ {
  > for word in $(seq 29); do printf "G 2 8 $word\nB $((word - 1))\nkept\n"; done
  > printf 'G 2 7 30\nB 29\nkept\nG 2 1 31\nB 30\nkept\nL 1 0\nA\n'
  > } | two > grafted
  $ grep -E '^(added|refused)' grafted | uniq -c | sed 's/^ *//'
  29 added 8
  1 added 7
  1 refused 113
  $ kept hosted > a; kept grafted > b; diff a b; tail -n 2 grafted
  ok
  frame 1 from 0 rerun 1 settled 0 state 0

A host that is closed has closed its workers' pool: no worker takes the job, which one of them takes if it isn't closed.

  $ told() { printf "workers 2\nissue 0 . 4 1,3\nhost\n${1}work 0\nwork 1\n" | two | tail -n 2; }
  $ told 'close\n'
  closed
  closed
  $ told ''
  did 0
  empty
