The tally: ten times the sum, and for each player the player's number times the word, or 5 for one who has left, modulo a million.

  $ twice() { printf "turns tally\nrow $1\nstate\nback\nrow $1 2\nstate\ncounts\n" | test_stage | grep -v ok; }
  $ twice 1,0
  state 1
  state 11
  loads 2 saves 2 copies 2 turns 3 refusals 0
  $ twice 1,3
  state 7
  state 77
  loads 2 saves 2 copies 2 turns 3 refusals 0
  $ twice 1,x
  state 6
  state 66
  loads 2 saves 2 copies 2 turns 3 refusals 0
  $ twice 1,0,0,0,2
  state 11
  state 121
  loads 2 saves 2 copies 2 turns 3 refusals 0
  $ twice 4294967295
  state 967295
  state 640245
  loads 2 saves 2 copies 2 turns 3 refusals 0
  $ twice 4294967295,4294967295,4294967295,4294967295,4294967295,4294967295,4294967295,4294967295
  state 822620
  state 48820
  loads 2 saves 2 copies 2 turns 3 refusals 0

A tally of which one call is refused. In each of three rounds each of the four calls is made: those that are refused are named, then
how many of their kind there are up to the one that is refused. At the end the game inside was not asked for that one.

  $ for kind in load save copy advance; do echo "refusing $kind 0 3" | test_stage | uniq -c | tr -s ' '; done
   1 due 0
   1 loads 1 saves 1 copies 1 turns 1 refusals 0
   1 due 0
   1 loads 2 saves 2 copies 2 turns 2 refusals 0
   1 due 0
   3 loads 3 saves 3 copies 3 turns 3 refusals 0
   1 due 0
   1 loads 1 saves 1 copies 1 turns 1 refusals 0
   1 due 0
   1 loads 2 saves 2 copies 2 turns 2 refusals 0
   1 due 0
   3 loads 3 saves 3 copies 3 turns 3 refusals 0
   1 due 0
   1 loads 1 saves 1 copies 1 turns 1 refusals 0
   1 due 0
   1 loads 2 saves 2 copies 2 turns 2 refusals 0
   1 due 0
   3 loads 3 saves 3 copies 3 turns 3 refusals 0
   1 due 0
   1 loads 1 saves 1 copies 1 turns 1 refusals 0
   1 due 0
   1 loads 2 saves 2 copies 2 turns 2 refusals 0
   1 due 0
   3 loads 3 saves 3 copies 3 turns 3 refusals 0
  $ echo 'refusing load 1 3' | test_stage
  load refused, due 0
  loads 1 saves 1 copies 1 turns 1 refusals 1
  due 0
  loads 2 saves 2 copies 2 turns 2 refusals 1
  due 0
  loads 3 saves 3 copies 3 turns 3 refusals 1
  loads 2 saves 3 copies 3 turns 3 refusals 0
  loads 2 saves 3 copies 3 turns 3 refusals 0
  $ echo 'refusing save 1 3' | test_stage
  save refused, due 0
  loads 1 saves 1 copies 1 turns 1 refusals 1
  due 0
  loads 2 saves 2 copies 2 turns 2 refusals 1
  due 0
  loads 3 saves 3 copies 3 turns 3 refusals 1
  loads 3 saves 2 copies 3 turns 3 refusals 0
  loads 3 saves 2 copies 3 turns 3 refusals 0
  $ echo 'refusing copy 1 3' | test_stage
  copy refused, due 0
  loads 1 saves 1 copies 1 turns 1 refusals 1
  due 0
  loads 2 saves 2 copies 2 turns 2 refusals 1
  due 0
  loads 3 saves 3 copies 3 turns 3 refusals 1
  loads 3 saves 3 copies 2 turns 3 refusals 0
  loads 3 saves 3 copies 2 turns 3 refusals 0
  $ echo 'refusing advance 1 3' | test_stage
  advance refused, due 0
  loads 1 saves 1 copies 1 turns 1 refusals 1
  due 0
  loads 2 saves 2 copies 2 turns 2 refusals 1
  due 0
  loads 3 saves 3 copies 3 turns 3 refusals 1
  loads 3 saves 3 copies 3 turns 2 refusals 0
  loads 3 saves 3 copies 3 turns 2 refusals 0
  $ echo 'refusing load 2 3' | test_stage
  due 1
  loads 1 saves 1 copies 1 turns 1 refusals 0
  load refused, due 0
  loads 2 saves 2 copies 2 turns 2 refusals 1
  due 0
  loads 3 saves 3 copies 3 turns 3 refusals 1
  loads 2 saves 3 copies 3 turns 3 refusals 0
  loads 2 saves 3 copies 3 turns 3 refusals 0
  $ echo 'refusing save 2 3' | test_stage
  due 1
  loads 1 saves 1 copies 1 turns 1 refusals 0
  save refused, due 0
  loads 2 saves 2 copies 2 turns 2 refusals 1
  due 0
  loads 3 saves 3 copies 3 turns 3 refusals 1
  loads 3 saves 2 copies 3 turns 3 refusals 0
  loads 3 saves 2 copies 3 turns 3 refusals 0
  $ echo 'refusing copy 2 3' | test_stage
  due 1
  loads 1 saves 1 copies 1 turns 1 refusals 0
  copy refused, due 0
  loads 2 saves 2 copies 2 turns 2 refusals 1
  due 0
  loads 3 saves 3 copies 3 turns 3 refusals 1
  loads 3 saves 3 copies 2 turns 3 refusals 0
  loads 3 saves 3 copies 2 turns 3 refusals 0
  $ echo 'refusing advance 2 3' | test_stage
  due 1
  loads 1 saves 1 copies 1 turns 1 refusals 0
  advance refused, due 0
  loads 2 saves 2 copies 2 turns 2 refusals 1
  due 0
  loads 3 saves 3 copies 3 turns 3 refusals 1
  loads 3 saves 3 copies 3 turns 2 refusals 0
  loads 3 saves 3 copies 3 turns 2 refusals 0

The numbers of ships with which there is a duel.

  $ for ships in 0 1 2 3 4 5; do printf "turns duel $ships\nbullets\n" | test_stage; done
  refused 3
  refused 3
  bullets 0
  bullets 0
  bullets 0
  refused 3
