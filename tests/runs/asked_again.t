Memory that is refused: of each text so many allocations are refused in turn, and what is refused is asked for once more. `asked SCRIPT
COUNT` tells how these runs end, once the sed script has taken away what comes of a refusal and nothing else: whole; or up to where the
program itself, or a part that isn't asked for again, lacks memory. Where runs end whole it says if some of them were refused something.
Then come the last lines of the runs that ended well. The last run must make fewer allocations; it and those like it before aren't told.

  $ refused='/^refused 107/d'
  $ asked() {
  >     cat > asked; test_stage < asked > whole; sed "$1" whole > all
  >     for n in $(seq $2); do
  >         REFUSE_ALLOCATION=$n test_stage < asked > told
  >         status=$?
  >         sed "$1" told > rest
  >         if [ $status = 0 ] && cmp -s rest all; then way=whole; elif head -c $(wc -c < rest) all | cmp -s - rest; then way=front; else way=neither; fi
  >         echo "$status $way$(cmp -s told whole || [ $status != 0 ] || echo ' refused')/$([ $status != 0 ] || tail -n 1 told)"
  >     done | tac | awk -v untouched="0 whole/$(tail -n 1 whole)" '$0 != untouched { on = 1 } on' > ways
  >     cut -d / -f 1 ways | sort -u
  >     cut -d / -f 2 ways | grep . | sort -u
  >     cmp told whole
  > }
  $ late='L 1 1\nA\nL 1 1\nA\nR 2 0 3\nS\n'

A session, and one whose log was reserved: of 600 events none is refused afterwards.

  $ printf "game tally retry\nroll 1 players 2 local 1 delay 0,0 threshold 8\n${late}seen\nseen\n" | asked "$refused" 32
  0 whole
  0 whole refused
  3 front
  frame 2 settled 1 log 6 state 77 settled state 7 plan to 2 from 0 rerun 2
  $ asked "$refused" 27 <<END
  > game tally retry
  > roll 1 players 1 local 1 delay 0 threshold 8
  > reserve 600
  > frames 300 1
  > seen
  > END
  0 whole
  0 whole refused
  3 front
  frame 300 settled 300 log 600 state 111111 settled state 111111 plan to 300 from 299 rerun 1

A tree, and advice, which end where they lack memory. A duel: the call that is refused says so, is counted, and no other; a state that can't be
saved leaves the one before.

  $ asked "$refused" 7 <<END
  > tree 3
  > insert 0 1,3 71
  > cut 1 3 1
  > kept
  > longest 1,3
  > END
  3 front
  $ asked "$refused" 5 <<END
  > advice
  > note 1 -3 2
  > tell
  > END
  3 front
  $ asked 's/^refused 107/ok/; /^loads/d' 10 <<END
  > turns duel 2
  > row 8,8
  > counts
  > END
  0 whole refused
  3 front
  loads 0 saves 0 copies 1 turns 0 refusals 1
  loads 1 saves 0 copies 1 turns 0 refusals 1
  loads 1 saves 0 copies 1 turns 1 refusals 1
  loads 1 saves 1 copies 1 turns 1 refusals 1

A sync test hands back its game, which was asked for nothing, and its opening.

  $ asked '/^refused 107$/,/^opening 0$/d' 5 <<END
  > sync tally 2
  > step 1,3 2
  > counts
  > END
  0 whole refused
  3 front
  loads 2 saves 4 copies 0 turns 4 refusals 0

A feed and its spectator; a host and its link, by which a word comes that is held while the log can't grow; workers and a guess, whose branch is
dropped if the log can't grow.

  $ printf "game tally retry\nroll 1 players 2 local 1 delay 0,0 threshold 8\n${late}feed\nadd\npush\nstep 0\n" | asked "$refused" 32
  0 whole
  0 whole refused
  3 front
  frame 1 state 7
  $ asked "$refused; /^applied 0/d" 31 <<END
  > game tally retry
  > roll 1 players 2 local 1 delay 0,0 threshold 8
  > host
  > send 0 2 0 3
  > pump
  > pump
  > log
  > END
  0 whole
  0 whole refused
  3 front
  log 1; R 2 0 3
  $ asked "$refused; s/added 0 dropped 1/added 2 dropped 0/" 50 <<END
  > game tally retry
  > roll 1 players 2 local 1 delay 0,0 threshold 8
  > workers 1
  > host
  > speculate 2 2 3
  > work 0
  > absorb
  > END
  0 whole
  0 whole refused
  3 front
  taken 1 added 0 dropped 1 unmade 0
  taken 1 added 2 dropped 0 unmade 0

A list of ten calls of a host, made by one call: memory can run out for the second, a sync, for the fifth, a guess, and for the
seventh, a link. Those before it are done, and those after it are left.

  $ printf 'game tally\nroll 1 players 2 local 1 delay 0,0 threshold 8\nworkers 1\nhost\nround\n' > round
  $ test_stage < round > whole; tail -n 1 whole
  all done
  $ for n in $(seq 47); do REFUSE_ALLOCATION=$n test_stage < round > told; grep '^no memory' told; done | sort -u
  no memory, left 3
  no memory, left 5
  no memory, left 8
  $ cmp told whole
