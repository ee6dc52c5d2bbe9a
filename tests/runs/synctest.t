Sync tests: each row of a file is answered, and the frames are run again so many at once.

  $ printf 'rolltest 1 players 2\n1,3\n1,3\n' > two
  $ rollduel synctest two
  verified 1
  verified 2
  $ rollduel synctest two --frames 1
  verified 1
  verified 2
  $ rollduel synctest two --frames 2
  run
  verified 2
  $ rollduel synctest --frames=3 two
  run
  run
  $ rollduel synctest - < two
  verified 1
  verified 2
  $ rollduel synctest - --frames 2 < two
  run
  verified 2
  $ rollduel synctest --frames 3 - < two
  run
  run

Each number of frames that a test takes, with eight rows: those with a multiple of it are answered by `verified`.

  $ { echo 'rolltest 1 players 1'; yes 7 | head -n 8; } > eight
  $ for n in 1 2 3 4 5 6 7 8; do rollduel synctest eight --frames $n | tr '\n' ' '; echo; done | sed 's/verified/v/g;s/ $//'
  v 1 v 2 v 3 v 4 v 5 v 6 v 7 v 8
  run v 2 run v 4 run v 6 run v 8
  run run v 3 run run v 6 run run
  run run run v 4 run run run v 8
  run run run run v 5 run run run
  run run run run run v 6 run run
  run run run run run run v 7 run
  run run run run run run run v 8

A file is read where one is named, and standard input isn't. One without rows is answered by nothing.

  $ echo nothing | rollduel synctest two
  verified 1
  verified 2
  $ echo 'rolltest 1 players 4' | rollduel synctest -
  $ rollduel synctest two 2>&1 >/dev/null

The game that is asked for is tested: there is a ship for each of 2 to 4 players, and none for one who is gone.

  $ rollduel synctest two --game duel
  verified 1
  verified 2
  $ rollduel synctest two --game tally --frames 2
  run
  verified 2
  $ rollduel synctest --game=duel --frames=2 - < two
  run
  verified 2
  $ printf 'rolltest 1 players 3\n1,3,5\n1,x,5\nx,x,5\n' > gone
  $ rollduel synctest gone --game duel --frames 3
  run
  run
  verified 3
  $ rollduel synctest gone
  verified 1
  verified 2
  verified 3
  $ printf 'rolltest 1 players 1\n1\n' > alone
  $ rollduel synctest alone
  verified 1
  $ rollduel synctest alone --game duel
  refused 3
  [1]
  $ rollduel synctest alone --game duel --frames 8
  refused 3
  [1]

A file that can't be read is a fault with its line, and nothing is answered.

  $ printf 'rolltest 1 players 5\n1,1,1,1,1\n' | rollduel synctest -
  rollduel: unreadable: line 1
  [2]
  $ printf 'rolltest 1 players 0\n' | rollduel synctest -
  rollduel: unreadable: line 1
  [2]
  $ printf 'rolltest 2 players 2\n1,3\n' | rollduel synctest -
  rollduel: unreadable: line 1
  [2]
  $ printf 'rolltest 1 players 2\n1,3\n1,3,5\n1,3\n' > three
  $ rollduel synctest three > out
  rollduel: unreadable: line 3
  [2]
  $ cat out
  $ rollduel synctest three --game duel
  rollduel: unreadable: line 3
  [2]
  $ rollduel synctest - < /dev/null
  rollduel: unreadable: line 1
  [2]
  $ printf 'rolltest 1 players 2\n1,3\n1,3' | rollduel synctest -
  rollduel: unreadable: line 3
  [2]
  $ printf 'rolltest 1 players 2' | rollduel synctest -
  rollduel: unreadable: line 1
  [2]
  $ rollduel synctest absent
  rollduel: cannot read
  [2]
  $ rollduel synctest two > /dev/full
  rollduel: cannot write
  [2]
  $ rollduel synctest alone --game duel > /dev/full
  rollduel: cannot write
  [2]

Words that can't be understood.

  $ rollduel synctest two --frames 0
  error: invalid value '0' for '--frames <N>': 0 is not in 1..=8
  
  For more information, try '--help'.
  [2]
  $ rollduel synctest two --frames 9
  error: invalid value '9' for '--frames <N>': 9 is not in 1..=8
  
  For more information, try '--help'.
  [2]
  $ rollduel synctest two --frames x 2>&1 | head -n 1
  error: invalid value 'x' for '--frames <N>': invalid digit found in string
  $ rollduel synctest two --frames x 2>/dev/null
  [2]
  $ rollduel synctest two --frames 1 --frames 2 2>&1 | head -n 1
  error: the argument '--frames <N>' cannot be used multiple times
  $ rollduel synctest two --game chess 2>&1 | head -n 1
  error: invalid value 'chess' for '--game <GAME>'
  $ rollduel synctest --frames 2 2>&1 | head -n 2
  error: the following required arguments were not provided:
    <FILE>
  $ rollduel play two --frames 1 2>&1 | head -n 1
  error: unexpected argument '--frames' found
