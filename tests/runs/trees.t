A tree alone. The empty path is the first that it keeps.

  $ test_stage <<END
  > tree 0
  > insert 0 1,3 7
  > len
  > kept
  > state 0
  > state 1
  > longest 1,3/1,3
  > longest 1,0
  > insert 0 1,3 8
  > insert 5 1,3 8
  > END
  node 1
  len 2
  .
  1,3
  state 0
  state 7
  node 1 1
  node 0 0
  no
  no

A planner over it: it starts from the path that is the timeline's, and has no claim before its plan, nor when that is forgotten.

  $ echo 'plan 1,3 1,3' | test_stage
  refused 117
  to 1
  from 1
  rerun 0
  rollcert 1
  players 2
  base 0
  from 1
  time 1
  1,3
  kept 2
  -
  1,3
  differs 0
  refused 117

It passes over a path that differs, and names the place.

  $ echo 'plan 1,0 1,3' | test_stage
  refused 117
  to 1
  from 0
  rerun 1
  differs 1 0 2
  rollcert 1
  players 2
  base 0
  from 0
  time 1
  1,3
  kept 2
  -
  1,0
  differs 1
  1 0 2
  refused 117

Where paths differ from the timeline: the marks follow the changes of one player's cells.

  $ test_stage <<END
  > tree 0
  > insert 0 1,0 1
  > insert 1 1,0 2
  > insert 0 1,3 3
  > time
  > mark 2 0 1,0/1,0
  > time
  > deepest 2
  > mark 2 0 1,3/1,3
  > deepest 2
  > first_mark 2
  > first_mark 3
  > mark 2 1 1,3/1,0
  > deepest 2
  > first_mark 2
  > first_mark 3
  > END
  node 1
  node 2
  node 3
  .
  ok
  1,0/1,0
  node 2 2
  ok
  node 3 1
  differs 0 2
  none
  ok
  node 3 1
  differs 0 2
  none

Rows that can't be the timeline's: another player's cells change, or an earlier frame's, or rows are missing, or there are 25.

  $ many=$(yes 1,0 | head -n 24 | tr '\n' '/')
  $ test_stage <<END
  > tree 0
  > mark 2 0 1,0/1,0
  > mark 2 0 2,0/1,0
  > mark 2 1 1,3/1,0
  > mark 2 0 1,0
  > mark 2 0 1,0,0/1,0
  > time
  > deepest 3
  > first_mark 1
  > mark 2 2 ${many}1,0
  > END
  ok
  no
  no
  no
  no
  1,0/1,0
  no
  no
  unreadable: line 10
  [2]

States are cut off by a confirmed word and when a player leaves, and a settled state is the new root.

  $ test_stage <<END
  > tree 5
  > insert 0 1,0 1
  > insert 1 1,3 2
  > insert 0 1,3 3
  > insert 3 1,x 4
  > cut 2 4 0
  > cut 2 6 x
  > kept
  > cut 2 5 3
  > kept
  > tell 1,3
  > tell 1,x
  > deepest 7
  > settle 9
  > settle 3
  > base
  > time
  > kept
  > END
  node 1
  node 2
  node 3
  node 4
  no
  len 4
  .
  1,0
  1,3
  1,3/1,x
  len 3
  .
  1,3
  1,3/1,x
  ok
  ok
  node 4 7
  no
  len 2
  base 6
  1,x
  .
  1,x

A tree keeps 256 states, the root among them. It hands back the one that is too many.

  $ test_stage <<END
  > tree 0
  > fill 255
  > len
  > insert 0 0,0 7
  > len
  > END
  node 255
  len 256
  refused 113 7
  len 256
