Three players, of whom the third leaves: the peers of the two others, who both give the same words.

The first had heard two words of the third, each 7: 10 (1 + 2·2 + 3·7) + 1 + 2·2 + 3·7 = 286.

  $ rollduel play ../examples/leaves-a.roll | tail -2
  gone 3
  frame 2 from 0 rerun 2 settled 2 state 286

The second had heard the first of them alone, and counts 5 for a player who is gone: 10 (1 + 2·2 + 3·7) + 1 + 2·2 + 5 = 270.
Both are settled, and differ.

  $ rollduel play ../examples/leaves-b.roll | tail -2
  gone 3
  frame 2 from 0 rerun 2 settled 2 state 270

Where the first hands on the word that the second lacks before the player is taken to be gone, they agree.

  $ sed 's/^D 3$/R 3 1 7\nD 3/' ../examples/leaves-b.roll > healed
  $ rollduel play healed | tail -3
  taken
  gone 3
  frame 2 from 0 rerun 2 settled 2 state 286

A word more, once the player is gone, is refused.

  $ { cat ../examples/leaves-b.roll; echo 'R 3 1 7'; } > late
  $ rollduel play late | tail -1
  refused 9
