What pairs of advantages advise: how many frames the local side is ahead, and the event that says so.

  $ test_stage <<END
  > advice
  > tell
  > note 40 -6 6
  > tell
  > anew
  > note 40 -2 2
  > tell
  > anew
  > note 40 -30 30
  > tell
  > anew
  > note 1 -3 2
  > tell
  > anew
  > note 1 6 -6
  > tell
  > END
  ahead 0 no event
  ahead 6 event 1005 frames 6
  ahead 0 no event
  ahead 9 event 1005 frames 9
  ahead 3 event 1005 frames 3
  ahead 0 no event

A pair counts for as long as it is one of the last 40, and by at most 120 frames.

  $ test_stage <<END
  > advice
  > note 1 -120 120
  > note 40 -2 2
  > tell
  > anew
  > note 1 -2147483648 2147483647
  > tell
  > note 39 0 0
  > tell
  > END
  ahead 0 no event
  ahead 9 event 1005 frames 9
  ahead 3 event 1005 frames 3

A line that can't be read ends the answers.

  $ test_stage <<END
  > advice
  > tell
  > note 1 2147483648 0
  > tell
  > END
  ahead 0 no event
  unreadable: line 3
  [2]
