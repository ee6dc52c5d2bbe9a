How refusals are told, with their codes; then faults.

  $ echo messages | test_stage
  2 InvalidPlayer: no such player, or not this kind of player
  3 PlayerOutOfRange: the number of players is out of range
  4 PredictionThreshold: the prediction threshold is reached
  9 PlayerDisconnected: the player is disconnected
  10 TooManySpectators: too many spectators
  11 InvalidRequest: invalid request
  101 LocalInputMissing: a local input is missing
  102 InputTwice: the input was given already
  103 Gap: an earlier input is missing
  104 Conflict: the input conflicts with a confirmed one
  105 QueueFull: the input queue is full
  106 FrameLimit: the frame limit is reached
  107 NoMemory: out of memory
  108 Stranger: the branch is not of this session
  109 TooFar: the branch goes too far
  110 Late: the branch comes too late
  111 Orphan: no kept state carries the branch
  112 Dead: the branch contradicts a confirmed input
  113 TreeFull: the tree is full
  114 LogFull: the log is full
  115 QueueRefused: the job queue did not take the job
  116 Stopped: the session is stopped
  117 NoPlan: there is no plan
  118 Unreadable(4294967295): unreadable: line 4294967295
  119 Full: no place is free
  120 NoJob: no such job
  SettingsFault Players: the number of players is out of range
  SettingsFault NoLocalPlayer: no player is local
  SettingsFault LocalPlayerOutside { player: 3 }: local player 3 is not one of the players
  SettingsFault LongDelay { player: 1 }: the delay of player 1 is too long
  SettingsFault DelayOfRemotePlayer { player: 2 }: player 2 is not local and has a delay
  SettingsFault Threshold: the prediction threshold is out of range
  SettingsFault FrameLimit: the frame limit is out of range
  SettingsFault LogLimit: the log limit is out of range
  SettingsFault NoPlayer { player: 9 }: there is no player 9
  NoMemory: out of memory
  ReadFault TooLong: the text is too long
  ReadFault NoMemory: out of memory
  ReadFault Read: cannot read
  WriteFault: cannot write
