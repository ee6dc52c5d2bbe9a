The program where the system refuses it a read, a write, memory or a thread. `late` is played, whose output has 206 bytes.

  $ printf 'roll 1 players 2 local 1 delay 0,0 threshold 8\nL 1 1\nA\nL 1 1\nA\nR 2 0 3\nS\nC\n' > late
  $ refusing() { LD_PRELOAD=$REFUSE "$@"; }
  $ rollduel play late > whole; cat whole
  ok
  frame 1 from 0 rerun 1 settled 0 state 1
  ok
  frame 2 from 1 rerun 1 settled 0 state 11
  taken
  frame 2 from 0 rerun 2 settled 1 state 77
  rollcert 1
  players 2
  base 0
  from 0
  time 2
  1,3
  1,3
  kept 1
  -
  differs 0

Each read fails in turn: nothing is written. The text has 75 bytes, so that in pieces of 50 there are two reads and one that
finds the end. A fault of a call that was interrupted is one too.

  $ for n in 1 2 3; do MOST_READ=50 REFUSE_READ=$n refusing rollduel play late; echo "status $?"; done
  rollduel: cannot read
  status 2
  rollduel: cannot read
  status 2
  rollduel: cannot read
  status 2
  $ MOST_READ=50 REFUSE_READ=2 REFUSE_ERROR=4 refusing rollduel play late
  rollduel: cannot read
  [2]
  $ MOST_READ=1 refusing rollduel play late | cmp - whole

Each write fails in turn, or takes nothing: what was written before stands.

  $ for n in 1 2 3; do MOST_WRITTEN=100 REFUSE_WRITE=$n refusing rollduel play late > part; echo "status $?"; head -c $((100 * (n - 1))) whole | cmp - part; done
  rollduel: cannot write
  status 2
  rollduel: cannot write
  status 2
  rollduel: cannot write
  status 2
  $ for n in 1 2 3; do MOST_WRITTEN=100 REFUSE_TAKING=$n refusing rollduel play late > part; echo "status $?"; head -c $((100 * (n - 1))) whole | cmp - part; done
  rollduel: cannot write
  status 2
  rollduel: cannot write
  status 2
  rollduel: cannot write
  status 2
  $ MOST_WRITTEN=1 refusing rollduel play late | cmp - whole

Each allocation is refused in turn: the whole output is written, or nothing of it and why. `ends` tells how runs end.

  $ ends() { for n in $(seq 100); do REFUSE_ALLOCATION=$n refusing rollduel play late > told 2> why; echo "$? $(cmp -s told whole && echo whole; test -s told || echo nothing) $(cat why)"; done | sort -u; }
  $ ends
  0 whole 
  2 nothing rollduel: out of memory

With notes too: what is told may break off, and then the last line says so.

  $ printf 'roll 1 players 2 local 1 delay 0,0 threshold 8\nA\nS\nA\n' > twice
  $ REFUSE_COUNTS=counts refusing rollduel play twice --explain > whole_twice 2> /dev/null
  [1]
  $ explains() { for n in $(seq $(cut -d ' ' -f 2 counts)); do REFUSE_ALLOCATION=$n refusing rollduel play twice --explain > told 2> why; echo "$? $(cmp -s told whole_twice && echo whole; test -s told || echo nothing) $(tr '\n' ';' < why)"; done | sort -u; }
  $ explains
  1 whole line 2: refused 101: LocalInputMissing: a local input is missing;line 4: refused 101: LocalInputMissing: a local input is missing;
  1 whole line 2: refused 101: LocalInputMissing: a local input is missing;rollduel: no memory for more notes;
  1 whole rollduel: no memory for more notes;
  2 nothing rollduel: out of memory;

A worker's thread that can't be started: nothing is written, and the threads that were started are waited for.

  $ for n in 1 2 3 4; do REFUSE_THREAD=$n REFUSE_COUNTS=counts refusing rollduel live late --workers 4; echo "status $?"; cut -d ' ' -f 7- counts; done
  rollduel: out of memory
  status 2
  threads 1 started 0 joined 0
  rollduel: out of memory
  status 2
  threads 2 started 1 joined 1
  rollduel: out of memory
  status 2
  threads 3 started 2 joined 2
  rollduel: out of memory
  status 2
  threads 4 started 3 joined 3
