The program: its words, its streams, its exit status, and what it says on standard error.

  $ cat > late <<END
  > roll 1 players 2 local 1 delay 0,0 threshold 8
  > L 1 1
  > A
  > L 1 1
  > A
  > R 2 0 3
  > S
  > END
  $ cat > told <<END
  > ok
  > frame 1 from 0 rerun 1 settled 0 state 1
  > ok
  > frame 2 from 1 rerun 1 settled 0 state 11
  > taken
  > frame 2 from 0 rerun 2 settled 1 state 77
  > END

A script: from a file, from standard input by `-`, and from standard input without words. What it says goes to standard
output alone.

  $ rollduel play late | cmp - told
  $ rollduel play - < late | cmp - told
  $ rollduel < late | cmp - told
  $ rollduel play late --game tally | cmp - told
  $ rollduel play --game=tally - < late | cmp - told
  $ rollduel play late 2>&1 >/dev/null

A file is read where one is named, and standard input isn't.

  $ echo nothing | rollduel play late | cmp - told
  $ mkdir folder
  $ cp late folder/-
  $ rollduel play folder/- | cmp - told
  $ rollduel play - < /dev/null
  rollduel: unreadable: line 1
  [2]

The game that is asked for is played, from a file and from standard input.

  $ printf 'roll 1 players 2 local 1 delay 0,0 threshold 8\nL 1 1\nA\n' > turn
  $ cat > turned <<END
  > ok
  > frame 1 from 0 rerun 1 settled 0 state 20496,15360,16,0,0,0,0 61440,46080,0,0,4,0,0 b0
  > END
  $ rollduel play turn --game duel | cmp - turned
  $ rollduel play --game=duel - < turn | cmp - turned
  $ rollduel play turn
  ok
  frame 1 from 0 rerun 1 settled 0 state 1

A claim, from a file and from standard input: right, wrong, and not to be read.

  $ printf 'rollcert 1\nplayers 2\nbase 2\nfrom 2\ntime 1\n1,3\nkept 2\n-\n1,0\ndiffers ' > ahead
  $ { cat ahead; printf '1\n1 2 2\n'; } > right
  $ { cat ahead; printf '0\n'; } > wrong
  $ rollduel certify right
  yes: from 2 to 3 rerun 1
  $ rollduel certify - < right
  yes: from 2 to 3 rerun 1
  $ rollduel certify wrong
  no: missing 1
  [1]
  $ rollduel certify - < wrong
  no: missing 1
  [1]
  $ echo nothing | rollduel certify right
  yes: from 2 to 3 rerun 1
  $ rollduel certify wrong 2>&1 >/dev/null
  [1]
  $ rollduel certify ahead
  rollduel: unreadable: line 10
  [2]
  $ rollduel certify late
  rollduel: unreadable: line 1
  [2]

Status 1 where a reply is a refusal, however many there are.

  $ printf 'roll 1 players 2 local 1 delay 0,0 threshold 8\nA\n' > early
  $ rollduel play early
  refused 101
  [1]
  $ rollduel play early --game duel
  refused 101
  [1]
  $ { cat early; yes A | head -n 255; } > earlier
  $ rollduel play earlier | sort | uniq -c | tr -s ' '
   256 refused 101
  $ rollduel play earlier > /dev/null
  [1]

Each fault: status 2, its text on standard error, and nothing on standard output.

  $ rollduel play - < /dev/null > out
  rollduel: unreadable: line 1
  [2]
  $ cat out
  $ rollduel play absent > out
  rollduel: cannot read
  [2]
  $ cat out
  $ rollduel certify absent
  rollduel: cannot read
  [2]
  $ rollduel play folder
  rollduel: cannot read
  [2]
  $ rollduel play late > /dev/full
  rollduel: cannot write
  [2]
  $ rollduel play late --game duel > /dev/full
  rollduel: cannot write
  [2]
  $ rollduel certify right > /dev/full
  rollduel: cannot write
  [2]
  $ rollduel certify wrong > /dev/full
  rollduel: cannot write
  [2]
  $ rollduel --help > /dev/full
  rollduel: cannot write
  [2]
  $ { cat early; yes A | head -n 400000; } > long
  $ (ulimit -v 10000; rollduel play long)
  rollduel: out of memory
  [2]
  $ { cat early; yes A | head -n 600000; } | rollduel
  rollduel: unreadable: line 0
  [2]

What is wrong with a line is told behind the fault, where it is asked for.

  $ opening='roll 1 players 2 local 1 delay 0,0 threshold 8\n'
  $ printf "$opening"'L 1 1\nX 1\n' > wrong_line
  $ rollduel play wrong_line --explain
  rollduel: unreadable: line 3
  line 3: "X" is no command
  [2]
  $ rollduel play --explain - < /dev/null
  rollduel: unreadable: line 1
  line 1: is missing: the text ends before it
  [2]
  $ line() { printf "$opening$1" | rollduel play --explain - 2>&1 | tail -n 1; }
  $ line 'L 1 1\r\n'
  line 2: ends with CR LF; LF was expected
  $ line 'A'
  line 2: the last line has no LF at its end
  $ line '\n'
  line 2: is empty
  $ line 'L 1 1 \n'
  line 2: a space too many at column 6
  $ line ' L 1 1\n'
  line 2: a space too many at column 1
  $ line 'L  1 1\n'
  line 2: a space too many at column 3
  $ line 'l 1 1\n'
  line 2: "l" is no command
  $ line 'L\t1\t1\n'
  line 2: "L\x091\x091" is no command
  $ line 'L 1\n'
  line 2: 2 fields; 3 were expected
  $ line 'A 1 2 3 4 5\n'
  line 2: 6 fields; 1 were expected
  $ line 'L 1 03\n'
  line 2: "03" isn't a number: a leading zero
  $ line 'L 1 -1\n'
  line 2: "-1" isn't a number: not digits alone
  $ line 'L 1 4294967296\n'
  line 2: "4294967296" isn't a number: over 4,294,967,295
  $ line 'L 1 00000000000000000000000000000000000000000\n'
  line 2: "0000000000000000000000000000000000000000.." isn't a number: a leading zero
  $ line 'G 2 2 1,,2\n'
  line 2: "" isn't a number: it is empty
  $ line 'G 2 2 1,1,1,1,1,1,1,1,1,1,1,1,1,1,1,1,1,1,1,1,1,1,1,1,1\n'
  line 2: 25 in a list; 1 to 24 were expected
  $ first() { printf "$1\n" | rollduel play --explain - 2>&1 | tail -n 1; }
  $ first 'L 1 1'
  line 1: "L" where "roll" was expected
  $ first 'roll 4 players 2 local 1 delay 0,0 threshold 8'
  line 1: 4 is out of range: 1 to 3 was expected
  $ first 'roll 1 players 9 local 1 delay 0,0 threshold 8'
  line 1: 9 is out of range: 1 to 8 was expected
  $ first 'roll 1 players 2 local 1 delay 0 threshold 8'
  line 1: 1 in a list; 2 were expected
  $ first 'roll 1 players 2 local 2,1 delay 0,0 threshold 8'
  line 1: 1 after 2 in a list that has to rise
  $ first 'roll 1 players 2 local 1 delay 0,0'
  line 1: 8 fields; 10 were expected
  $ first 'roll 2 players 2 local 1 delay 0,0 threshold 8'
  line 1: "threshold" where "mask" was expected
  $ rows() { printf "$1" | rollduel synctest --explain - 2>&1 | tail -n 1; }
  $ rows 'rolltest 1 players 5\n'
  line 1: 5 is out of range: 1 to 4 was expected
  $ rows 'rolltest 1 players 2\n1,x\n1\n'
  line 3: 1 in a list; 2 were expected
  $ rows 'rolltest 1 players 2\n1,y\n'
  line 2: "y" isn't a number: not digits alone
  $ claim() { rollduel certify --explain - 2>&1 | tail -n 1; }
  $ claim < ahead
  line 10: the last line has no LF at its end
  $ claim < late
  line 1: "roll" where "rollcert" was expected
  $ { cat ahead; printf '1\n'; } | claim
  line 11: is missing: the text ends before it
  $ { cat ahead; printf '1\n1 2\n'; } | claim
  line 11: 2 fields; 3 were expected
  $ { cat right; echo 1 2 2; } | claim
  line 12: the claim ends before this line
  $ sed 's/^time 1/time 25/' right | claim
  line 5: 25 is out of range: 0 to 24 was expected
  $ sed 's/^1,3/1/' right | claim
  line 6: 1 in a list; 2 were expected
  $ sed 's/^1,0/1,0 1/' right | claim
  line 9: 1 in a list; 2 were expected
  $ sed 's/^kept/keep/' right | claim
  line 7: "keep" where "kept" was expected
  $ rollduel play absent --explain
  rollduel: cannot read
  absent: No such file or directory (os error 2)
  [2]
  $ rollduel play folder --explain
  rollduel: cannot read
  folder: a read failed
  [2]
  $ rollduel play "$(printf 'red\033[31m\nname')" --explain
  rollduel: cannot read
  red\u{1b}[31m\nname: No such file or directory (os error 2)
  [2]
  $ rollduel play long --explain 2>&1 | head -n 2
  refused 101
  refused 101
  $ { cat early; yes A | head -n 600000; } | rollduel play --explain -
  rollduel: unreadable: line 0
  more than 1,048,576 bytes
  [2]

And so is what a refusal means, by its line.

  $ rollduel play early --explain
  refused 101
  line 2: refused 101: LocalInputMissing: a local input is missing
  [1]
  $ { cat late; printf 'R 2 0 4\nC\nB 5\n'; } | rollduel play --explain - 2>&1 >/dev/null
  line 8: refused 104: Conflict: the input conflicts with a confirmed one
  line 10: refused 120: NoJob: no such job
  [1]
  $ printf 'roll 1 players 2 local 1 delay 0,0 threshold 9\nA\n' | rollduel play --explain -
  refused 11
  line 1: refused 11: InvalidRequest: invalid request
  [1]
  $ printf 'roll 1 players 5 local 1 delay 0,0,0,0,0 threshold 8\n' | rollduel play --explain -
  refused 3
  line 1: refused 3: PlayerOutOfRange: the number of players is out of range
  line 1: 5 players need `roll 3`; `roll 1` and `roll 2` take 4 at most
  [1]
  $ printf 'roll 1 players 1 local 1 delay 0 threshold 8\n' | rollduel play --explain - --game duel
  refused 3
  line 1: refused 3: PlayerOutOfRange: the number of players is out of range
  [1]
  $ printf 'rolltest 1 players 1\n1\n' | rollduel synctest --explain - --game duel
  refused 3
  line 1: refused 3: PlayerOutOfRange: the number of players is out of range
  [1]

All else is the same as without: standard output, the status, and the first line on standard error.

  $ same() { rollduel "$@" > out 2> err; echo $? >> out; rollduel "$@" --explain > out2 2> err2; echo $? >> out2; cmp out out2; head -n 1 err | cmp - err; test ! -s err || head -n 1 err2 | cmp - err; }
  $ for file in late early earlier wrong_line absent folder; do same play $file; same play $file --game duel; done
  $ for file in right wrong ahead late absent; do same certify $file; done
  $ same synctest ../examples/two-frames.rows
  $ same synctest late

The version, and the numbers of the refusals as the rules have them.

  $ rollduel --version
  rollduel 0.3.0
  $ rollduel --help | sed -n 's/^  \([0-9][0-9]*\) *\([A-Za-z]*\): /\1 \2 /p' > listed
  $ wc -l < listed
  25
  $ rollduel play --help | sed -n 's/^  \([0-9][0-9]*\) *\([A-Za-z]*\): /\1 \2 /p' | cmp - listed
  $ sed -n 's/^| \([0-9]*\) | \([A-Za-z]*\) | \(.*\) |$/\1 \2 \3/p' ../docs/RULES.md | grep -v ' Unreadable ' | cmp - listed

Words that can't be understood, and help.

  $ rollduel play
  error: the following required arguments were not provided:
    <FILE>
  
  Usage: rollduel play <FILE>
  
  For more information, try '--help'.
  [2]
  $ rollduel certify
  error: the following required arguments were not provided:
    <FILE>
  
  Usage: rollduel certify <FILE>
  
  For more information, try '--help'.
  [2]
  $ rollduel play late --game chess
  error: invalid value 'chess' for '--game <GAME>'
    [possible values: tally, duel]
  
  For more information, try '--help'.
  [2]
  $ rollduel play late late 2>&1 | head -n 1
  error: unexpected argument 'late' found
  $ rollduel certify right --game duel 2>&1 | head -n 1
  error: unexpected argument '--game' found
  $ rollduel late 2>&1 | head -n 1
  error: unrecognized subcommand 'late'
  $ rollduel late 2>/dev/null
  [2]
  $ rollduel play $(printf 'a\377')
  rollduel: cannot read
  [2]
  $ for words in --help 'play --help' 'live --help' 'synctest --help' 'certify --help'; do rollduel $words > help || echo "status $?"; head -n 1 help; done
  Plays scripts of rollback sessions, tests games, and checks the claims of rollbacks.
  Plays a script, and prints what the session answers to each line
  Plays a script on threads: a link, and workers that run guesses ahead
  Tests whether a game comes out the same twice, and prints what is found at each row
  Checks the claim of a rollback, and prints whether it is right
  $ rollduel --help 2>&1 >/dev/null

The help of a script tells of each command, and that of a claim of each answer.

  $ for words in --help 'play --help'; do rollduel $words | grep -cE '^  (L p w|R p f w|D p|S|A|G p until w,\.\.|B j|C) '; done
  8
  8
  $ rollduel certify --help | grep -cE '^  (from not kept|range J|equal J|twice J|missing I) '
  5

The examples of the help are the files that it names, and print what it says.

  $ shown() { rollduel "$1" --help | sed -n "/^Example/,/^It prints/s/^  //p"; }
  $ printed() { rollduel "$1" --help | sed -n "/^It prints/,/^Exit status/s/^  //p"; }
  $ shown play > example; printed play > want
  $ wc -l < example
  7
  $ cmp example ../examples/late-input.roll
  $ rollduel play example | cmp - want
  $ shown certify > example; printed certify > want
  $ wc -l < example
  11
  $ cmp example ../examples/branch-ahead.claim
  $ rollduel certify example | cmp - want
  $ shown synctest > example; printed synctest > want
  $ wc -l < example
  3
  $ cmp example ../examples/two-frames.rows
  $ rollduel synctest example | cmp - want
