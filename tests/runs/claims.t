Claims that are certified.

  $ certify() { printf "$1" | rollduel certify -; }

Right ones: a roll that ran its frames, one for five players, and one that ran none.

  $ certify 'rollcert 1\nplayers 2\nbase 2\nfrom 2\ntime 1\n1,3\nkept 2\n-\n1,0\ndiffers 1\n1 2 2\n'
  yes: from 2 to 3 rerun 1
  $ certify 'rollcert 1\nplayers 2\nbase 0\nfrom 0\ntime 2\n1,3\n1,3\nkept 1\n-\ndiffers 0\n'
  yes: from 0 to 2 rerun 2
  $ certify 'rollcert 2\nplayers 5\nbase 0\nfrom 0\ntime 1\n1,0,0,0,2\nkept 1\n-\ndiffers 0\n'
  yes: from 0 to 1 rerun 1
  $ certify 'rollcert 1\nplayers 2\nbase 1\nfrom 2\ntime 1\n1,3\nkept 2\n-\n1,3\ndiffers 0\n'
  yes: from 2 to 2 rerun 0

Wrong ones: the first flaw is named.

  $ ahead='rollcert 1\nplayers 2\nbase 2\nfrom 2\ntime 1\n1,3\nkept 2\n-\n1,0\n'
  $ certify "${ahead}differs 0\n"
  no: missing 1
  [1]
  $ certify "${ahead}differs 1\n1 2 1\n"
  no: equal 0
  [1]
  $ certify "${ahead}differs 1\n1 1 2\n"
  no: range 0
  [1]
  $ certify "${ahead}differs 1\n4294967295 2 2\n"
  no: range 0
  [1]
  $ certify "${ahead}differs 2\n1 2 2\n1 2 2\n"
  no: twice 1
  [1]
  $ certify 'rollcert 1\nplayers 2\nbase 2\nfrom 3\ntime 1\n1,3\nkept 2\n-\n1,0\ndiffers 1\n1 2 2\n'
  no: from not kept
  [1]

Texts that can't be read: the line of each is named, and nothing else is written.

  $ certify ''
  rollduel: unreadable: line 1
  [2]
  $ certify 'rollcert 1'
  rollduel: unreadable: line 1
  [2]
  $ certify 'rollcert 0\nplayers 2\n'
  rollduel: unreadable: line 1
  [2]
  $ certify 'rollcert 3\nplayers 2\n'
  rollduel: unreadable: line 1
  [2]
  $ certify 'rollcert 1\nplayers 5\nbase 0\nfrom 0\ntime 1\n1,0,0,0,2\nkept 1\n-\ndiffers 0\n'
  rollduel: unreadable: line 2
  [2]
  $ certify 'rollcert 2\nplayers 2\nbase 2\n'
  rollduel: unreadable: line 2
  [2]
  $ certify 'rollcert 2\nplayers 4\nbase 0\n'
  rollduel: unreadable: line 2
  [2]
  $ certify 'rollcert 2\nplayers 9\nbase 0\n'
  rollduel: unreadable: line 2
  [2]
  $ certify 'rollcert 1\nplayers 0\nbase 0\n'
  rollduel: unreadable: line 2
  [2]
  $ certify 'rollcert 1\nplayers 02\nbase 2\n'
  rollduel: unreadable: line 2
  [2]
  $ certify 'rollcert 1\nplayers 2\nbase 1048577\n'
  rollduel: unreadable: line 3
  [2]
  $ certify 'rollcert 1\nplayers 2\nbase 02\n'
  rollduel: unreadable: line 3
  [2]
  $ two='rollcert 1\nplayers 2\nbase 2\n'
  $ certify "${two}from 4294967296\n"
  rollduel: unreadable: line 4
  [2]
  $ certify "${two}from 2\ntime 25\n"
  rollduel: unreadable: line 5
  [2]
  $ for row in 1 1,3,0 1,03 -; do certify "${two}from 2\ntime 1\n$row\nkept 0\n"; done
  rollduel: unreadable: line 6
  rollduel: unreadable: line 6
  rollduel: unreadable: line 6
  rollduel: unreadable: line 6
  [2]
  $ certify "${two}from 2\ntime 1\n1,3\nkept 257\n"
  rollduel: unreadable: line 7
  [2]
  $ certify "${two}from 2\ntime 1\n1,3\n1,3\nkept 1\n"
  rollduel: unreadable: line 7
  [2]
  $ certify "${two}from 2\ntime 1\n1,3\nkept 2\n\n"
  rollduel: unreadable: line 8
  [2]
  $ certify "${two}from 2\ntime 1\n1,3\nkept 2\n-\n1,0 \n"
  rollduel: unreadable: line 9
  [2]
  $ certify "${ahead}differs 257\n"
  rollduel: unreadable: line 10
  [2]
  $ for entry in '' '1 2 256\n' '1 2 2 2\n' '1 02 2\n' '1 2 2'; do certify "${ahead}differs 1\n$entry"; done
  rollduel: unreadable: line 11
  rollduel: unreadable: line 11
  rollduel: unreadable: line 11
  rollduel: unreadable: line 11
  rollduel: unreadable: line 11
  [2]
  $ certify "${ahead}differs 1\n1 2 2\n\n"
  rollduel: unreadable: line 12
  [2]
  $ certify "${ahead}differs 1\n1 2 2\n1 2 2"
  rollduel: unreadable: line 12
  [2]
  $ certify 'rollcert 2\nplayers 5\nbase 0\nfrom 0\ntime 1\n1,0,0,0,2\nkept 1\n-\ndiffers 0\n\n'
  rollduel: unreadable: line 10
  [2]

A text that is as long as can be, and one that is too long.

  $ { echo 'rollcert 1'; head -c 1048565 /dev/zero | tr '\0' ' '; } > long
  $ wc -c < long
  1048576
  $ rollduel certify long
  rollduel: unreadable: line 2
  [2]
  $ echo >> long
  $ rollduel certify long
  rollduel: unreadable: line 0
  [2]
