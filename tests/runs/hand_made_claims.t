Claims, and what else is written as text.

  $ ahead='rollcert 1\nplayers 2\nbase 2\nfrom 2\ntime 1\n1,3\nkept 2\n-\n1,0\n'

Claims that are made by hand, with more paths than a text has: 300 of them, of which all but the first differ, with the last path's
entry first. An entry twice, and one that is missing.

  $ echo claim widest 300 | test_stage
  right
  $ echo claim widest 300 twice 299 | test_stage
  twice 299
  $ echo claim widest 300 missing | test_stage
  missing 299

The widest claim of 256 paths, checked a thousand times.

  $ echo claim widest 256 times 1000 | test_stage
  right

Each flaw, as the checker tells it.

  $ check() { printf "claim check\n$1" | test_stage; }
  $ check "${ahead}differs 1\n1 2 2\n"
  right
  $ check "${ahead}differs 0\n"
  missing 1
  $ check "${ahead}differs 1\n1 2 1\n"
  equal 0
  $ check "${ahead}differs 1\n1 1 2\n"
  range 0
  $ check "${ahead}differs 2\n1 2 2\n1 2 2\n"
  twice 1
  $ check 'rollcert 1\nplayers 2\nbase 2\nfrom 3\ntime 1\n1,3\nkept 2\n-\n1,0\ndiffers 1\n1 2 2\n'
  from not kept

A kept path of another base than the claim's.

  $ echo claim base 2 | test_stage
  right
  $ echo claim base 1 | test_stage
  shape

Texts of claims that are written again as they were read.

  $ again() { printf "$1" > claim; { echo claim write; cat claim; } | test_stage | cmp - claim; }
  $ again "${ahead}differs 1\n1 2 2\n"
  $ again 'rollcert 2\nplayers 5\nbase 0\nfrom 0\ntime 1\n1,0,0,0,2\nkept 1\n-\ndiffers 0\n'
  $ again 'rollcert 1\nplayers 2\nbase 0\nfrom 0\ntime 2\n1,3\n1,3\nkept 1\n-\ndiffers 0\n'
  $ again 'rollcert 1\nplayers 2\nbase 1\nfrom 2\ntime 1\n1,3\nkept 2\n-\n1,3\ndiffers 0\n'
  $ again 'rollcert 1\nplayers 1\nbase 1048576\nfrom 4294967295\ntime 1\nx\nkept 1\n0 x 4294967295\ndiffers 1\n4294967295 2 2\n'
  $ again 'rollcert 1\nplayers 4\nbase 0\nfrom 0\ntime 0\nkept 0\ndiffers 1\n0 0 255\n'
  $ again 'rollcert 2\nplayers 8\nbase 0\nfrom 0\ntime 1\n0,x,1,2,3,4,5,x\nkept 0\ndiffers 0\n'

One with 256 paths, of which 255 have 24 rows, and as many entries.

  $ widest() {
  >     echo 'rollcert 1'; echo 'players 2'; echo 'base 0'; echo 'from 0'
  >     echo 'time 24'; yes 1,3 | head -n 24
  >     echo 'kept 256'; echo -
  >     rows=$(yes 1,3 | head -n 23 | tr '\n' ' ')
  >     seq -f "${rows}1,%g" 4 258
  >     echo "differs $1"; seq -f '%g 23 2' 255 | head -n $1
  > }
  $ widest 255 > claim
  $ { echo claim write; cat claim; } | test_stage | cmp - claim
  $ [ $(wc -c < claim) -gt $((255 * 24 * 4)) ]

A list of a thousand numbers.

  $ echo list 1000 | test_stage
  same
