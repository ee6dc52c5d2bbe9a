"""Plays a script of test_rules.c, and prints the state after each frame: play_rules.py SCRIPT SHIPS, in the duel's folder."""
import sys

sys.path.insert(0, ".")
import rules  # noqa: E402

field, words = rules.opening(int(sys.argv[2])), [0, 0, 0, 0]
for line in open(sys.argv[1]):
    kind, *told = line.split() or [""]
    if kind in ["L", "R", "D"]:
        words[int(told[0]) - 1] = 0 if kind == "D" else int(told[-1])
    elif kind == "A":
        field = rules.step(field, words)
        print(rules.text(field))
