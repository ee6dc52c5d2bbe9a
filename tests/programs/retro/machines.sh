# shellcheck shell=sh
# For what plays games of consoles: sourced at the top, after tests/checks.sh. Programs are those of the folder OUT.
OUT=${OUT:-$PWD/out}
FAZ_RETRO_HOME=$work
export FAZ_RETRO_HOME
retro=$OUT/faz-retro
cores=$(echo /usr/lib/*/libretro)
game=
frames=

# Whether machines came to the same digests in all frames, and so did a straight run, which has none of the library.
same() {
    [ "$(wc -l < "$work/$1.sums")" = $frames ] || { echo "$(wc -l < "$work/$1.sums") frames have digests"; return 1; }
    for name; do
        cmp "$work/a.sums" "$work/$name.sums" || return 1
    done
    straight "$work/replay" && cmp "$work/a.sums" "$work/straight.sums"
}

# A straight run of a replay.
straight() {
    "$retro" --headless --play "$1" --digests "$work/straight.sums" $game 2> "$work/straight.err"
}

# Whether machines ended, and came to the same.
alike() {
    ended "$@" && same "$@"
}

# Whether machines played frames again: one may be behind the others for good, and then has nothing to play again.
again() {
    sum=0
    for name; do
        sum=$((sum + $(sed -n 's/^played .* and \([0-9]*\) again.*/\1/p' "$work/$name.err")))
    done
    [ $sum -ge 50 ] || { echo "$sum frames were played again"; false; }
}

# A figure of a machine by its name (--figures).
figure() {
    sed -n "s/^$2 //p" "$work/$1.figures"
}

# Whether machines held words back, and these cost what they may: no frame is without a picture, nobody stands still for words that are
# there, frames are played again only where words had waited as long as they may, and no longer than two turns.
held() {
    sum=0
    for name; do
        sum=$((sum + $(figure $name held)))
        [ "$(figure $name unseen)$(figure $name stood)$(figure $name astray)" = 000 ] \
            && [ "$(figure $name soon)" = "$(figure $name held)" ] && continue
        cat "$work/$name.figures" "$work/$name.err"
        return 1
    done
    [ $sum -ge 20 ] || { echo "$sum corrections were held back"; false; }
}

# Lays a line (line.c), with these words: its machines are then the namespaces faz-$line-1 and so on.
lay() {
    rm -f "$work/line.out"
    "$OUT/tests/retro_line" "$@" > "$work/line.out" 2> "$work/line.err" &
    pid_line=$!
    pids="$pids $pid_line"
    until [ -s "$work/line.out" ]; do
        kill -0 $pid_line 2> "$work/where" || { cat "$work/line.err"; return 1; }
        sleep 0.1
    done
    read -r line < "$work/line.out"
}

take_up() {
    kill $pid_line
    wait $pid_line
    cat "$work/line.err"
}

# Why no line can be laid here, if so.
no_line() {
    [ "$(id -u)" = 0 ] && [ -e /dev/net/tun ] && command -v ip > "$work/where" || echo "no root, no /dev/net/tun or no ip"
}
