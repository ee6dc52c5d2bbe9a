# shellcheck shell=sh
# For tests: sourced at the top, it has a folder $work, counts of checks, and machines that play the duel of the folder $OUT.
OUT=${OUT:-$PWD/out}
work=$(mktemp -d) || exit 2
pids=
trap 'kill $pids 2> /dev/null; rm -rf -- "$work"' EXIT
passed=0
failed=0

# A check: its name, and a command. What it said is shown if it failed.
check() {
    what=$1
    shift
    begin_anew
    if "$@" > "$work/said" 2>&1; then
        passed=$((passed + 1))
    else
        failed=$((failed + 1))
        echo "failed: $what"
        show_said
    fi
}

# Before each check.
begin_anew() {
    :
}

show_said() {
    cat "$work/said"
}

# Whether there is a program; else what is skipped.
has() {
    command -v "$1" > "$work/where" && return
    echo "skipped: $2 (no $1)"
    return 1
}

# A machine of a match, by its name, in the background: its words are after it. It ends after three minutes at the latest, or after so many
# seconds as $patience has.
machine() {
    machine_of duel "$@"
}

# The same, of a program in the folder, or of one that is named from the root on.
machine_of() {
    case $1 in
    /*) program=$1 ;;
    *) program=$OUT/$1 ;;
    esac
    name=$2
    shift 2
    forget $name
    timeout "${patience:-180}" "$program" --headless --speed 10 "$@" > "$work/$name.out" 2> "$work/$name.err" &
    pids="$pids $!"
    eval "pid_$name=$!"
}

# Whether programs in the folder say how they are begun, if that is asked for.
helps() {
    for program; do
        timeout 10 "$OUT/$program" --help > "$work/help" 2> "$work/help.err" && grep -q "^$program .*  " "$work/help" \
            && [ ! -s "$work/help.err" ] || return 1
    done
}

# What a machine of this name said in another check isn't found any more.
forget() {
    : > "$work/$1.out"
    : > "$work/$1.err"
}

# Waits until machines have ended, with 0; else shows what they said.
ended() {
    for name; do
        eval "wait \$pid_$name" && continue
        echo "machine $name ended with $?:"
        cat "$work/$name.out" "$work/$name.err"
        return 1
    done
}

# Waits until machines are in the match, or watch it.
began() {
    for name; do
        at=0
        until grep -q "the match begins" "$work/$name.err"; do
            at=$((at + 1))
            if [ $at -ge 1000 ]; then
                echo "machine $name didn't begin:"
                cat "$work/$name.out" "$work/$name.err"
                return 1
            fi
            sleep 0.1
        done
    done
}

# Whether machines printed the same, and something.
agree() {
    [ -s "$work/$1.out" ] || return 1
    for name; do
        diff "$work/$1.out" "$work/$name.out" || return 1
    done
}
