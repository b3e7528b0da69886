#!/bin/sh
# Machine instructions per note and sample by callgrind, and how many times faster than real time by the processor's time
# (the best of three), which a loaded machine changes little.
#   bench/run.sh             after `rt run` in crates/bench and crates/play: the panel's bench (16 notes, 1,000 cycles), a tone of 10 operators by
#                            the play program, and the same tone as bench's through Debian's sfront (SAOL to C, gcc -O2)
#   bench/run.sh scores      after `rt run` in crates/bench_scores: the same score read as bits and as text, in bytes a second, and the longest symbol
#                            table unpacked and asked for its last name, in milliseconds
#   bench/run.sh pieces [PLAY]   each piece of pieces.py by the play program (or by another, to compare) and by sfront; what a
#                            panel, or sfront's program, does without notes is taken off the instructions, not off the times
# Needs python3, valgrind, sfront and gcc.
set -eu
here=$(cd "$(dirname "$0")" && pwd)
work=$(mktemp -d)
trap 'rm -rf "$work"' EXIT
play=${2:-$here/../crates/play/out/play}

# instructions PROGRAM ARGS..: all of them.
instructions() {
    valgrind --tool=callgrind --callgrind-out-file=/dev/null "$@" >/dev/null 2>"$work/grind"
    sed -n 's/.*Collected : *\([0-9]*\).*/\1/p' "$work/grind"
}

# best PROGRAM ARGS..: the least processor time of three runs, in microseconds.
best() {
    python3 - "$@" <<'PYTHON'
import os, subprocess, sys
def took():
    run = subprocess.Popen(sys.argv[1:], stdout=subprocess.DEVNULL, stderr=subprocess.DEVNULL)
    used = os.wait4(run.pid, 0)[2]
    return used.ru_utime + used.ru_stime
print(int(min(took() for _ in range(3)) * 1e6) or 1)
PYTHON
}

# counted NAME PROGRAM ARGS..: for 16 notes of 320,000 samples.
counted() {
    name=$1
    shift
    awk -v n="$name" -v all="$(instructions "$@")" -v us="$(best "$@")" 'BEGIN {
        printf "%-8s %12.0f instructions, %6.1f per note and sample, %7.1f times real time\n", n, all, all / 5120000, 1e7 / us }'
}

# by_sfront NAME: the program that sfront makes of a piece, or nothing where it cannot.
by_sfront() {
    mkdir -p "$1.c"
    (cd "$1.c" && sfront -orc "../$1.saol" -sco "../$1.sasl" -aout out.wav >log 2>&1 && gcc -O2 -w -o player sa.c -lm 2>>log) && echo "$1.c/player"
}

# by_play NAME
by_play() {
    "$here/../bin/assemble" "$1.orc" "$1.sco" >/dev/null
    echo "$play $1.orc.bin $1.sco.bin -"
}

# A costly piece's instructions are counted over 10 cycles, a tone's over 100, so that starting the notes weighs little.
pieces() {
    mkdir "$work/10" "$work/100"
    python3 "$here/pieces.py" "$work/10" 10 >/dev/null
    python3 "$here/pieces.py" "$work/100" 100 | while read -r name notes; do
        case $name in tone-* | eight-*) cycles=100 ;; *) cycles=10 ;; esac
        for by in by_play by_sfront; do
            cd "$work/$cycles"
            run=$($by "$name" || true)
            idle=$($by "idle-$name" || true)
            if [ -z "$run" ] || [ -z "$idle" ]; then
                printf '%-10s %-9s cannot\n' "$name" "$by"
                continue
            fi
            all=$(instructions $run)
            none=$(instructions $idle)
            cd "$work/100"
            us=$(best $($by "$name"))
            awk -v n="$name" -v by="$by" -v k="$((notes * cycles))" -v all="$all" -v none="$none" -v us="$us" 'BEGIN {
                printf "%-10s %-9s %9.1f per note and sample, %7.1f times real time\n", n, by, (all - none) / (k * 320), 1e6 / us }'
        done
    done
}

# The same lines as bits and as text, 30 times over.
scores() {
    python3 "$here/scores.py" "$work"
    for kind in bits text; do
        case $kind in text) word=text ;; *) word= ;; esac
        awk -v n="$kind" -v bytes="$(wc -c <"$work/score.$kind")" -v us="$(best sh -c "'$here/../crates/bench_scores/out/bench_scores' $word <'$work/score.$kind'")" 'BEGIN {
            printf "%-8s %9d bytes, %7.1f MB a second\n", n, bytes, 30 * bytes / us }'
    done
    awk -v bytes="$(wc -c <"$work/score.names")" -v us="$(best sh -c "'$here/../crates/bench_scores/out/bench_scores' a name <'$work/score.names'")" 'BEGIN {
        printf "%-8s %9d bytes, %7.2f ms to unpack 65,535 names and ask for the last\n", "names", bytes, us / 30000 }'
}

if [ "${1:-}" = pieces ]; then
    pieces
    exit
fi

if [ "${1:-}" = scores ]; then
    scores
    exit
fi

counted panel "$here/../crates/bench/out/bench"

cp "$here/saw.orc" "$here/saw.sco" "$work"
cd "$work"
counted saw $(by_play saw)

python3 "$here/pieces.py" "$work" 1000 >/dev/null
counted sfront $(by_sfront tone-16)
