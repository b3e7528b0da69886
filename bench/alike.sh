#!/bin/sh
# The demo by the panel and by an independent decoder, Debian's sfront (SAOL to C): how far the samples lie apart, in
# steps of 16 bits. Needs python3, sfront and gcc.
#   bench/alike.sh        after bin/build
set -eu
here=$(cd "$(dirname "$0")" && pwd)
work=$(mktemp -d)
trap 'rm -rf "$work"' EXIT
demo=$here/../demo

"$here/../bin/play" "$demo/tune.orc" "$demo/tune.sasl" "$work/panel.wav" >/dev/null

cd "$work"
{
    echo 'global { srate 32000; krate 100; outchannels 1; }'
    sed 's|//.*||' "$demo/tune.orc"
} >tune.saol
sed 's|//.*||; /^ *$/d' "$demo/tune.sasl" >tune.sasl
sfront -orc tune.saol -sco tune.sasl -bitout tune.mp4 -aout decoder.wav >sfront.log 2>&1
gcc -O2 -w -o decoder sa.c -lm
./decoder >/dev/null 2>&1

python3 - <<'PYTHON'
import array, sys, wave

def samples(name):
    with wave.open(name) as file:
        assert (file.getframerate(), file.getsampwidth(), file.getnchannels()) == (32000, 2, 1), file.getparams()
        return array.array("h", file.readframes(file.getnframes()))

panel, decoder = samples("panel.wav"), samples("decoder.wav")
length = min(len(panel), len(decoder))
apart = [abs(a - b) for a, b in zip(panel, decoder)]
print(f"{len(panel):,} samples by the panel, {len(decoder):,} by sfront; of {length:,} at most {max(apart)} apart, "
      f"{sum(1 for d in apart if d):,} not equal")
sys.exit(max(apart) > 1 or len(panel) > len(decoder))
PYTHON
