// Three instruments for "chaconne.sasl". 32,000 samples and 100 control cycles a second.

// A bowed voice: a sawtooth, made softer by a filter that closes while the note lasts, with a vibrato that comes in late.
// held: how many hundredths of a second it is bowed; bright: 0 for a dull tone, 1 for a sharp one.
instr voice(pitch, loud, held, bright) {
    ivar grow;
    ksig age, force, open, turn, sway;
    asig phase, saw, tone, level;

    grow = pitch / 32000;

    force = age < held ? max(0.55, 1 - age / 120) : 0;
    open = 0.06 + bright * max(0.25, 1 - age / 50);
    turn = frac(turn + 0.052);
    sway = 1 + min(age, 60) / 60 * 0.004 * (4 * abs(turn - 0.5) - 1);
    age = age + 1;

    phase = frac(phase + grow * sway);
    saw = 2 * phase - 1;
    tone = tone + (saw - tone) * open;
    level = level + (force - level) * 0.003;
    output(tone * level * loud);
}

// The bass: a triangle and its octave, struck and dying away.
instr ground(pitch, loud, held) {
    ivar grow;
    ksig age, force;
    asig phase, low, high, level;

    grow = pitch / 32000;

    force = age < held ? max(0.3, 1 - age / 150) : 0;
    age = age + 1;

    phase = frac(phase + grow);
    low = 4 * abs(phase - 0.5) - 1;
    high = 4 * abs(frac(2 * phase) - 0.5) - 1;
    level = level + (force - level) * 0.004;
    output((low + 0.35 * high) * level * loud);
}

// A held voice of two tones that beat slowly. Score lines set its tone, to which it slides, and its swell.
instr veil() {
    imports ksig tone, swell;
    ksig now;
    asig one, two, ramp, sum, level;

    now = now > 0 ? now + (tone - now) * 0.25 : tone;

    one = frac(one + now / 32000);
    two = frac(two + now / 31900);
    ramp = 2 * one - 1;
    sum = 4 * ramp * (1 - abs(ramp));
    ramp = 2 * two - 1;
    sum = sum + 4 * ramp * (1 - abs(ramp));
    level = level + (swell - level) * 0.0001;
    output(sum * level);
}
