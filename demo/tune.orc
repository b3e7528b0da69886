// Three instruments for "tune.sasl". 32,000 samples and 100 control cycles a second.

// A plucked lead. held: how many cycles the string is held before it is damped.
// bright: 0 gives a soft tone, anything else the hollow tone of a clipped triangle.
instr lead(pitch, loud, held, bright) {
    ivar grow;
    ksig age, force;
    asig phase, ramp, tone, level;

    grow = pitch / 32000;

    force = age < held ? max(0.35, 1 - age / 60) : 0;
    age = age + 1;

    phase = phase + grow;
    if (phase >= 1) {
        phase = phase - 1;
    }
    ramp = 2 * phase - 1;
    if (bright) {
        tone = max(-0.6, min(0.6, 2 * abs(ramp) - 1)) * 1.2;
    } else {
        tone = 4 * ramp * (1 - abs(ramp));
        tone = tone + 0.225 * (tone * abs(tone) - tone);
    }
    level = level + (force - level) * 0.004;
    output(tone * level * loud);
}

// A plucked bass: a triangle that dies away.
instr bass(pitch, loud) {
    ivar grow;
    ksig force, struck;
    asig phase, level;

    grow = pitch / 32000;

    force = struck ? force * 0.985 : 1;
    struck = max(struck, 1);

    phase = frac(phase + grow);
    level = level + (force - level) * 0.004;
    output((4 * abs(phase - 0.5) - 1) * level * loud);
}

// A held tone that score lines make louder and softer through its swell.
instr pad(pitch) {
    imports ksig swell;
    ivar grow;
    asig phase, ramp, tone, level;

    grow = pitch / 32000;

    phase = frac(phase + grow);
    ramp = 2 * phase - 1;
    tone = 4 * ramp * (1 - abs(ramp));
    level = level + (swell - level) * 0.0001;
    output(tone * level);
}
