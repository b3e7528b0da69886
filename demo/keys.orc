// Two instruments for a piano keyboard: the panel gives field one the key's frequency, field two the velocity over 128.

// A struck string: its overtones die away before its tone does.
instr piano(pitch, loud) {
    ivar grow, scale;
    ksig force, edge, struck;
    asig phase, low, high, level;

    grow = pitch / 32000;
    scale = 0.05 + 0.2 * loud;

    force = struck ? force * 0.988 : 1;
    edge = struck ? edge * 0.95 : loud;
    struck = max(struck, 1);

    phase = frac(phase + grow);
    low = 2 * phase - 1;
    low = 4 * low * (1 - abs(low));
    high = 2 * frac(3 * phase) - 1;
    high = 4 * high * (1 - abs(high));
    level = level + (force - level) * 0.01;
    output(scale * level * (low + edge * high));
}

// A pipe that sounds as long as its key is down.
instr organ(pitch, loud) {
    ivar grow;
    asig phase, low, high, level;

    grow = pitch / 32000;

    phase = frac(phase + grow);
    low = 2 * phase - 1;
    low = 4 * low * (1 - abs(low));
    high = 2 * frac(2 * phase) - 1;
    high = 4 * high * (1 - abs(high));
    level = level + (1 - level) * 0.003;
    output(0.12 * loud * level * (low + 0.5 * high));
}
