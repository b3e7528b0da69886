// A tone that dies away. Each note has a pitch in Hz and a loudness from 0 to 1.
instr bell(pitch, loud) {
    ivar grow;
    ksig force, struck;
    asig phase, ramp;

    grow = pitch / 32000;                       // once, when the note begins

    force = struck ? force * 0.98 : loud;       // a hundred times a second
    struck = 1;

    phase = frac(phase + grow);                 // 32,000 times a second
    ramp = 2 * phase - 1;
    output(4 * ramp * (1 - abs(ramp)) * force);
}
