// A tone of 10 operators at every sample: a phase that wraps, and a curve through it.
instr saw(pitch) {
    ivar grow;
    asig phase, x;
    grow = pitch / 32000;
    phase = frac(phase + grow);
    x = phase * 2 - 1;
    output(x * (1 - x * x * 0.1666) * 0.1 - x);
}
