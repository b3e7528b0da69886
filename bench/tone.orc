// One fixed tone: a phase that grows by an ivar, wraps by an if, shaped by two multiplications.
instr tone(pitch) {
    ivar grow;
    asig phase;
    grow = pitch / 32000;
    phase = phase + grow;
    if (phase >= 1) {
        phase = phase - 1;
    }
    output(phase * (1 - phase) * 0.25);
}
