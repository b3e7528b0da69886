"""Tests of the front. `test_*` need nothing built: a stand-in plays the panel. `sounding_*` need `crates/play/out/play` and `crates/replay/out/replay`.

    python3 -B -m unittest discover -s front/tests -t .
    python3 -B -m unittest discover -s front/tests -t . -p 'sounding_*.py'
"""
