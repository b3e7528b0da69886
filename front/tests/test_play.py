"""`bin/play` from the command line, with a stand-in for the panel: what it takes, what it says, and its status."""
import os
import pty
import signal
import struct
import subprocess
import time

from front.panel import SETTINGS_AREA

from .helpers import DEMO, ORCHESTRA, ROOT, SCORE, Folder, samples
from .test_midi_file import END, NOTE, midi

LAST = "peak below 1 % of the ceiling 32,767, no samples at the ceiling, no notes missed"
HELP = "play --help tells how it is used"


class Usage(Folder):
    def test_help(self):
        for command in ("play", "assemble"):
            for option in ("-h", "--help"):
                status, out, said = self.run_command(option, command=command)
                self.assertEqual((status, said), (0, ""))
                self.assertIn(f"bin/{command} ", out.decode())

    def test_wrong_usage(self):
        for arguments, said in (
                ([], "ORCHESTRA and SCORE and OUT are missing"),
                (["o.orc"], "SCORE and OUT are missing"),
                (["o.orc", "s.sasl"], "OUT is missing"),
                (["o.orc", "s.sasl", ""], "OUT is an empty name"),
                (["o.orc", "s.sasl", "x.wav", "8000"], "the ceiling is given by --ceiling 8000"),
                (["o.orc", "s.sasl", "x.wav", "y.wav"], "`y.wav` is one name too many behind ORCHESTRA SCORE OUT"),
                (["--loud", "o.orc", "s.sasl", "x.wav"], "unrecognized arguments: --loud"),
                (["o.orc", "s.sasl", "x.wav", "--ceiling"], "argument --ceiling: expected one argument"),
                (["o.orc", "s.sasl", "x.wav", "--ceiling", "0"], "the ceiling is a whole number from 1 to 32,767, not `0`"),
                (["o.orc", "s.sasl", "x.wav", "--ceiling", "32768"], "the ceiling is a whole number from 1 to 32,767, not `32768`"),
                (["o.orc", "s.sasl", "x.wav", "--ceiling", "1e3"], "the ceiling is a whole number from 1 to 32,767, not `1e3`"),
                (["o.orc", "s.sasl", "x.wav", "--seconds", "0"], "--seconds is a number above 0 and up to 67,108, not `0`"),
                (["o.orc", "s.sasl", "x.wav", "--seconds", "ten"], "--seconds is a number above 0 and up to 67,108, not `ten`"),
                (["o.orc", "s.sasl", "x.wav", "--channels", "3-1"], "channels 3-1: write 1-3"),
                (["o.orc", "s.sasl", "x.wav", "--channels", "1,17"], "a channel is a whole number from 1 to 16, not `17`"),
                (["o.orc", "s.sasl", "x.wav", "--channels", "1"], "--channels is for MIDI files and keyboards, and s.sasl is a score"),
                (["o.orc", "s.sasl", "x.wav", "--instrument", "pad"], "--instrument is for MIDI files and keyboards, and s.sasl is a score"),
                (["o.orc", "s.sasl", "x.wav", "--picture", "x.wav"], "--picture has a file of its own"),
                (["o.orc", "s.sasl", "x.wav", "--live"],
                 "a keyboard is heard through standard output, so OUT is -: bin/play .. - | aplay --buffer-time=40000")):
            self.refused(arguments, f"play: {said}\nplay: {HELP}", 2)

    def test_not_built(self):
        program = self.at("none")
        self.refused(["o.orc", "s.sasl", "x.wav"],
                     f"play: {program}: the player is not built yet: type {os.path.relpath(os.path.join(ROOT, 'bin', 'build'), self.folder)}, "
                     "which takes a while, once", env={**self.environment(), "REPLAY": program})

    def test_names_that_begin_with_a_minus(self):
        self.put("-s", SCORE)
        self.assertIn("-x.wav: 2.0 seconds", self.played("--ceiling", "9000", "--", "o.orc", "-s", "-x.wav"))

    def test_through_a_link(self):
        os.symlink(os.path.join(ROOT, "bin", "play"), self.at("link"))
        done = subprocess.run([self.at("link"), "-h"], capture_output=True, check=False)
        self.assertEqual(done.returncode, 0, done.stderr)


class Kinds(Folder):
    def test_by_what_they_are(self):
        self.assertEqual(self.played("o.orc", "s.sasl", "a.wav"), f"a.wav: 2.0 seconds, 2 notes, {LAST}\n")
        self.run_command("o.orc", "s.sasl", command="assemble")
        self.put("score", SCORE)
        self.put("tune.SASL", SCORE)
        self.put("orchestra.txt", ORCHESTRA)
        for orchestra, score in (("o.orc", "s.sasl.bin"), ("o.orc.bin", "s.sasl.bin"), ("orchestra.txt", "tune.SASL"), ("o.orc", "score")):
            self.played(orchestra, score, "b.wav")
            self.assertEqual(self.get("b.wav"), self.get("a.wav"), (orchestra, score))
        for score in ("-", "/dev/stdin"):
            self.played("o.orc", score, "./b.wav", given=SCORE.encode())
            self.assertEqual(self.get("b.wav"), self.get("a.wav"), score)
        self.played("o.orc.bin", "s.sasl", "b.wav", "--names", "o.orc.names")
        self.assertEqual(self.get("b.wav"), self.get("a.wav"))

    def test_a_pipe_is_read_to_its_end(self):
        os.mkfifo(self.at("pipe"))
        with self.start("o.orc", "pipe", "b.wav") as process:
            with open(self.at("pipe"), "w", encoding="utf-8") as pipe:
                pipe.write(SCORE)
            process.communicate(timeout=60)
        self.assertEqual(process.returncode, 0)

    def test_exchanged(self):
        self.put("k.mid", midi(NOTE + END))
        self.put("old.wav", b"RIFF....WAVE")
        right = "play: the order is ORCHESTRA SCORE OUT: type bin/play "
        for arguments, order in ((["s.sasl", "o.orc", "x.wav"], "o.orc s.sasl x.wav"),
                                 (["x.wav", "o.orc", "s.sasl"], "o.orc s.sasl x.wav"),
                                 (["old.wav", "o.orc", "s.sasl"], "o.orc s.sasl old.wav"),
                                 (["k.mid", "o.orc", "x y.wav"], "o.orc k.mid 'x y.wav'"),
                                 (["o.orc", "x.wav", "s.sasl"], "o.orc s.sasl x.wav")):
            self.refused(arguments, right + order)

    def test_none_of_them(self):
        self.put("old.wav", b"RIFF....WAVE")
        self.put("k.mid", midi(NOTE + END))
        self.put("empty", b"")
        self.put("odd", bytes(range(256)))
        for arguments, said in (
                (["old.wav", "s.sasl", "x.wav"], "old.wav: a WAV file; first stands an orchestra: bin/play ORCHESTRA SCORE OUT"),
                (["k.mid", "s.sasl", "x.wav"], "k.mid: a MIDI file; first stands an orchestra: bin/play ORCHESTRA SCORE OUT"),
                (["o.orc", "old.wav", "x.wav"], "old.wav: a WAV file; second stands a score: bin/play ORCHESTRA SCORE OUT"),
                (["o.orc", "o.orc", "x.wav"], "o.orc: an orchestra as text; second stands a score: bin/play ORCHESTRA SCORE OUT"),
                (["empty", "s.sasl", "x.wav"], "empty: empty, so no instrument"),
                (["o.orc", "empty", "x.wav"], "empty: no line to play"),
                (["o.orc", "/dev/null", "x.wav"], "/dev/null: no line to play"),
                (["o.orc", "odd", "x.wav"], "odd: line 2 of 16: the duration -1.5577605e-36 is not from 0 to 16,384 (refusal 3)"),
                (["none", "s.sasl", "x.wav"], "none: No such file or directory"),
                (["o.orc", "none", "x.wav"], "none: No such file or directory"),
                (["o.orc", ".", "x.wav"], ".: Is a directory"),
                (["o.orc", "s.sasl", "x.wav", "--names", "s.sasl"], "s.sasl: no symbol table: it ends inside a name")):
            self.refused(arguments, f"play: {said}")

    def test_faults_of_the_score_with_line_and_column(self):
        self.put("s.sasl", "// two faults\n0 lead 1 329,63\n\n0 Lead 1 440\n")
        self.refused(["o.orc", "s.sasl", "x.wav"], "play: s.sasl: line 2, column 10: write 329.63, not 329,63\n"
                                                   "play: s.sasl: line 4, column 3: `Lead`: the orchestra has `lead`")
        self.put("o.orc", ORCHESTRA.replace("x = pitch", "y = pitch"))
        self.refused(["o.orc", "s.sasl", "x.wav"], "play: o.orc: line 3, column 5: `y` is not declared in `lead`")

    def test_a_refusal_of_the_panel(self):
        self.put("stand-in", f"#!/bin/sh\nprintf '\\014'\nhead -c {SETTINGS_AREA} /dev/zero\nexec cat >/dev/null\n")
        self.refused(["o.orc", "s.sasl", "x.wav"], "play: o.orc: a token that is not known or cut short, or no end token, or bytes behind "
                                                   "it (refusal 12)")

    def test_a_panel_that_ends(self):
        self.put("stand-in", b"#!/bin/sh\necho sorry >&2\n")
        self.refused(["o.orc", "s.sasl", "x.wav"], f"play: {self.stand_in}: ended before its answers did: sorry")


class Length(Folder):
    def test_any_number_of_lines(self):
        self.put("s.sasl", "".join(f"{at / 4} lead 0.25 440\n" for at in range(400)))
        self.assertEqual(self.played("o.orc", "s.sasl", "a.wav"), f"a.wav: 1 minute 40.0 seconds, 400 notes, {LAST}\n")
        self.assertEqual(set(samples(self.get("a.wav"))), {100, 200})

    def test_too_many_at_once(self):
        self.put("s.sasl", "0 lead 1 440\n" + "2.5 lead 1 440\n" * 65)
        self.refused(["o.orc", "s.sasl", "x.wav"], "play: s.sasl: line 66: beat 2.5: 65 lines are due at once, and the panel takes 64: move "
                                                   "some of them to another beat")

    def test_a_note_without_end(self):
        self.put("s.sasl", "0 tempo 60\n0 pad -1 440\n")
        self.refused(["o.orc", "s.sasl", "x.wav"], "play: s.sasl: line 2: `pad` is held without end, and no end line ends the piece: add "
                                                   "one, such as `32 end`, or play --seconds N")
        self.assertEqual(self.played("o.orc", "s.sasl", "x.wav", "--seconds", "1.505"),
                         f"cut by --seconds after 1.5 seconds: the piece goes on\nx.wav: 1.5 seconds, 1 note, {LAST}\n")
        self.assertEqual(len(samples(self.get("x.wav"))), 151)

    def test_a_cut_that_cuts_nothing(self):
        self.assertEqual(self.played("o.orc", "s.sasl", "x.wav", "--seconds", "2"), f"x.wav: 2.0 seconds, 2 notes, {LAST}\n")
        self.assertIn("cut by --seconds", self.played("o.orc", "s.sasl", "x.wav", "--seconds", "1.99"))

    def test_notes_behind_a_cut_are_not_counted(self):
        self.assertIn("x.wav: 0.5 seconds, 1 note,", self.played("o.orc", "s.sasl", "x.wav", "--seconds", "0.5"))
        self.put("k.mid", midi(NOTE + b"\x60\x3e\x40" + END))
        self.assertIn("x.wav: 0.5 seconds, 1 note,", self.played("o.orc", "k.mid", "x.wav", "--seconds", "0.5"))

    def test_longer_than_a_wav_file(self):
        self.put("s.sasl", "0 tempo 1\n16384 end\n")
        self.refused(["o.orc", "s.sasl", "x.wav"], "play: s.sasl: 16384:00.0 long, and a WAV file ends at 1118:28.8: --seconds N plays its "
                                                   "first N seconds")
        self.assertIn("x.wav: 3.0 seconds", self.played("o.orc", "s.sasl", "x.wav", "--seconds", "3"))

    def test_lines_behind_the_end(self):
        self.put("s.sasl", "0 lead 1 440\n2 end\n2 lead 1 440\n3 tempo 60\n")
        self.assertEqual(self.played("o.orc", "s.sasl", "x.wav"), "play: s.sasl: line 3: warning: at or behind the end line, so not heard, "
                                                                  f"and 1 line more\nx.wav: 2.0 seconds, 1 note, {LAST}\n")


class Told(Folder):
    def test_the_last_line(self):
        self.put("s.sasl", "0 lead 4 440\n" * 16 + "1 lead 1 440\n1.5 lead 1 440\n")
        self.assertEqual(self.played("o.orc", "s.sasl", "x.wav", "--ceiling", "1600"),
                         "x.wav: 4.0 seconds, 18 notes, peak 100 % of the ceiling 1,600, 128,320 samples at the ceiling, 2 notes missed, "
                         "the first at beat 1\n")

    def test_silence(self):
        silent = {**self.environment(), "LOUDNESS": "0"}
        self.put("s.sasl", "0 lead 1 440 0.2\n")
        self.assertIn("silent, no sample is other than 0: s.sasl: line 1: `lead` gets 2 of its 4 values, so held and bright are 0\n",
                      self.played("o.orc", "s.sasl", "x.wav", env=silent))
        self.put("k.mid", midi(NOTE + END))
        self.assertIn("silent, no sample is other than 0: a key gives `lead` 2 of its 4 values, so held and bright are 0: choose another by "
                      "--instrument\n", self.played("o.orc", "k.mid", "x.wav", env=silent))

    def test_controls_that_reach_no_note(self):
        self.put("s.sasl", "a: 0 pad 1 440\n0 b control swell 1\n")
        self.assertIn("play: s.sasl: line 2: warning: no note has the label `b`; the line changes nothing\n",
                      self.played("o.orc", "s.sasl", "x.wav"))

    def test_midi(self):
        notes = b"".join(bytes([0, 0x90, key, 64]) for key in range(20))
        self.put("k.mid", midi(notes + b"\x60\xb0\x40\x7f" + b"\0\x99\x24\x40" + END))
        self.assertEqual(self.played("o.orc", "k.mid", "x.wav"),
                         "read over: 1 pedal message, 1 note on channel 10 (drums)\n"
                         "x.wav: 1.5 seconds, 20 notes, peak 4 % of the ceiling 32,767, no samples at the ceiling, 4 notes missed, the first "
                         "at 0:00.0\n")
        self.assertIn("x.wav: 1.5 seconds, 1 note,", self.played("o.orc", "k.mid", "x.wav", "--channels", "2-4,10"))
        self.refused(["o.orc", "k.mid", "y.wav", "--channels", "2"],
                     "play: k.mid: no note to play; read over: 20 notes on channel 1, 1 note on channel 10 (drums)")

    def test_the_instrument(self):
        self.put("k.mid", midi(NOTE + END))
        for name in ("pad", "s6", "6", "lead"):
            self.played("o.orc", "k.mid", "x.wav", "--instrument", name)
        self.refused(["o.orc", "k.mid", "y.wav", "--instrument", "organ"], "play: o.orc: no instrument `organ`: it has `lead`, `pad`")


class Output(Folder):
    def test_what_stays(self):
        self.put("text", b"not a sound")
        self.put("locked.wav", b"")
        os.chmod(self.at("locked.wav"), 0o444)
        os.symlink("text", self.at("link"))
        os.mkfifo(self.at("pipe"))
        cases = [
            ("text", "text: is there and is no WAV file, so it stays"),
            ("link", "link: a link, so it stays"),
            ("pipe", "pipe: no regular file, so it stays"),
            (".", ".: a folder; name a file in it, such as ./out.wav"),
            ("/dev/full", "/dev/full: no regular file, so it stays"),
            ("none/x.wav", "none/x.wav: there is no folder none"),
            ("s.sasl", "s.sasl: also read by this piece, so it stays"),
        ]
        if os.geteuid():
            cases.append(("locked.wav", "locked.wav: read-only, so it stays"))
        for out, said in cases:
            self.refused(["o.orc", "s.sasl", out], f"play: {said}")
        self.assertEqual((self.get("text"), self.get("s.sasl")), (b"not a sound", SCORE.encode()))

    def test_the_mode_of_a_replaced_file_stays(self):
        self.put("a.wav", b"")
        os.chmod(self.at("a.wav"), 0o600)
        self.played("o.orc", "s.sasl", "a.wav")
        self.played("o.orc", "s.sasl", "b.wav", umask=0o027)
        self.assertEqual((self.mode("a.wav"), self.mode("b.wav")), (0o600, 0o640))

    def test_standard_output(self):
        self.played("o.orc", "s.sasl", "a.wav")
        status, out, said = self.run_command("o.orc", "s.sasl", "-")
        self.assertEqual((status, out, said), (0, self.get("a.wav"), f"play: standard output: 2.0 seconds, 2 notes, {LAST}\n"))
        with open(self.at("b.wav"), "wb") as file:
            self.run_command("o.orc", "s.sasl", "-", stdout=file)
        self.assertEqual(self.get("b.wav"), self.get("a.wav"))

    def test_a_terminal_is_no_place_for_sound(self):
        ours, theirs = pty.openpty()
        try:
            self.refused(["o.orc", "s.sasl", "-"], "play: the sound would go to this terminal: name a file, or let a player read it: "
                                                   "bin/play .. - | aplay", stdout=theirs)
        finally:
            os.close(ours)
            os.close(theirs)

    def test_a_full_disk_and_a_closed_pipe(self):
        with open("/dev/full", "wb") as full:
            self.refused(["o.orc", "s.sasl", "-"], "play: standard output: not written: No space left on device", stdout=full)
            status, _, said = self.run_command("o.orc", "s.sasl", "a.wav", stdout=full)
            self.assertEqual((status, said), (1, "play: standard output: No space left on device\n"))
        self.put("s.sasl", "20 end\n")
        for arguments in (["o.orc", "s.sasl", "-"], ["o.orc", "s.sasl", "a.wav"], ["--help"]):
            process = self.start(*arguments)
            process.stdout.close()
            said = process.stderr.read()
            self.assertEqual((process.wait(timeout=60), said), (0, b""), arguments)
            process.stderr.close()

    def test_standard_files_that_are_closed(self):
        command = f"{os.path.join(ROOT, 'bin', 'play')} o.orc s.sasl a.wav <&- >&- 2>&-"
        self.assertEqual(subprocess.run(["sh", "-c", command], cwd=self.folder, env=self.environment(), check=False).returncode, 0)
        self.assertEqual(len(samples(self.get("a.wav"))), 200)

    def test_a_limit_on_files(self):
        limit = "import resource, os, sys; resource.setrlimit(resource.RLIMIT_FSIZE, (4096, 4096)); os.execv(sys.argv[1], sys.argv[1:])"
        done = subprocess.run(["python3", "-c", limit, os.path.join(ROOT, "bin", "play"), "o.orc", "s.sasl", "x.wav"], cwd=self.folder,
                              env=self.environment(), capture_output=True, check=False)
        self.assertEqual((done.returncode, done.stderr), (1, b"play: x.wav: not written: File too large\n"))
        self.assertNotIn("x.wav.part", self.names())

    def test_interrupted(self):
        self.put("s.sasl", "10000 end\n")
        for number in (signal.SIGINT, signal.SIGTERM, signal.SIGHUP):
            with self.start("o.orc", "s.sasl", "x.wav") as process:
                while "x.wav.part" not in self.names():
                    time.sleep(0.01)
                process.send_signal(number)
                said = process.communicate(timeout=60)[1]
            self.assertEqual((process.returncode, said), (128 + number, b"play: broken off\n"))
            self.assertEqual(self.names(), ["o.orc", "s.sasl", "stand-in"])

    def test_parts_of_other_runs(self):
        self.put("x.wav.part", b"left behind")
        self.played("o.orc", "s.sasl", "x.wav")
        self.assertNotIn("x.wav.part", self.names())
        self.put("long.sasl", "10000 end\n")
        with self.start("o.orc", "long.sasl", "y.wav") as process:
            while "y.wav.part" not in self.names():
                time.sleep(0.01)
            self.assertEqual(self.run_command("o.orc", "s.sasl", "y.wav")[::2], (1, "play: y.wav.part: another run is writing it\n"))
            self.assertIn("y.wav.part", self.names())
            process.terminate()

    def test_progress_on_a_terminal(self):
        ours, theirs = pty.openpty()
        self.put("s.sasl", "3000 end\n")
        with self.start("o.orc", "s.sasl", "x.wav", stderr=theirs) as process:
            shown = os.read(ours, 100)
            process.terminate()
            process.wait()
        os.close(ours)
        os.close(theirs)
        self.assertRegex(shown.decode(), r"^\rplay: 0?[0-9]+:[0-9.]+ of 50:00.0")


class Pictures(Folder):
    def test_a_picture(self):
        self.played("o.orc", "s.sasl", "x.wav", "--ceiling", "150", "--picture", "x.svg")
        drawn = self.get("x.svg").decode()
        self.assertTrue(drawn.startswith("<svg ") and drawn.endswith("</svg>\n"))
        self.assertIn(">x.wav, ceiling 150<", drawn)
        self.played("o.orc", "s.sasl", "x.wav", "--picture", "x.svg")

    def test_what_stays(self):
        self.put("text", b"no picture")
        self.refused(["o.orc", "s.sasl", "x.wav", "--picture", "text"], "play: text: is there and is no SVG picture, so it stays")


class Live(Folder):
    def test_a_pipe_of_keys(self):
        os.mkfifo(self.at("port"))
        with self.start("--live", "o.orc", "port", "-") as process:
            with open(self.at("port"), "wb", buffering=0) as keys:
                heard = process.stdout.read(44 + 640)[44:]
                keys.write(bytes.fromhex("90 3c 40 f8 3e"))
                keys.write(bytes.fromhex("40 99 24 40"))
                while heard[-2:] != struct.pack("<h", 200) and len(heard) < 640 * 500:
                    heard += process.stdout.read(640)
            rest, said = process.communicate(timeout=60)
        levels = [struct.unpack_from("<h", heard + rest, at)[0] for at in range(0, len(heard + rest), 640)]
        self.assertEqual((levels[0], set(levels) <= {0, 100, 200}, levels[-1], process.returncode), (0, True, 200, 0))
        self.assertRegex(said.decode(), r"^play: standard output: [0-9.]+ seconds, peak below 1 % of the ceiling 32,767, no samples at the ceiling, no notes missed\n$")

    def test_into_a_file_of_true_length(self):
        os.mkfifo(self.at("port"))
        with open(self.at("x.wav"), "wb") as file, self.start("--live", "o.orc", "port", "-", stdout=file) as process:
            with open(self.at("port"), "wb", buffering=0):
                while os.path.getsize(self.at("x.wav")) < 44 + 640 * 20:
                    time.sleep(0.01)
                process.send_signal(signal.SIGINT)
                process.communicate(timeout=60)
        self.assertEqual(process.returncode, 0)
        self.assertGreaterEqual(len(samples(self.get("x.wav"))), 20)

    def test_for_some_seconds(self):
        os.mkfifo(self.at("port"))
        with self.start("--live", "o.orc", "port", "-", "--seconds", "0.2") as process, open(self.at("port"), "wb"):
            out, _ = process.communicate(timeout=60)
        self.assertEqual(len(out), 44 + 20 * 640)


class Demo(Folder):
    def test_the_demo_is_played(self):
        for score, length in (("tune.sasl", "18.0 seconds"), ("keys.mid", "17.8 seconds")):
            orchestra = score.split(".")[0] + ".orc"
            self.assertIn(length, self.played(os.path.join(DEMO, orchestra), os.path.join(DEMO, score), "x.wav"))
