"""The front of the player: it reads what people have, an orchestra, a score, a MIDI file, and tells them what became of it.

It prepares calls for the panel and writes down the samples that come back. What sounds is the proved program `replay`.
"""
