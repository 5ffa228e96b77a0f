"""Makes a photograph and a film of 500 MB with stores that are valid, and their verdict files: generate.py FOLDER PERCENT."""
import os
import sys

sys.path.insert(0, os.path.join(os.path.dirname(os.path.abspath(__file__)), "..", "archive"))
from photographs import FRONT, SCAN, TABLES, Film, Photographs, write_file, write_random

folder, percent = sys.argv[1], int(sys.argv[2])
pieces = 500 * percent // 100


def write(name, made, ahead):
    """A file and its verdict file."""
    write_file(f"{folder}/{name}.verdicts", write_random(f"{folder}/{name}", made, ahead, pieces))


write("photograph", Photographs(TABLES + SCAN), FRONT + TABLES + SCAN)
film = Film(pieces * 1_000_000)
write("film", film, film.word + film.head)
