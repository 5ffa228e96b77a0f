#!/usr/bin/env python3
"""Processor time, time by the clock and peak memory of `plan-front` and `embed-front` of a film of 500 MB: long_films.py C2 FOLDER [SCALE [TURNS]].

The film has two tracks with a chunk for each half second of two hours, and its index in front or behind. Beside the two commands `cp`, `embed`,
`sha256sum` and c2's `digest` of the new file, which hashes all but the store, are run by turns, the least of so many (5). SCALE is in percent of the
500 MB. The status is 1 where `embed-front` takes more than 1.3 of the processor time of `cp` and `digest` together, where either command takes more
than 8 MB of memory, or where the new file isn't as it must be.
"""

import os
import sys
import tempfile

from made_films import FTYP, PIECE, headed, nested, new_file_is_wrong, run, table, write, write_inputs
from front_rows import END, LENGTH

MOST, MOST_MEMORY = 1.3, 8.0
CHUNKS = 14_400
TRACK = b"trak", b"mdia", b"minf", b"stbl"


class Long:
    """A film of random bytes, which are the same in each piece of a million."""

    def __init__(self, size, is_behind):
        self.piece, self.count, self.is_behind = os.urandom(PIECE), max(1, size // PIECE), is_behind
        self.samples = self.count * PIECE

    def index(self, first, by):
        """The index of samples that begin at a place, with places that are greater by so much."""
        places = [first + at * (self.samples // CHUNKS) for at in range(CHUNKS)]
        tracks = b"".join(nested(TRACK, len(one)) + one for one in (table(b"stco", places[turn::2], by) for turn in (0, 1)))
        return headed(b"moov", len(tracks)) + tracks

    def pieces(self, by=0):
        """The film, with places that are greater by so much."""
        samples = [headed(b"mdat", self.samples), *[self.piece] * self.count]
        first = END + len(samples[0])
        yield FTYP
        if self.is_behind:
            yield from [*samples, self.index(first, by)]
        else:
            # the index is as long with all places
            yield from [self.index(first + len(self.index(0, 0)), by), *samples]


def measured(program, folder, size, is_behind, turns):
    """Prints a table, and says whether all was as it must be."""
    film, path = Long(size, is_behind), lambda name: os.path.join(folder, name)
    write(path("film"), *film.pieces())
    given = write_inputs(folder)
    commands = {
        "cp": ["cp", path("film"), path("copy")],
        "plan-front": [program, "plan-front", path("film"), given[0]],
        "embed-front": [program, "embed-front", path("film"), *given, path("new")],
        "digest": [program, "digest", path("new")],
        "sha256sum": ["sha256sum", path("new")],
        "embed": [program, "embed", path("film"), *given, path("behind")],
    }
    rows = {name: [] for name in commands}
    for _ in range(turns):
        for name in "copy", "new", "behind":
            if os.path.exists(path(name)):
                os.remove(path(name))
        for name, words in commands.items():
            rows[name].append(run(words))
    least = {name: [min(told[at] for told in each) for at in (0, 1)] for name, each in rows.items()}
    wanted = least["cp"][0] + least["digest"][0]
    print(f"a film of {size / 1e6:.0f} MB, its index {'behind' if is_behind else 'in front'}")
    for name, each in rows.items():
        print(f"  {name:12} {least[name][0]:6.2f} s, {least[name][0] / max(wanted, 0.01):5.2f} of cp and digest; by the clock {least[name][1]:6.2f} s; {max(told[2] for told in each):6.1f} MB")
    wrong = new_file_is_wrong(program, folder, path("new"), film.pieces)
    if rows["embed-front"][0][3] != f"embedded {END} {LENGTH}":
        wrong += f"  {rows['embed-front'][0][3]}"
    memory = max(told[2] for name in ("plan-front", "embed-front") for told in rows[name])
    wrong += "  above" if least["embed-front"][0] > MOST * wanted or memory > MOST_MEMORY else ""
    print(wrong or "  the new file is as it must be")
    return not wrong


def main():
    program, folder, *more = sys.argv[1:]
    scale, turns = [*map(float, more), *(100, 5)[len(more) :]]
    all_right = True
    for is_behind in False, True:
        with tempfile.TemporaryDirectory(dir=folder) as work:
            all_right &= measured(os.path.abspath(program), work, int(500_000_000 * scale / 100), is_behind, int(turns))
    sys.exit(not all_right)


if __name__ == "__main__":
    main()
