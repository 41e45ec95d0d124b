"""Expected output: how vague a tile is.

Prints the 21 lines N,k,sets,listed for N 1, 2, 4 up to 64, ascending, and for
each N the k 1, 2, 3: the number of sets of k offsets of a tile of N days, and
the days that reading lists for all of them together.
"""

import daybook

if __name__ == "__main__":
    print(daybook.ambiguity_lines(), end="")
