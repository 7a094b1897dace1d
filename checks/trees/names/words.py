"""Writes words into a file, a line each.

Usage: words.py FILE WORD..
"""

import sys

with open(sys.argv[1], "w", encoding="utf-8") as file:
    file.writelines(word + "\n" for word in sys.argv[2:])
