"""Makes a header of the names in a file and in a response file, each line a name, and a depfile of what was read.

Usage: names.py MADE FILE RESPONSE
"""

import shlex
import sys

made, file, response = sys.argv[1:]
with open(file, encoding="utf-8") as lines:
    names = lines.read().split("\n")[:-1]
with open(response, encoding="utf-8") as words:
    names += shlex.split(words.read())
with open(made, "w", encoding="utf-8") as header:
    header.write('#define NAMES "%s"\n' % ", ".join(names))
with open(made + ".d", "w", encoding="utf-8") as depfile:
    depfile.write("%s: %s\n" % (made, file))
