"""Makes a C source with its text behind one that all have, and a depfile of what was read.

Usage: text.py TEXT NAME FOLDER COMMON
"""

import sys

text, name, folder, common = sys.argv[1:]
made = "%s/%s.c" % (folder, name)
with open(common, encoding="utf-8") as lines:
    words = [lines.read().strip()]
with open(text, encoding="utf-8") as lines:
    words.append(lines.read().strip())
with open(made, "w", encoding="utf-8") as source:
    source.write('const char %s[] = "%s";\n' % (name, " ".join(words)))
with open(made + ".d", "w", encoding="utf-8") as depfile:
    depfile.write("%s: %s\n" % (made, common))
