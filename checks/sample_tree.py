"""Makes a sample tree: a program on a binary tree of so many static libraries, one in each directory.

Usage: sample_tree.py FOLDER COUNT
"""

import os
import sys

DOTFILE = 'buildconfig = "//build/BUILDCONFIG.gn"\n'

CONFIGURATION = 'set_default_toolchain("//build:gcc")\n'

TOOLCHAIN = """toolchain("gcc") {
  obj = "{{source_out_dir}}/{{target_output_name}}.{{source_name_part}}.o"
  bin = "{{output_dir}}/{{target_output_name}}{{output_extension}}"
  tool("cc") {
    command = "gcc {{defines}} {{include_dirs}} {{cflags}} {{cflags_c}} -c {{source}} -o {{output}}"
    outputs = [ obj ]
  }
  tool("cxx") {
    command = "g++ {{defines}} {{include_dirs}} {{cflags}} {{cflags_cc}} -c {{source}} -o {{output}}"
    outputs = [ obj ]
  }
  tool("alink") {
    command = "ar rcs {{output}} {{inputs}}"
    outputs = [ "{{target_out_dir}}/{{target_output_name}}{{output_extension}}" ]
    default_output_extension = ".a"
    output_prefix = "lib"
  }
  tool("solink") {
    command = "gcc -shared {{ldflags}} -o {{output}} {{inputs}} {{libs}}"
    outputs = [ bin ]
    default_output_extension = ".so"
    output_prefix = "lib"
  }
  tool("link") {
    command = "g++ {{ldflags}} -o {{output}} {{inputs}} {{solibs}} {{libs}}"
    outputs = [ bin ]
  }
  tool("stamp") {
    command = "touch {{output}}"
  }
}
"""

PROGRAM = """executable("app") {
  sources = [ "main.cc" ]
  deps = [ "//l0" ]
}
"""

LIBRARY = """config("inc") {
  include_dirs = [ "." ]
}
static_library("l%d") {
  sources = [ "a.cc", "b.cc" ]
  public_configs = [ ":inc" ]
  %s = [ %s ]
}
"""


def write(folder, path, text):
    whole = os.path.join(folder, path)
    os.makedirs(os.path.dirname(whole), exist_ok=True)
    with open(whole, "w", encoding="utf-8") as file:
        file.write(text)


def main():
    folder, count = sys.argv[1], int(sys.argv[2])
    write(folder, ".gn", DOTFILE)
    write(folder, "build/BUILDCONFIG.gn", CONFIGURATION)
    write(folder, "build/BUILD.gn", TOOLCHAIN)
    write(folder, "BUILD.gn", PROGRAM)
    for each in range(count):
        behind = ", ".join(f'"//l{other}"' for other in (2 * each + 1, 2 * each + 2) if other < count)
        name = "public_deps" if each % 2 else "deps"
        write(folder, f"l{each}/BUILD.gn", LIBRARY % (each, name, behind))


main()
