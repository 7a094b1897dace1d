"""Runs two builds of GN over random files, and compares what the files print and where their first fault stands.

Usage: random_files.py ORIGINAL OURS COUNT

The files keep clear of what docs/LANGUAGE.md lists as different. Where both end well, the lines that the files print must
be equal; where both find a fault, it must stand in the same line of the same file.
"""

import os
import random
import subprocess
import sys
import tempfile

TOOLCHAIN = """toolchain("t") {
  tool("stamp") {
    command = "touch {{output}}"
  }
}
"""


class Writer:
    """Writes the statements of one file, and remembers the types of the variables that it has set."""

    def __init__(self, chance, first, variables, templates, prints):
        self.chance = chance
        self.count = first
        self.scopes = [dict(variables)]
        self.templates = list(templates)
        self.prints = prints
        self.depth = 0
        self.lines = []

    def line(self, text):
        self.lines.append("  " * self.depth + text)

    def name(self, letter):
        self.count += 1
        return f"{letter}{self.count}"

    def known(self, kind):
        seen = {}
        for scope in self.scopes:
            seen.update(scope)
        return [name for name, its in seen.items() if its == kind]

    def own(self, kind):
        return [name for name, its in self.scopes[-1].items() if its == kind]

    def expression(self, kind, depth=0):
        known = self.known(kind)
        if known and self.chance.random() < 0.5:
            return self.chance.choice(known)
        return getattr(self, kind)(depth)

    def integer(self, depth):
        if depth < 2 and self.chance.random() < 0.4:
            operator = self.chance.choice("+-")
            return f"{self.expression('integer', depth + 1)} {operator} {self.expression('integer', depth + 1)}"
        return str(self.chance.randint(0 if depth else -5, 20))

    def boolean(self, depth):
        if depth > 1 or self.chance.random() < 0.2:
            return self.chance.choice(["true", "false"])
        form = self.chance.randrange(4)
        if form == 0:
            operator = self.chance.choice(["<", ">", "<=", ">="])
            return f"{self.expression('integer', 2)} {operator} {self.expression('integer', 2)}"
        if form == 1:
            kind = self.chance.choice(["integer", "string", "values"])
            operator = self.chance.choice(["==", "!="])
            return f"{self.expression(kind, 2)} {operator} {self.expression(kind, 2)}"
        if form == 2:
            operator = self.chance.choice(["&&", "||"])
            return f"({self.expression('boolean', depth + 1)} {operator} {self.expression('boolean', depth + 1)})"
        return f"!({self.expression('boolean', depth + 1)})"

    def string(self, depth):
        if depth < 2 and self.chance.random() < 0.3:
            right = self.chance.choice(["string", "integer"])
            return f"{self.expression('string', depth + 1)} + {self.expression(right, 2)}"
        if depth < 2 and self.chance.random() < 0.2:
            return self.text_call(depth)
        pieces = ""
        for _ in range(self.chance.randint(0, 3)):
            names = self.known("integer") + self.known("string") + self.known("values")
            if names and self.chance.random() < 0.5:
                pieces += "${" + self.chance.choice(names) + "}"
            else:
                pieces += self.chance.choice(["a", "c/d", "x.cc", "_", " ", '\\"', "%", "$0x41"])
        return f'"{pieces}"'

    def values(self, depth):
        if depth < 2 and self.chance.random() < 0.25:
            return f"{self.expression('values', depth + 1)} + {self.expression('values', depth + 1)}"
        if depth < 2 and self.chance.random() < 0.3:
            return self.list_call(depth)
        kinds = ["integer", "string", "string"] + ([] if depth else ["boolean", "values"])
        items = [self.expression(self.chance.choice(kinds), depth + 1) for _ in range(self.chance.randint(0, 4))]
        return "[ " + ", ".join(items) + " ]" if items else "[]"

    def strings(self, depth):
        return f"[ {', '.join(self.expression('string', depth + 1) for _ in range(self.chance.randint(0, 3)))} ]"

    def text_call(self, depth):
        text = self.expression("string", depth + 1)
        if self.chance.random() < 0.5:
            return f"string_join({text}, {self.strings(depth)})"
        old, most = self.chance.choice(["a", "/", ".cc", "A"]), self.chance.choice(["", ", 1", ", 2"])
        return f'string_replace({text}, "{old}", {self.expression("string", 2)}{most})'

    def list_call(self, depth):
        form = self.chance.randrange(4)
        if form == 0:
            return f"string_split({self.expression('string', depth + 1)})"
        if form == 1:
            return f'string_split({self.expression("string", depth + 1)}, "{self.chance.choice(["a", "/", "c/", " "])}")'
        if form == 2:
            return f"split_list({self.expression('values', depth + 1)}, {self.chance.randint(1, 4)})"
        name = self.chance.choice(["filter_include", "filter_exclude"])
        patterns = ", ".join(self.chance.sample(['"*a*"', '"*.cc"', '"c\\bd*"', '"*\\bd"', '"x.cc\\b"', '""', '"a"'], 2))
        return f"{name}({self.strings(depth)}, [ {patterns} ])"

    def entries(self, depth):
        kinds = ["integer", "string", "values", "boolean"]
        count = self.chance.randint(1, 3)
        return "{ " + " ".join(f"k{i} = {self.expression(self.chance.choice(kinds), depth + 1)}" for i in range(count)) + " }"

    def block(self, head, count, *last):
        self.line(head)
        self.depth += 1
        self.statements(count)
        for text in last:
            self.line(text)
        self.depth -= 1

    def statements(self, count):
        for _ in range(count):
            choices = [self.set, self.set, self.change, self.change, self.say, self.condition, self.element]
            # (loops in loops that make a list longer would be slow)
            if self.depth == 0:
                choices += [self.loop]
            if self.depth == 0 and self.prints:
                choices += [self.item, self.template, self.call, self.call]
            self.chance.choice(choices)()

    def set(self):
        kind = self.chance.choice(["integer", "string", "values", "boolean", "entries"])
        value = self.expression(kind)
        name = self.name("v")
        self.line(f"{name} = {value}")
        self.scopes[-1][name] = kind

    def change(self):
        kind = self.chance.choice(["integer", "string", "values"])
        for name in self.chance.sample(self.known(kind), min(1, len(self.known(kind)))):
            if kind == "values":
                self.line(f'{name} += [ 7, "zz" ]')
                self.line(f'{name} -= {self.chance.choice(["[ 7 ]", "[ 7, {0} ]", "[ {0} ]"]).format(chr(34) + "zz" + chr(34))}')
            else:
                self.line(f"{name} += {self.expression(kind)}")
                self.scopes[-1][name] = kind

    def element(self):
        for name in self.own("values")[:1]:
            self.line(f"{name}[{self.chance.randint(0, 2)}] = {self.expression('integer')}")
        for name in self.own("entries")[:1]:
            self.line(f"{name}.k{self.chance.randint(0, 2)} = {self.expression('string')}")

    def say(self):
        if self.prints:
            kinds = ["integer", "string", "values", "boolean", "entries"]
            words = [self.expression(self.chance.choice(kinds)) for _ in range(self.chance.randint(1, 3))]
            self.line(f"print({', '.join(words)})")

    def condition(self):
        self.block(f"if ({self.expression('boolean')}) {{", self.chance.randint(0, 2))
        if self.chance.random() < 0.5:
            self.block("} else {", self.chance.randint(0, 2))
        self.line("}")

    def loop(self):
        name = self.name("i")
        self.block(f"foreach({name}, {self.expression('values')}) {{", 1, *[f"print({name})"][: self.prints])
        self.line("}")

    def inner(self, head, count, *last):
        self.scopes.append({})
        self.block(head, count, *last)
        self.scopes.pop()
        self.line("}")

    def item(self):
        self.inner(f'group("{self.name("g")}") {{', self.chance.randint(0, 3), "print(target_name)", 'not_needed("*")')

    def template(self):
        name = self.name("t")
        forward = self.chance.choice(['"*"', '"*", [ "x" ]', '[ "x" ]', '[ "x", "y" ]'])
        reads = ["if (defined(invoker.x)) {", "  print(invoker.x)", "}", f"forward_variables_from(invoker, {forward})"]
        rest = ["if (defined(y)) {", "  print(y)", "}", 'not_needed(invoker, "*")', 'not_needed("*")']
        self.inner(f'template("{name}") {{', 0, "print(target_name)", *reads, *rest)
        self.templates.append(name)

    def call(self):
        for template in self.chance.sample(self.templates, min(1, len(self.templates))):
            given = [f"{name} = {self.expression(kind)}" for name, kind in [("x", "values"), ("y", "string"), ("z", "integer")]]
            self.inner(f'{template}("{self.name("n")}") {{', 0, *self.chance.sample(given, self.chance.randint(0, 3)))


def files(seed):
    """The files of one tree: a build file, and often a file that it imports, which prints nothing."""
    chance = random.Random(seed)
    tree, head, variables = {}, [], {}
    if chance.random() < 0.5:
        writer = Writer(chance, 100, {}, [], False)
        writer.statements(chance.randint(1, 8))
        tree["a.gni"] = "\n".join(writer.lines + ["_private = 1", ""])
        head, variables = ['import("//a.gni")'], writer.scopes[0]
    writer = Writer(chance, 0, variables, [], True)
    writer.statements(chance.randint(3, 20))
    tree["BUILD.gn"] = "\n".join(head + writer.lines + ['not_needed("*")', 'group("last") {', "}", ""])
    return tree


def answer(program, words, folder):
    """What a program makes of the folder: the lines that its files print or, where there is a fault, its file and line."""
    ended = subprocess.run([program, *words], cwd=folder, capture_output=True, text=True, check=False, timeout=60)
    lines = ended.stdout.splitlines()
    fault = [line.split(" ")[2].split(":")[:2] for line in lines if line.startswith("ERROR at ")]
    if ended.returncode:
        return "fault", fault[:1]
    return "lines", [line for line in lines if not line.startswith(("//:", "Done. Made "))]


def main():
    original, ours, count = os.path.abspath(sys.argv[1]), os.path.abspath(sys.argv[2]), int(sys.argv[3])
    ended, differ = {"lines": 0, "fault": 0}, 0
    with tempfile.TemporaryDirectory() as folder:
        for name in ("config", "toolchain"):
            os.mkdir(f"{folder}/{name}")
        common = {
            ".gn": 'buildconfig = "//config/BUILDCONFIG.gn"\n',
            "config/BUILDCONFIG.gn": 'set_default_toolchain("//toolchain:t")\n',
            "toolchain/BUILD.gn": TOOLCHAIN,
        }
        for seed in range(count):
            tree = files(seed)
            for name, text in {"a.gni": "", **common, **tree}.items():
                with open(f"{folder}/{name}", "w", encoding="utf-8") as file:
                    file.write(text)
            theirs, own = answer(original, ["gen", "out"], folder), answer(ours, ["ls", "out"], folder)
            ended[theirs[0]] += 1
            if theirs != own:
                differ += 1
                print(f"original_gn: tree {seed}: GN has {theirs}, and the built program {own}", file=sys.stderr)
    print(f"original_gn: {count} trees, of which GN finds {ended['lines']} right and {ended['fault']} wrong: {differ} differences")
    return 1 if differ else 0


if __name__ == "__main__":
    sys.exit(main())
