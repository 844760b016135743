"""The comparison that compare-c-syntax.sh makes, of crates/c_syntax with `gcc -fsyntax-only`.

1. Files of C's subset are generated from a fixed seed: typedef names, structs, enums, declarators of every shape, initial values, prototypes and functions,
   all statements and operators, with names of types that are shadowed by variables, parameters and enumerators and seen again. They obey C's other rules
   too, so both must accept them.
2. Each of them is changed at one token: left out, written twice, exchanged with its neighbour, or replaced by another of the file. Where c_syntax accepts such
   a file, gcc must find no fault of its syntax; where c_syntax refuses it, gcc must refuse it for some reason, by `-pedantic-errors`.

What is left out of the second comparison, since the subset hasn't got it: labels, bit-fields, members without a name, designators, compound literals,
lists of names in place of parameters, and qualifiers, `static` or `*` in brackets. Such files are counted where gcc accepts them.
"""
import os, random, re, shutil, subprocess, sys, tempfile

TOKEN = re.compile(r"""\"(?:\\.|[^\"\\])*\"|'(?:\\.|[^'\\])'|[A-Za-z_]\w*|\d+[uUlL]*|<<=|>>=|->|\+\+|--|<<|>>|<=|>=|==|!=|&&|\|\||[*/%+\-&^|]=|\S""")
GCC = ["gcc", "-fsyntax-only", "-std=c11", "-pedantic-errors", "-fmax-errors=1000"]
# behind `}` gcc tells a second type (6.7.2p2, a constraint) as a fault of form
SECOND_TYPE = "‘;’, identifier or ‘\\(’ before ‘(?:char|short|int|long|signed|unsigned|_Bool|void|enum|struct)’"
SYNTAX = re.compile(rf"error: (expected (?!{SECOND_TYPE})|unknown type name|stray|‘else’ without|two consecutive)")
NAMES = ["a", "b", "c", "d", "e", "f", "g", "T", "U", "V"]
BINARY = "* / % + - << >> < > <= >= == != & ^ | && ||".split()
ASSIGN = "= *= /= %= += -= <<= >>= &= ^= |=".split()
BASES = ["int", "unsigned", "long", "unsigned long", "short int", "char", "signed char", "_Bool", "long long", "unsigned long long int", "long unsigned"]
# what the subset leaves out, where a change of a token made it
OUTSIDE = re.compile(r"(?:[;{}:)]|else|do) (?!default )[A-Za-z_]\w* :(?! :)|[A-Za-z_]\w* : \d+ [;,]|[{,] [.\[]|\) \{ (?=[\d.({]|[A-Za-z_]\w* [,}])|\[ (?:const|static|restrict|\* \])|\} ;(?= \})")


class Maker:
    """A file, with the names in scope: what each of them is, innermost scope last."""

    def __init__(self, rng):
        self.rng, self.scopes, self.tags, self.count, self.labels = rng, [{}], [], 0, 0

    def pick(self, *choices):
        return self.rng.choice(choices)

    def chance(self, p):
        return self.rng.random() < p

    def seen(self, kind):
        """The names that are of a kind here."""
        names = {}
        for scope in self.scopes:
            names.update(scope)
        return [name for name, k in names.items() if k == kind]

    def fresh(self):
        """A name that isn't declared in this scope yet; it may hide another."""
        free = [n for n in NAMES if n not in self.scopes[-1]]
        if free and self.chance(0.7):
            return self.rng.choice(free)
        self.count += 1
        return f"x{self.count}"

    def bind(self, name, kind):
        self.scopes[-1][name] = kind
        return name

    # ---- types and declarators

    def base(self):
        types = self.seen("type")
        if types and self.chance(0.4):
            return self.rng.choice(types)
        return self.pick(*BASES)

    def specifiers(self, *before):
        words = [*before, self.base()]
        if self.chance(0.15):
            words.insert(self.rng.randrange(len(words) + 1), "const")
        return " ".join(words)

    def abstract(self):
        return self.base() + self.pick("", "", "", " *", " * const", " (*)(int)", " (*)[3]", " *(*)(void)")

    # ---- expressions

    def constant(self, deep=2):
        k = self.rng.randrange(9)
        if deep == 0 or k < 3:
            return self.pick("0", "1", "2", "7", "10u", "3l", "4ul", "5ll", "6ull", "0x1f", "017", "'a'", "'\\n'")
        enumerators = self.seen("enumerator")
        if k == 3 and enumerators:
            return self.rng.choice(enumerators)
        if k == 4:
            return f"sizeof({self.abstract()})"
        if k == 5:
            return f"({self.constant(deep - 1)})"
        if k == 6:
            return f"{self.pick('-', '~', '!', '+')} {self.constant(deep - 1)}"
        if k == 7:
            return f"({self.constant(deep - 1)} ? {self.constant(deep - 1)} : {self.constant(deep - 1)})"
        return f"({self.constant(deep - 1)} {self.pick('+', '-', '*', '|', '&', '^', '<', '==', '&&')} {self.constant(deep - 1)})"

    def place(self, deep):
        """What can be assigned to."""
        kinds = [k for k in ("int", "pointer", "array", "struct", "link") if self.seen(k)]
        kind = self.rng.choice(kinds) if kinds else None
        name = self.rng.choice(self.seen(kind)) if kind else None
        if kind == "int":
            return name
        if kind == "pointer":
            return self.pick(f"* {name}", f"(* {name})") if self.chance(0.5) else f"{name}[{self.value(deep - 1)}]"
        if kind == "array":
            return self.pick(f"{name}[{self.value(deep - 1)}]", f"* {name}", f"* ({name} + {self.operand(deep - 1)})")
        if kind == "struct":
            return f"{name}.m"
        if kind == "link":
            return f"{name}->m"
        return None

    def operand(self, deep):
        if deep <= 0:
            names = self.seen("int") + self.seen("enumerator")
            return self.rng.choice(names) if names and self.chance(0.7) else self.constant(0)
        k = self.rng.randrange(13)
        place = self.place(deep)
        if k < 3 and place:
            return place
        if k == 3 and place:
            return f"{self.pick('++', '--')} {place}"
        if k == 4 and place and not place.startswith("*"):
            return f"{place} {self.pick('++', '--')}"
        if k == 5:
            return f"{self.pick('-', '~', '!', '+')} {self.operand(deep - 1)}"
        if k == 6:
            return f"({self.base()}) {self.operand(deep - 1)}"
        if k == 7:
            return f"({self.value(deep - 1)})"
        if k == 8:
            return f"sizeof({self.abstract()})"
        if k == 9:
            return f"sizeof {self.operand(0)}" if self.chance(0.5) else f"sizeof({self.operand(deep - 1)})"
        functions = self.seen("function")
        if k == 10 and functions:
            return f"{self.rng.choice(functions)}({self.assigned(deep - 1)})"
        if k == 11 and place:
            return f"* & {place}"
        return self.constant(1)

    def operation(self, deep):
        e = self.operand(deep)
        for _ in range(self.pick(0, 0, 1, 1, 2, 3)):
            e += f" {self.rng.choice(BINARY)} {self.operand(deep - 1)}"
        return e

    def assigned(self, deep):
        k = self.rng.randrange(6)
        place = self.place(deep) if deep > 0 else None
        if k == 0 and place:
            return f"{place} {self.rng.choice(ASSIGN)} {self.assigned(deep - 1)}"
        if k == 1 and deep > 0:
            return f"{self.operation(deep - 1)} ? {self.value(deep - 1)} : {self.operation(deep - 1)}"
        return self.operation(deep)

    def value(self, deep=3):
        e = self.assigned(deep)
        while self.chance(0.1):
            e += f", {self.assigned(deep)}"
        return e

    # ---- declarations

    def declared(self, outside):
        """A declaration."""
        k = self.rng.randrange(9)
        if k == 0:
            name, base = self.fresh(), self.base()
            self.bind(name, "type")
            return f"{self.pick('typedef ' + base, base + ' typedef')} {self.pick(name, '(' + name + ')')};"
        if k == 1:
            return self.enumeration()
        if k == 2:
            return self.structure(outside)
        if k == 3:
            name, base = self.fresh(), self.base()
            self.bind(name, "array")
            return f"{base} {name}[{self.pick('3', '2 + 1')}]{self.pick('', ' = {1, 2}', ' = {1, 2, 3,}', ' = {' + self.constant() + '}')};"
        if k == 4:
            name, base = self.fresh(), self.base()
            self.bind(name, "pointer")
            return f"{base} * {self.pick('', 'const ', '')}{self.pick(name, '(' + name + ')')}{self.pick('', ' = 0')};"
        if k == 5:
            name = self.fresh()
            self.bind(name, "text")
            return self.pick(f'char * {name} = "a";', f'const char {name}[] = "a" "\\n" "b";', f'char {name}[2][3] = {{{{1, 2}}, {{3}},}};', f"int (* {name})(int, char *);", f"int * (* {name}[2])(void), (* (* {name}y)(int))[3];")
        # variables of one type; a name is declared before its value, and stands in no constant
        static = self.pick([], [], ["static"])
        initial = self.constant if outside or static else lambda: self.assigned(2)
        specifiers, parts = self.specifiers(*static), []
        for _ in range(self.pick(1, 1, 2, 3)):
            name = self.bind(self.fresh(), "constant" if "const" in specifiers else "int")
            parts.append(self.pick(name, f"({name})") + (f" = {initial()}" if "const" in specifiers or self.chance(0.5) else ""))
        return f"{specifiers} {', '.join(parts)};"

    def enumeration(self):
        items = []
        for _ in range(self.pick(1, 2, 3)):
            value = f" = {self.constant()}" if self.chance(0.3) else ""
            items.append(self.bind(self.fresh(), "enumerator") + (" = 1" if value else ""))
        self.count += 1
        tag = self.pick("", f"e{self.count} ")
        return f"enum {tag}{{{', '.join(items)}{self.pick('', ',')}}};"

    def structure(self, outside):
        self.count += 1
        tag = f"s{self.count}"
        members = f"{self.base()} m; {self.base()} T, * U, c[2];{self.pick('', f' struct {tag} * next;')}"
        one, other = self.fresh(), None
        self.bind(one, "struct")
        text = f"struct {tag} {{{members}}} {one}"
        if self.chance(0.5):
            other = self.bind(self.fresh(), "link")
            text += f", * {other}"
        return text + ";"

    # ---- statements

    def block(self, deep, loop, switch, names=()):
        self.scopes.append({n: "int" for n in names})
        parts = []
        for _ in range(self.rng.randrange(1, 5)):
            parts.append(self.declared(False) if self.chance(0.3) else self.statement(deep - 1, loop, switch))
        self.scopes.pop()
        return "{ " + " ".join(parts) + " }"

    def statement(self, deep, loop, switch):
        k = self.rng.randrange(14) if deep > 0 else self.rng.randrange(4)
        inside = lambda loop=loop, switch=switch: self.statement(deep - 1, loop, switch)
        if k == 0:
            return ";"
        if k == 1:
            return f"return {self.value(2)};"
        if k == 2 and (loop or switch):
            return self.pick("break;", "continue;") if loop else "break;"
        if k == 4:
            return self.block(deep, loop, switch)
        if k == 5:
            return f"if ({self.value(2)}) {inside()}"
        if k == 6:
            taken = inside()
            taken = "{ " + taken + " }" if taken.startswith("if") or "if (" in taken else taken
            return f"if ({self.value(2)}) {taken} else {inside()}"
        if k == 7:
            return f"while ({self.value(2)}) {inside(True)}"
        if k == 8:
            return f"do {inside(True)} while ({self.value(2)});"
        if k == 9:
            self.scopes.append({})
            name, base = self.fresh(), self.base()
            start = self.bind(name, "int")
            text = f"for ({base} {start} = {self.assigned(2)}; {self.optional()}; {self.optional()}) {inside(True)}"
            self.scopes.pop()
            return text
        if k == 10:
            return f"for ({self.optional()}; {self.optional()}; {self.optional()}) {inside(True)}"
        if k == 11:
            self.labels += 1
            first = self.labels * 100
            parts = [f"case {first + i}: {self.statement(deep - 1, loop, True)}" for i in range(self.rng.randrange(3))]
            if self.chance(0.5):
                parts.append(f"default: {self.statement(deep - 1, loop, True)}")
            return f"switch ({self.value(2)}) {{ {' '.join(parts)} }}"
        return self.value(3) + ";"

    def optional(self):
        return self.value(2) if self.chance(0.7) else ""

    # ---- files

    def function(self):
        name, base = self.fresh(), self.base()
        if self.chance(0.25):
            self.bind(name, "function")
            parameter = self.pick("int", "int a", "int T", "char", "unsigned long b")
            return f"{self.pick('', 'extern ')}{base} {name}({parameter});"
        parameter = self.pick("a", "b", "T", "U", "x")
        typed = f"{self.base()} {parameter}"
        self.bind(name, "function")
        body = self.block(4, False, False, [parameter])
        return f"{self.pick('', 'static ')}{base} {self.pick(name, '(' + name + ')')}({typed}) {body}"

    def whole(self):
        return "\n".join(self.function() if self.chance(0.45) else self.declared(True) for _ in range(self.rng.randrange(3, 9))) + "\n"


def changed(rng, tokens):
    """The tokens, changed in one place."""
    tokens, k = list(tokens), rng.randrange(len(tokens))
    way = rng.randrange(4)
    if way == 0:
        del tokens[k]
    elif way == 1:
        tokens.insert(k, tokens[k])
    elif way == 2 and k + 1 < len(tokens):
        tokens[k], tokens[k + 1] = tokens[k + 1], tokens[k]
    else:
        tokens[k] = rng.choice(tokens)
    return tokens


# ---- both programs

def gcc_errors(folder, name):
    done = subprocess.run([*GCC, name], cwd=folder, stdin=subprocess.DEVNULL, stdout=subprocess.PIPE, stderr=subprocess.PIPE, encoding="utf-8", env={**os.environ, "LC_ALL": "C.UTF-8"})
    return [line for line in done.stderr.split("\n") if "error:" in line]


def our_lines(program, folder, names):
    lines = {}
    for k in range(0, len(names), 100):
        done = subprocess.run([*program, *names[k:k + 100]], cwd=folder, stdin=subprocess.DEVNULL, stdout=subprocess.PIPE, stderr=subprocess.PIPE, encoding="latin-1")
        if done.returncode != 0:
            raise SystemExit(f"c_syntax ends with {done.returncode}: {done.stderr.strip()}")
        for line in done.stdout.split("\n"):
            name, _, said = line.partition(": ")
            lines[name] = said
    return lines


def generated(folder, count):
    """Writes the files, and gives their names: those that are in the grammar, and those that were changed."""
    rng, whole, broken = random.Random(20261202), [], []
    for k in range(count):
        text = Maker(rng).whole()
        whole.append(f"w{k}.c")
        with open(os.path.join(folder, whole[-1]), "w") as f:
            f.write(text)
        for i in range(2):
            broken.append(f"b{k}_{i}.c")
            with open(os.path.join(folder, broken[-1]), "w") as f:
                f.write(" ".join(changed(rng, TOKEN.findall(text))) + "\n")
    return whole, broken


def compare(folder, lines, whole, broken):
    differ, accepted, refused, passed = [], 0, 0, 0
    for name in whole:
        errors = gcc_errors(folder, name)
        if errors or "external" not in lines[name]:
            differ.append((name, lines[name], errors[:1]))
    for name in broken:
        text, errors = open(os.path.join(folder, name)).read(), gcc_errors(folder, name)
        if "external" in lines[name]:
            accepted += 1
            found = [e for e in errors if SYNTAX.search(e)]
            if found:
                differ.append((name, lines[name], found[:1]))
        elif errors:
            refused += 1
        elif OUTSIDE.search(text):
            passed += 1
        else:
            differ.append((name, lines[name], []))
    for name, ours, theirs in differ[:20]:
        print(f"{name}: fcc says {ours}; gcc says {theirs[0] if theirs else 'nothing'}")
    print(f"{len(whole)} files of the grammar; {len(broken)} changed ones, of which {accepted} are accepted, {refused} refused and {passed} outside the subset; "
          f"{len(differ)} differ")
    return differ


def main():
    count = int(sys.argv[1]) if len(sys.argv) > 1 else 300
    program = os.path.abspath("crates/c_syntax/out/c_syntax")
    if not os.path.exists(program):
        subprocess.run(["rt", "run"], cwd="crates/c_syntax", stdin=subprocess.DEVNULL, stdout=subprocess.DEVNULL, check=True)
    folder = tempfile.mkdtemp(prefix="compare-c-syntax-")
    whole, broken = generated(folder, count)
    differ = compare(folder, our_lines([program], folder, whole + broken), whole, broken)
    if differ:
        print(f"the files are in {folder}")
        sys.exit(1)
    shutil.rmtree(folder)


if __name__ == "__main__":
    main()
