"""The comparison that compare-preprocessor.sh makes, of crates/c_tokens with `gcc -E`.

1. Files of C's subset are generated from a fixed seed, each with headers of its own: object macros, nested and within themselves; conditionals, nested,
   with expressions whose values are computed here, so that the generator knows which groups are taken; included files and built-in headers, also by
   macros; literals with escapes; comments in every place; splices, trigraphs and digraphs; line ends with carriage returns. The spellings of all tokens
   must be gcc's. For the built-in headers gcc reads the texts that c_tokens prints.
2. Files that break one rule: both must refuse them, at the same line.
3. The macros of the built-in headers have the values that they have in gcc's own, as far as those are of the same machine: integers of 8, 16, 32 and
   64 bits and char unsigned.

What is left out, since it is outside the subset or one of the two says more than the standard:
- function-like macros, `#`, `##`, `#line` and other directives that the subset has not; floating constants, literals with a prefix, `...`;
- bytes outside the basic source character set outside comments and literals: gcc takes `$` and others into names;
- literals without their end in groups that are skipped: gcc passes over them;
- expressions whose value the standard doesn't define, as shifts by 64 or signed overflow: gcc gives some value. A comma that is evaluated, likewise;
- `defined` that a macro gives (undefined by 6.10.1p4);
- character constants above 127 in expressions: plain char is unsigned here, and where it is so gcc takes all of them for unsigned numbers;
- a backslash with blanks behind it at a line's end: gcc takes it for a splice;
- names that begin with two underscores: gcc has macros of that form; `#pragma` with a word that gcc knows, since gcc obeys it;
- places of tokens: gcc tells them by lines that join spliced ones. Faults in headers, which fcc places at the `#include`;
- MB_LEN_MAX, which is the library's choice, and the codes of ISO_Fortran_binding.h, which are the processor's.
"""
import os, random, re, subprocess, sys, tempfile

TOKEN = re.compile(r"""(?:u8|[LuU])?"(?:\\.|[^\\"\n])*"|[LuU]?'(?:\\.|[^\\'\n])*'|\.?[0-9](?:[eEpP][+-]|[A-Za-z0-9_.])*|[A-Za-z_][A-Za-z0-9_]*
    |%:%:|\.\.\.|<<=|>>=|->|\+\+|--|<<|>>|<=|>=|==|!=|&&|\|\||\*=|/=|%=|\+=|-=|&=|\^=|\|=|\#\#|<:|:>|<%|%>|%:|[^\s]""", re.X)
NUMBER = re.compile(r"(0[xX][0-9a-fA-F]+|0[0-7]*|[1-9][0-9]*)([uU]?(?:l|L|ll|LL)?|(?:l|L|ll|LL)[uU])")
ESCAPE = r"\\(?:['\"?\\abfnrtv]|[0-3]?[0-7]{1,2}(?![0-7])|[0-3][0-7]{2}|x0*[0-9a-fA-F]{1,2}(?![0-9a-fA-F]))"
TEXT = re.compile(rf'"(?:{ESCAPE}|[^\\"\n])*"')
BYTE = re.compile(rf"'(?:{ESCAPE}|[^\\'\n])'")
MARKS = ("[ ] ( ) { } . -> ++ -- & * + - ~ ! / % << >> < > <= >= == != ^ | && || ? : ; = *= /= %= += -= <<= >>= &= ^= |= , "
         "<: :> <% %>").split()
TRIGRAPHS = {"#": "=", "[": "(", "\\": "/", "]": ")", "^": "'", "{": "<", "|": "!", "}": ">", "~": "-"}
HEADERS = "stddef.h stdint.h stdbool.h limits.h stdlib.h string.h stdio.h ISO_Fortran_binding.h".split()
PLAIN = "x y int a1 _z else L u8 E p defined".split()
MACROS = ["A", "B", "C", "D", "Loop", "u"]
NUMBERS = ["N0", "N1", "N2", "N3"]
GCC = ["gcc", "-E", "-P", "-std=c11", "-w"]


def is_token(s):
    """The spelling is a token of the subset."""
    if s[0].isalpha() or s[0] == "_":
        return s[-1] not in "\"'"
    if s[0].isdigit():
        m = NUMBER.fullmatch(s)
        return bool(m) and int(m[1], 8 if re.match("0[0-7]*$", m[1]) else 0) < 2**64
    return bool(TEXT.fullmatch(s) or BYTE.fullmatch(s)) or s in MARKS


# ---- expressions: a node is (operator, operands..); a leaf is ("leaf", spelling, value, is_unsigned)

HEIGHTS = {op: h for h, ops in enumerate(["||", "&&", "|", "^", "&", "== !=", "< > <= >=", "<< >>", "+ -", "* / %"], 2) for op in ops.split()}
UNARY, HIGHEST = 12, 13


def is_unsigned(node):
    op = node[0]
    if op == "leaf":
        return node[3]
    if op in ("neg", "plus", "flip"):
        return is_unsigned(node[1])
    if op == "?":
        return is_unsigned(node[2]) or is_unsigned(node[3])
    if op in ("<<", ">>"):
        return is_unsigned(node[1])
    return op in HEIGHTS and HEIGHTS[op] in (4, 5, 6, 10, 11) and (is_unsigned(node[1]) or is_unsigned(node[2]))


def fitted(value, unsigned):
    if unsigned:
        return value % 2**64
    return value if -2**63 <= value < 2**63 else None


def value_of(node):
    """The value, or None where the standard defines none."""
    op, unsigned = node[0], is_unsigned(node)
    if op == "leaf":
        return node[2]
    if op in ("&&", "||"):
        a = value_of(node[1])
        if a is None or bool(a) == (op == "||"):
            return None if a is None else int(bool(a))
        b = value_of(node[2])
        return None if b is None else int(bool(b))
    if op == "?":
        a = value_of(node[1])
        b = None if a is None else value_of(node[2] if a else node[3])
        return None if b is None else fitted(b, unsigned)
    a, b = value_of(node[1]), value_of(node[2]) if len(node) > 2 else 0
    if a is None or b is None:
        return None
    if len(node) == 2:
        return int(not a) if op == "not" else fitted({"neg": -a, "plus": a, "flip": ~a}[op], unsigned)
    if op in ("<<", ">>"):
        return None if not 0 <= b < 64 else fitted(a << b if op == "<<" else a >> b, unsigned)
    if is_unsigned(node[1]) or is_unsigned(node[2]):
        a, b = a % 2**64, b % 2**64
    if HEIGHTS[op] in (7, 8):
        return int({"==": a == b, "!=": a != b, "<": a < b, ">": a > b, "<=": a <= b, ">=": a >= b}[op])
    if op in "/%":
        if b == 0:
            return None
        q = abs(a) // abs(b) * (1 if (a < 0) == (b < 0) else -1)
        return fitted(q if op == "/" else a - q * b, unsigned)
    return fitted({"+": a + b, "-": a - b, "*": a * b, "&": a & b, "|": a | b, "^": a ^ b}[op], unsigned)


def spelled(rng, node, least):
    """The tokens of a node where an operator of at least this height may stand without parentheses."""
    op = node[0]
    if op == "leaf":
        return list(node[1])
    if op == "?":
        height, tokens = 1, spelled(rng, node[1], 2) + ["?"] + spelled(rng, node[2], 1) + [":"] + spelled(rng, node[3], 1)
    elif len(node) == 2:
        height, tokens = UNARY, [{"neg": "-", "plus": "+", "flip": "~", "not": "!"}[op]] + spelled(rng, node[1], UNARY)
    else:
        height = HEIGHTS[op]
        tokens = spelled(rng, node[1], height) + [op] + spelled(rng, node[2], height + 1)
    return ["("] + tokens + [")"] if height < least or rng.random() < 0.1 else tokens


class Maker:
    """Makes the files of one case, and follows which macros there are where lines are acted on."""

    def __init__(self, rng):
        self.rng, self.files, self.made, self.macros, self.values = rng, {}, set(), {}, {}
        self.budget = rng.choice([10, 30, 60])

    # ---- pieces of lines

    def spelling(self):
        rng = self.rng
        k = rng.random()
        if k < 0.45:
            return rng.choice(MARKS)
        if k < 0.75:
            return rng.choice(PLAIN + MACROS * 2 + NUMBERS + ["INT_MIN", "NULL", "true", "bool", "EOF", "UINT64_MAX", "CFI_type_other", "H0"])
        if k < 0.87:
            digits = rng.choice(["0", "7", "017", "0x1F", "0Xabcdef", "42", "2147483648", "18446744073709551615", "0xFFFFFFFFFFFFFFFF"])
            return digits + rng.choice(["", "", "", "u", "U", "l", "L", "ul", "LU", "ll", "LLu", "Ull"])
        if k < 0.94:
            return '"' + "".join(self.element('"') for _ in range(rng.randrange(6))) + '"'
        return "'" + self.element("'") + "'"

    def element(self, quote):
        rng = self.rng
        plain = [c for c in "az09 _+-*/%#$@`.,;:!?'\"[]{}()<>=&|^~\t\xe9\xff" if c != quote] + ["/*", "*/", "//"] * (quote == '"')
        escapes = ["\\" + c for c in "'\"?\\abfnrtv"] + ["\\0", "\\12", "\\377", "\\x41", "\\xfF", "\\x000a"]
        return rng.choice(plain if rng.random() < 0.6 else escapes)

    def gap(self, in_directive=False):
        rng = self.rng
        inner = rng.choice(["", "c", " it's \" // ", "*", "/ *", "\xe9$@#", "\\"] + ([] if rng.random() < 0.8 else ["\n", "a\nb\n"]))
        blanks = [" ", "  ", "\t", " \t "] + ([] if in_directive else ["\v", "\f"])
        return f"/*{inner}*/" if rng.random() < 0.15 else rng.choice(blanks)

    def line(self, tokens, in_directive=False):
        """The tokens in one line, with white space where they would be read otherwise without."""
        out, run = "", []
        for token in tokens:
            if run and self.rng.random() < 0.4 and TOKEN.findall("".join(run) + token) == run + [token] and not re.search("//|/[*]", "".join(run[-1:]) + token):
                out, run = out + token, run + [token]
            else:
                out, run = out + (self.gap(in_directive) if run else "") + token, [token]
        return out

    def run_on(self):
        """Tokens with nothing between them, read as the longest, where all are of the subset."""
        text = "".join(self.spelling() for _ in range(self.rng.randrange(2, 6)))
        found = TOKEN.findall(text)
        return text if all(map(is_token, found)) and not re.search("//|/[*]", text) else None

    def expression(self, depth):
        rng = self.rng
        if depth == 0 or rng.random() < 0.2:
            return self.leaf()
        if rng.random() < 0.25:
            return (rng.choice(["neg", "plus", "flip", "not"]), self.expression(depth - 1))
        if rng.random() < 0.12:
            return ("?", *(self.expression(depth - 1) for _ in range(3)))
        return (rng.choice(list(HEIGHTS)), self.expression(depth - 1), self.expression(depth - 1))

    def leaf(self):
        rng = self.rng
        k = rng.random()
        if k < 0.5:
            digits, value = rng.choice([("0", 0), ("1", 1), ("2", 2), ("3", 3), ("010", 8), ("0x1f", 31), ("63", 63), ("0xffffffff", 2**32 - 1),
                                        ("9223372036854775807", 2**63 - 1), ("0x8000000000000000", 2**63), ("18446744073709551615", 2**64 - 1)])
            suffix = rng.choice(["", "", "", "u", "L", "uL", "LLU"])
            return ("leaf", [digits + suffix], value, value >= 2**63 or "u" in suffix.lower())
        if k < 0.6:
            spelling, value = rng.choice([("'a'", 97), (r"'\177'", 127), (r"'\n'", 10), (r"'\0'", 0), (r"'\x7F'", 127), (r"'\''", 39), ("'\"'", 34)])
            return ("leaf", [spelling], value, False)
        name = rng.choice(MACROS + NUMBERS + PLAIN[:-1])
        if k < 0.75:
            return ("leaf", rng.choice([["defined", name], ["defined", "(", name, ")"]]), int(name in self.macros or name in self.values), False)
        name = rng.choice(NUMBERS + ["x", "int", "else"])
        value, unsigned = self.values.get(name, ((0, False), None))[0]
        return ("leaf", [name], value, unsigned)

    def condition(self):
        """The tokens of an expression that has a value, and whether it isn't 0."""
        while True:
            node = self.expression(self.rng.randrange(4))
            value = value_of(node)
            if value is not None:
                return spelled(self.rng, node, 1), value != 0

    # ---- lines

    def directive(self, word, tokens=(), joined=None):
        rng = self.rng
        rest = joined if joined is not None else self.line(tokens, True)
        head = rng.choice(["", "", "", " ", "\t", "/* c */ "]) + rng.choice(["#", "#", "#", "# ", "%:", "#/*c*/", "#\t"]) + word
        tail = rng.choice(["", "", "", " ", "/*c*/", " // c"])
        return head + ((self.gap(True) + rest) if rest else "") + tail + "\n"

    def text_line(self):
        rng = self.rng
        run = self.run_on() if rng.random() < 0.3 else None
        text = run if run is not None else self.line([self.spelling() for _ in range(rng.randrange(8))])
        return rng.choice(["", "", " ", "/*c*/"]) + text + rng.choice(["", "", " ", " // it's", "/*\n*/"]) + "\n"

    def define(self, live):
        rng = self.rng
        if rng.random() < 0.5:
            name = rng.choice(NUMBERS)
            tokens, _ = self.condition()
            node = self.leaf() if rng.random() < 0.5 else None
            if node is not None and "defined" not in node[1]:
                body, value = node[1], (node[2], node[3])
            else:
                value = rng.choice([0, 1, -1, 5])
                body, value = (["(", "-", "1", ")"] if value < 0 else [str(value)]), (value, False)
            if name in body:
                body, value = [name], (0, False)
            return self.define_as(live, name, body, value)
        name = rng.choice(MACROS)
        body = [self.spelling() for _ in range(rng.choice([0, 1, 1, 2, 3]))]
        return self.define_as(live, name, body, None)

    def define_as(self, live, name, body, value):
        table = self.macros if value is None else self.values
        if live and name in table:
            if self.rng.random() < 0.4:
                return self.directive("define", joined=name + table[name][1])
            del table[name]
            return self.directive("undef", [name])
        text = self.line(body, True) if body else ""
        text = self.rng.choice([" ", " ", "\t", "/**/"]) + text if text else ""
        if live:
            if value is not None and any(other in body for other in NUMBERS):
                value = (0, False) if body == [name] else value
            table[name] = (value, text)
        return self.directive("define", joined=name + text)

    def undefine(self, live):
        name = self.rng.choice(MACROS + NUMBERS + ["x"])
        if live:
            self.macros.pop(name, None)
            self.values.pop(name, None)
        return self.directive("undef", [name])

    def skipped(self):
        rng = self.rng
        return rng.choice(["#error not met\n", "#bad\n", "1.5 L'x' ## ...\n", "#if (\n#else x\n#endif y\n", "#include \"absent.h\"\n", "#define F(x) #x\n", "#line 3\n", "\\ \"\\q\"\n"])

    def include(self, live):
        rng = self.rng
        k = rng.randrange(10)
        if k < 4:
            name = f"h{rng.randrange(4)}.h"
            if live and name not in self.made:
                self.made.add(name)
                guard = name[:2].upper()
                body = self.group(rng.randrange(1, 6), True)
                self.files[name] = f"#ifndef {guard}\n#define {guard}\n{body}#endif\n"
            return self.directive("include", joined=f'"{name}"')
        if k < 6:
            self.files["plain.h"] = "int A; /* read as often as it is included */\n#undef x\n"
            return self.directive("include", joined='"plain.h"')
        header = rng.choice(HEADERS)
        if k < 8:
            return self.directive("include", joined=f"<{header}>")
        if live:
            return f"#undef Named\n#define Named <{header}>\n" + self.directive("include", joined="Named")
        return self.directive("include", joined="Named")

    def choice(self, live):
        """A conditional."""
        rng, taken, out = self.rng, False, ""
        for k in range(rng.choice([1, 1, 2, 3])):
            now = False
            if k == 0 and rng.random() < 0.4:
                word, name = rng.choice(["ifdef", "ifndef"]), rng.choice(MACROS + NUMBERS + ["x"])
                now = (name in self.macros or name in self.values) == (word == "ifdef")
                out += self.directive(word, [name])
            else:
                asked = live and not taken
                tokens, now = self.condition() if asked or rng.random() < 0.7 else (["(", "1", "+"], False)
                out += self.directive("if" if k == 0 else "elif", tokens)
            now = live and now and not taken
            taken = taken or now
            out += self.group(rng.randrange(4), now)
        if rng.random() < 0.6:
            out += self.directive("else") + self.group(rng.randrange(4), live and not taken)
        return out + self.directive("endif")

    def group(self, count, live):
        rng, out = self.rng, ""
        for _ in range(count):
            if self.budget <= 0:
                break
            self.budget -= 1
            k = rng.random()
            if k < 0.4:
                out += self.text_line()
            elif k < 0.6:
                out += self.define(live)
            elif k < 0.65:
                out += self.undefine(live)
            elif k < 0.75:
                out += self.include(live)
            elif k < 0.9:
                out += self.choice(live)
            elif k < 0.95:
                out += self.directive("pragma", ["fcc", self.rng.choice(PLAIN)]) if rng.random() < 0.5 else self.directive("")
            else:
                out += "" if live else self.skipped()
        return out

    def whole(self):
        text = "".join(self.group(6, True) for _ in range(4))
        while self.rng.random() < 0.5 and text.endswith("\n"):
            text = text[:-1]
        self.files["q.c"] = text
        return {name: changed(self.rng, text) for name, text in self.files.items()}


def changed(rng, text):
    """The text with trigraphs and splices in it, and line ends of either form."""
    if "??" in text:
        text = text.replace("??", "? ")
    trigraphs, splices = rng.choice([(0, 0), (0, 0.02), (0.3, 0), (0.5, 0.05)])
    out = []
    for k, c in enumerate(text):
        written = "??" + TRIGRAPHS[c] if c in TRIGRAPHS and rng.random() < trigraphs and not (out and out[-1] == "?") else c
        out.append(written)
        if rng.random() < splices and c != "?" and k + 1 < len(text):
            out.append(rng.choice(["\\\n", "\\\n", "??/\n"]))
    text = "".join(out)
    return text.replace("\n", "\r\n") if rng.random() < 0.15 else text


# ---- both programs

def run(*command, cwd):
    return subprocess.run(command, cwd=cwd, stdin=subprocess.DEVNULL, stdout=subprocess.PIPE, stderr=subprocess.PIPE, encoding="latin-1")


def our_tokens(program, folder):
    """The tokens of q.c; or None and what is said of it in their place."""
    done = run(program, "q.c", cwd=folder)
    lines = [line for line in done.stdout.split("\n") if line]
    if done.returncode != 0 or lines and lines[0].startswith("q.c: "):
        return None, (done.stderr + done.stdout).strip()
    return [line.split(": ", 1)[1] for line in lines], ""


def gcc_tokens(folder, *words):
    done = run(*GCC, *words, "q.c", cwd=folder)
    if done.returncode != 0:
        return None, done.stderr.strip()
    lines = [line for line in done.stdout.split("\n") if not line.lstrip().startswith("#")]
    return [token for line in lines for token in TOKEN.findall(line)], ""


def write(folder, files):
    for name, text in files.items():
        with open(os.path.join(folder, name), "wb") as f:
            f.write(text.encode("latin-1"))


def keep(files):
    folder = tempfile.mkdtemp(prefix="compare-preprocessor-")
    write(folder, files)
    return folder


def compare_generated(program, headers, count):
    rng, differ, tokens = random.Random(20261201), 0, 0
    for k in range(count):
        files = Maker(rng).whole()
        with tempfile.TemporaryDirectory() as folder:
            write(folder, files)
            ours, our_fault = our_tokens(program, folder)
            theirs, their_fault = gcc_tokens(folder, "-undef", "-nostdinc", "-isystem", headers)
        if ours is None or ours != theirs:
            differ += 1
            if differ <= 5:
                print(f"file {k} differs, kept in {keep(files)}: {our_fault} {their_fault}")
                first = next((i for i, pair in enumerate(zip(ours or [], theirs or [])) if pair[0] != pair[1]), None)
                if first is not None:
                    print(f"  token {first}: {ours[first - 3:first + 3]}, gcc has {theirs[first - 3:first + 3]}")
        else:
            tokens += len(ours)
    print(f"generated files: {count}, {tokens} tokens, {differ} differ")
    return differ


# each breaks a rule at its last line but those marked by their line
REFUSED = [r"#if 1@1", "#ifdef A\n#if 1\n#endif@1", "#else", "#elif 1", "#endif", "#if 1\n#else\n#else", "#if 0\n#else\n#elif 1", "#if 1\n#endif x", "#if 1\n#else x",
           "#ifdef A B", "#error", "x\n#error 1", "#define A 1\n#define A 2", "#define A\n#define A 1", "#define A 1 + 2\n#define A 1+2", "#define A(", "#define", "#define 1",
           "#define defined", "#define A+1", "#undef", "#undef 1", "#undef A B", "#undef defined", "#ifdef", "#ifdef 1", "#ifndef +", "#if", "#if 1 +", "#if (1", "#if 1)",
           "#if 1 2", "#if 1 / 0", "#if 1 % 0", "#if 1.5", "#if \"a\"", "#if ''", "#if defined", "#if defined (A", "#if defined 1", "#if 1 ? 2", "#if 1 = 1", "#if x++",
           "#if 9223372036854775807 + 1", "#if 18446744073709551616", "#if (1, 2)", "#if 0\n#elif 1 +", "#include", "#include x", "#include <absent.h>", "#include \"absent.h\"",
           "#include <stddef.h> x", "#include \"", "#bad", "x\n# 1 bad", "int a = 'b", "\"abc\n@1", "a\n/* b", "#define A /*\n@1", "a\n\x01", "`", "@"]


def line_of(said):
    m = re.search(r"q\.c:(\d+):|q\.c: P\d\d at (\d+):", said)
    return int(m[1] or m[2]) if m else None


def compare_refused(program, headers):
    differ = 0
    for text in REFUSED:
        text, _, line = text.partition("@") if len(text) > 1 and text[-1].isdigit() and "@" in text else (text, "", "")
        wanted = int(line) if line else text.count("\n") + 1
        with tempfile.TemporaryDirectory() as folder:
            write(folder, {"q.c": text})
            ours, our_fault = our_tokens(program, folder)
            done = run("gcc", "-E", "-std=c11", "-pedantic-errors", "-undef", "-nostdinc", "-isystem", headers, "q.c", cwd=folder)
            parsed = run("gcc", "-fsyntax-only", "-std=c11", "-pedantic-errors", "-undef", "-nostdinc", "-isystem", headers, "q.c", cwd=folder)
        is_library = our_fault.startswith("q.c: library ")
        refused = done.returncode != 0 or parsed.returncode != 0
        at = line_of(done.stderr if done.returncode else parsed.stderr)
        if ours is not None or not refused or at != wanted or not (is_library or line_of(our_fault) == wanted):
            differ += 1
            print(f"{text!r}: {our_fault or 'accepted'}, gcc: {(done.stderr if done.returncode else parsed.stderr).strip().splitlines()[:1]}")
    print(f"files that break a rule: {len(REFUSED)}, {differ} differ")
    return differ


def compare_values(program, headers):
    """Each macro of the headers against gcc's own."""
    names, differ = [], 0
    for header in ("limits.h", "stdint.h"):
        with open(os.path.join(headers, header)) as f:
            names += [(header, name, body) for name, body in re.findall(r"#define ([A-Z]\w*) (.*)", f.read()) if name != "MB_LEN_MAX"]
    for header, name, body in names:
        with tempfile.TemporaryDirectory() as folder:
            write(folder, {"q.c": f"#include <{header}>\n#if defined {name} && ({name}) == ({body}) && (({name}) < 0) == (({body}) < 0)\nsame\n#endif\n"})
            if (gcc_tokens(folder, "-funsigned-char")[0] or [])[-1:] != ["same"]:
                differ += 1
                print(f"{name} of {header} is another number than {body}")
    texts = [("stdbool.h", "bool true false"), ("stddef.h", "NULL"), ("stdio.h", "EOF")]
    for header, text in texts:
        with tempfile.TemporaryDirectory() as folder:
            write(folder, {"q.c": f"#include <{header}>\nmarker {text}\n"})
            found = [tokens[tokens.index("marker"):] for tokens in (our_tokens(program, folder)[0], gcc_tokens(folder)[0])]
            if found[0] != found[1]:
                differ += 1
                print(f"{text} of {header}: {found[0]}, gcc has {found[1]}")
    print(f"macros of headers: {len(names) + len(texts)}, {differ} differ")
    return differ


def main():
    program = os.path.abspath("crates/c_tokens/out/c_tokens")
    if not os.path.exists(program):
        subprocess.run(["rt", "run"], cwd="crates/c_tokens", stdin=subprocess.DEVNULL, stdout=subprocess.DEVNULL, check=True)
    count = int(sys.argv[1]) if len(sys.argv) > 1 else 400
    with tempfile.TemporaryDirectory() as headers:
        for header in HEADERS:
            write(headers, {header: run(program, "--header", header, cwd=headers).stdout})
        differ = compare_generated(program, headers, count) + compare_refused(program, headers) + compare_values(program, headers)
    return 1 if differ else 0


if __name__ == "__main__":
    sys.exit(main())
