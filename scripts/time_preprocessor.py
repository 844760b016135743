"""The times that time-preprocessor.sh takes, of crates/c_tokens.

For each text: how many bytes are read, how many tokens the program puts out, the seconds of a processor that half the text takes and the whole text, how many times longer the
whole takes, and the tokens, or where these are fewer than the bytes the bytes, of one second. A text is as long as a file may be, 1,048,576 bytes, or has as
many tokens as there may be, 262,144. The time of the program's start is taken off.
"""
import os, resource, subprocess, sys, tempfile

MOST_BYTES, MOST_TOKENS = 1_048_576, 262_144


def name(k):
    """A name of four letters, another for each number below 26 ** 4."""
    return "".join(chr(97 + k // 26**i % 26) for i in range(4))


def spread(count, line):
    """A file that includes files with so many lines, each of which is as long as a file may be."""
    files, lines, size = [], [], 0
    for k in range(count):
        text = line(k)
        if size + len(text) > MOST_BYTES:
            files.append("".join(lines))
            lines, size = [], 0
        lines.append(text)
        size += len(text)
    files.append("".join(lines))
    made = {f"h{k}.h": text for k, text in enumerate(files)}
    return made, "".join(f'#include "h{k}.h"\n' for k in range(len(files)))


def plain(n):
    return {"q.c": "abc " * (MOST_TOKENS * n // 100)}


def marks(n):
    return {"q.c": ">>= " * (MOST_TOKENS * n // 100)}


def definitions(n):
    files, text = spread(1000 * n, lambda k: f"#define {name(k)} 1\n")
    return {**files, "q.c": text}


def uses(n):
    files, text = spread(1000 * n, lambda k: f"#define {name(k)} 1\n")
    used, more = spread(1000 * n, lambda k: name(k * 7919 % (1000 * n)) + "\n")
    return {**files, **{f"u{k}": t for k, t in used.items()}, "q.c": text + more.replace('"h', '"uh')}


def same_again(n):
    return {"q.c": "#define A " + "1 " * (2500 * n) + "\n#define A " + "1 " * (2500 * n) + "\n"}


def nested_groups(n):
    return {"q.c": "#if 1\n" * (800 * n) + "#endif\n" * (800 * n)}


def skipped_groups(n):
    return {"q.c": "#if 0\n" * (800 * n) + "#endif\n" * (800 * n)}


def elifs(n):
    return {"q.c": "#if 0\n" + "#elif 0\n" * (1300 * n) + "#endif\n"}


def elifs_behind(n):
    return {"q.c": "#if 1\n" + "#elif 0\n" * (1300 * n) + "#endif\n"}


def long_expression(n):
    return {"q.c": "#if 1" + "+1" * (1300 * n) + "\n#endif\n"}


def spliced_comment(n):
    return {"q.c": "/*" + "\\\n" * (5200 * n) + "*/"}


def spliced_line(n):
    return {"q.c": "//" + "a\\\n" * (3400 * n) + "\n"}


def stars(n):
    return {"q.c": "/*" + "*" * (10000 * n) + "/"}


def string(n):
    return {"q.c": '"' + "\\x41g" * (2000 * n) + '"'}


def spliced_name(n):
    return {"q.c": "a\\\n" * (3400 * n)}


def trigraphs(n):
    return {"q.c": "??/\n" * (2600 * n)}


def digits(n):
    return {"q.c": "0" * (10000 * n)}


def sixteen_deep(n):
    part = "abc " * (MOST_TOKENS * n // 1700)
    files = {f"h{k}.h": f'{part}\n#include "h{k + 1}.h"\n' for k in range(1, 16)}
    return {**files, "h16.h": part, "q.c": f'{part}\n#include "h1.h"\n'}


def headers_again(n):
    return {"q.c": "#include <stdio.h>\n" * (500 * n)}


def doubled(first, count):
    return f"#define A0 {first}\n" + "".join(f"#define A{k + 1} A{k} A{k}\n" for k in range(count))


def bomb(n):
    return {"q.c": doubled("x", 18 if n == 100 else 17) + ("A18" if n == 100 else "A17")}


def bomb_past_the_limit(n):
    return {"q.c": doubled("x", 30000 * n // 100) + f"A{30000 * n // 100}"}


def empty_bomb(n):
    return {"q.c": doubled("", 350 * n) + f"A{350 * n}"}


def empty_uses(n):
    return {"q.c": doubled("", 60) + "A60\n" * (2500 * n)}


def empty_in_turn(n):
    """Sixty empty macros that hang together, the first of which is made anew before each use of the last."""
    return {"q.c": doubled("", 60) + "#undef A0\n#define A0\nA60\n" * (400 * n)}


def others_in_turn(n):
    """Many empty macros that are remembered, and another name that comes and goes."""
    return {"q.c": doubled("", 60) + "A60\n#undef B\n#define B\n" * (400 * n)}


def one_of_many_in_turn(n):
    """Many empty macros that do not hang together, of which one comes and goes."""
    many = "".join(f"#define {name(k)}\n{name(k)}\n" for k in range(300 * n))
    return {"q.c": many + "#undef aaaa\n#define aaaa\naaaa\n" * (100 * n)}


def all_in_turn(n):
    """Empty macros in a chain, of which the first is made anew before each use of the last: each list is gone through each time."""
    chain = "#define A0\n" + "".join(f"#define A{k + 1} A{k}\n" for k in range(40 * n))
    return {"q.c": chain + f"#undef A0\n#define A0\nA{40 * n}\n" * (10 * n)}


def chain(n):
    """A chain of macros of one token, used often: each list is gone through each time."""
    return {"q.c": "#define A0 x\n" + "".join(f"#define A{k + 1} A{k}\n" for k in range(40 * n)) + f"A{40 * n}\n" * (10 * n)}


# The lists that the last two go through grow with the square of their sizes, so that the whole takes four times as long.
TEXTS = [plain, marks, definitions, uses, same_again, nested_groups, skipped_groups, elifs, elifs_behind, long_expression, spliced_comment, spliced_line,
         stars, string, spliced_name, trigraphs, digits, sixteen_deep, headers_again, bomb, bomb_past_the_limit, empty_bomb, empty_uses, empty_in_turn,
         others_in_turn, one_of_many_in_turn, all_in_turn, chain]


def processor():
    """The seconds of a processor that the programs started here have taken."""
    used = resource.getrusage(resource.RUSAGE_CHILDREN)
    return used.ru_utime + used.ru_stime


def timed(program, files):
    """The bytes, what is put out, and the least seconds of a processor of three runs."""
    with tempfile.TemporaryDirectory() as folder:
        for file, text in files.items():
            with open(os.path.join(folder, file), "w", encoding="latin-1", newline="") as f:
                f.write(text)
        least = None
        for _ in range(3):
            begin = processor()
            ran = subprocess.run([program, "q.c"], cwd=folder, stdin=subprocess.DEVNULL, stdout=subprocess.PIPE)
            took = processor() - begin
            least = took if least is None else min(least, took)
    if ran.returncode:
        raise SystemExit(f"c_tokens ends with {ran.returncode}")
    return sum(len(text) for text in files.values()), ran.stdout, least


def main():
    program = os.path.abspath("crates/c_tokens/out/c_tokens")
    if not os.path.exists(program):
        subprocess.run(["rt", "run"], cwd="crates/c_tokens", stdin=subprocess.DEVNULL, stdout=subprocess.DEVNULL, check=True)
    start = timed(program, {"q.c": ""})[2]
    print(f"{'text':22}{'bytes':>9}{'tokens':>8}{'half':>8}{'whole':>8}{'growth':>8}{'a second':>13}")
    for text in TEXTS:
        if len(sys.argv) > 1 and not any(word in text.__name__ for word in sys.argv[1:]):
            continue
        half = max(timed(program, text(50))[2] - start, 1e-4)
        size, out, took = timed(program, text(100))
        took = max(took - start, 1e-4)
        tokens = out.count(b"\n") if b": P" not in out[:80] else 0
        rule = "  " + out.decode().strip() if not tokens and out else ""
        print(f"{text.__name__:22}{size:9}{tokens:8}{half:8.3f}{took:8.3f}{took / half:8.2f}{max(size, tokens) / took:13,.0f}{rule}", flush=True)


if __name__ == "__main__":
    main()
