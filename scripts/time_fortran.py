"""The times that time-fortran.sh takes, of crates/f_statements.

For each text: its bytes, tokens and statements, the seconds of a processor that half the text takes and the whole text, how many times longer the whole
takes, and the tokens of one second. A text has as many bytes as a file may have, 1,048,576, or as many tokens as there may be, 262,144. The time of the
program's start is taken off.
"""
import os, re, subprocess, sys, tempfile

from time_preprocessor import MOST_BYTES, MOST_TOKENS, processor


def program(line, tokens, percent):
    """A program of so many percent of the lines of that many tokens that fit."""
    count = min((MOST_TOKENS - 100) // (tokens + 1), (MOST_BYTES - 1000) // len(line)) * percent // 100
    return "program p\nimplicit none\n" + line * count + "end program\n"


def assignments(n):
    return program("total = total + values(i) * weight\n", 10, n)


def long_names(n):
    return program("a_name_of_forty_letters_in_all_as_it_may = a_name_of_forty_letters_in_all_as_it_may + 1\n", 5, n)


def choices(n):
    return program("if (a > b) then\nc = 1\nelse\nc = 2\nend if\n", 21, n)


def loops(n):
    return program("do i = 1, n\nx = x + i\nend do\n", 15, n)


def nested_parentheses(n):
    return program("x = " + "(" * 60 + "1" + ")" * 60 + "\n", 123, n)


def powers(n):
    """One expression of operators that group to the right, on continued lines."""
    return "program p\nx = 1" + "&\n&".join(["**1" * 40] * (10 * n)) + "\nend program\n"


def sums(n):
    """One expression of operators of one height, on continued lines."""
    return "program p\nx = 1" + "&\n&".join(["+1" * 40] * (30 * n)) + "\nend program\n"


def declarations(n):
    return program("integer(c_int), intent(in), value :: a, b, c\n", 17, n)


def calls(n):
    return program("call put(a, b(1:n:2), key = c)\n", 18, n)


def prints(n):
    return program("print *, 'a text', a, b\n", 9, n)


def comments(n):
    return program("x = 1 ! " + "a comment " * 9 + "\n", 3, n)


def procedures(n):
    body = "subroutine s(a)\ninteger, intent(inout) :: a\na = a + 1\nend subroutine\n"
    count = MOST_TOKENS // 28 * n // 100
    return body * count


TEXTS = [assignments, long_names, choices, loops, nested_parentheses, powers, sums, declarations, calls, prints, comments, procedures]


def timed(program, text):
    """What is put out, and the least seconds of a processor of three runs."""
    with tempfile.TemporaryDirectory() as folder:
        with open(os.path.join(folder, "p.f90"), "w", encoding="ascii", newline="") as f:
            f.write(text)
        least = None
        for _ in range(3):
            begin = processor()
            ran = subprocess.run([program, "p.f90"], cwd=folder, stdin=subprocess.DEVNULL, stdout=subprocess.PIPE)
            took = processor() - begin
            least = took if least is None else min(least, took)
    if ran.returncode:
        raise SystemExit(f"f_statements ends with {ran.returncode}")
    return ran.stdout.decode(), least


def main():
    program = os.path.abspath("crates/f_statements/out/f_statements")
    if not os.path.exists(program):
        subprocess.run(["rt", "run"], cwd="crates/f_statements", stdin=subprocess.DEVNULL, stdout=subprocess.DEVNULL, check=True)
    start = timed(program, "program p\nend program\n")[1]
    print(f"{'text':20}{'bytes':>9}{'tokens':>8}{'statements':>12}{'half':>8}{'whole':>8}{'growth':>8}{'tokens a second':>17}")
    for text in TEXTS:
        if len(sys.argv) > 1 and not any(word in text.__name__ for word in sys.argv[1:]):
            continue
        half = max(timed(program, text(50))[1] - start, 1e-4)
        out, took = timed(program, text(100))
        took = max(took - start, 1e-4)
        found = re.fullmatch(r"p\.f90: (\d+) tokens, (\d+) statements\n", out)
        if not found:
            print(f"{text.__name__:20}{len(text(100)):9}  {out.strip()}", flush=True)
            continue
        tokens, statements = map(int, found.groups())
        print(f"{text.__name__:20}{len(text(100)):9}{tokens:8}{statements:12}{half:8.3f}{took:8.3f}{took / half:8.2f}{tokens / took:17,.0f}", flush=True)


if __name__ == "__main__":
    main()
