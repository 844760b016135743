"""The comparison that compare-isa.sh makes."""
import os, random, re, subprocess, sys, tempfile

PREFIX = "riscv64-linux-gnu-"
BRANCHES = "beq bne blt bge bltu bgeu".split()
LOADS = "lb lh lw ld lbu lhu lwu".split()
STORES = "sb sh sw sd".split()
IMMEDIATES = "addi slti sltiu xori ori andi addiw".split()
SHIFTS = "slli srli srai".split()
WORD_SHIFTS = "slliw srliw sraiw".split()
REGISTERS = ("add sub sll slt sltu xor srl sra or and mul mulh mulhsu mulhu div divu rem remu "
             "addw subw sllw srlw sraw mulw divw divuw remw remuw").split()
REGS = [0, 1, 2, 15, 16, 31]
SIGNED_12 = [-2048, -2047, -1, 0, 1, 1024, 2047]


def row(name, operands):
    """An instruction as isa_table prints it, from its name and operands."""
    fields = ", ".join(f"{field}: {value % 2**64 if field == 'imm' else value}" for field, value in operands)
    return name.capitalize() + (f" {{ {fields} }}" if operands else "")


def source(name, operands):
    """An instruction as the assembler reads it."""
    v = dict(operands)
    if name in ("fence", "ecall", "ebreak"):
        return name
    if name in ("lui", "auipc"):
        return f"{name} x{v['rd']}, {v['imm'] // 4096 % 2**20}"
    if name == "jal":
        return f"jal x{v['rd']}, .{v['imm']:+d}"
    if name in BRANCHES:
        return f"{name} x{v['rs1']}, x{v['rs2']}, .{v['imm']:+d}"
    if name in STORES:
        return f"{name} x{v['rs2']}, {v['imm']}(x{v['rs1']})"
    if name in LOADS or name == "jalr":
        return f"{name} x{v['rd']}, {v['imm']}(x{v['rs1']})"
    if name in REGISTERS:
        return f"{name} x{v['rd']}, x{v['rs1']}, x{v['rs2']}"
    return f"{name} x{v['rd']}, x{v['rs1']}, {v['imm']}"


def rows(regs, pick):
    """Each row with operands at the edges: all registers in one field and then the next, and all immediates that `pick` leaves."""
    for name in ("fence", "ecall", "ebreak"):
        yield name, []
    def forms(names, fields, imms):
        for name in names:
            for k, r in enumerate(regs):
                base = [(f, regs[(k + j) % len(regs)]) for j, f in enumerate(fields)]
                for imm in pick(imms):
                    yield name, base + ([("imm", imm)] if imm is not None else [])
    yield from forms(["lui", "auipc"], ["rd"], [-2**31, -4096, 0, 4096, 2**31 - 4096, 0x12345000])
    yield from forms(["jal"], ["rd"], [-2**20, -2050, -2, 0, 2, 2046, 2048, 4096, 2**20 - 2])
    yield from forms(BRANCHES, ["rs1", "rs2"], [-4096, -2050, -2, 0, 2, 30, 32, 2046, 2048, 4094])
    yield from forms(["jalr"] + LOADS + IMMEDIATES, ["rd", "rs1"], SIGNED_12)
    yield from forms(STORES, ["rs1", "rs2"], SIGNED_12)
    yield from forms(SHIFTS, ["rd", "rs1"], [0, 1, 31, 32, 63])
    yield from forms(WORD_SHIFTS, ["rd", "rs1"], [0, 1, 16, 31])
    yield from forms(REGISTERS, ["rd", "rs1", "rs2"], [None])


def run(*command, text=None):
    return subprocess.run(command, input=text, capture_output=True, text=True, check=True).stdout


def assembled(lines):
    """The words of these lines; each branch is written by its distance, so it may stand anywhere."""
    with tempfile.TemporaryDirectory() as folder:
        path = os.path.join(folder, "rows")
        with open(path + ".s", "w") as f:
            f.write(".option norelax\n.option norvc\n" + "\n".join(lines) + "\n")
        run(PREFIX + "as", "-march=rv64im", "-o", path + ".o", path + ".s")
        run(PREFIX + "objcopy", "-O", "binary", "-j", ".text", path + ".o", path)
        with open(path, "rb") as f:
            b = f.read()
    return [int.from_bytes(b[i:i + 4], "little") for i in range(0, len(b), 4)]


def disassembled(words):
    """What the disassembler says of each word; one whose low bits aren't those of 32 bits has another length, and stands as a no-op here."""
    words = [w if w % 4 == 3 and w % 32 != 31 else 0x13 for w in words]
    with tempfile.TemporaryDirectory() as folder:
        path = os.path.join(folder, "words")
        with open(path + ".s", "w") as f:
            f.write("".join(f".word {w:#010x}\n" for w in words))
        run(PREFIX + "as", "-march=rv64im", "-o", path + ".o", path + ".s")
        run(PREFIX + "objcopy", "-O", "binary", "-j", ".text", path + ".o", path)
        out = run(PREFIX + "objdump", "-D", "-b", "binary", "-m", "riscv:rv64", "-M", "no-aliases,numeric", path)
    names = {}
    for line in out.splitlines():
        m = re.match(r"\s*([0-9a-f]+):\s+([0-9a-f]+)\s+(\S+)(?:\s+(.*))?$", line)
        if m:
            names[int(m[1], 16)] = (int(m[2], 16), m[3], m[4] or "")
    return [names.get(4 * k) for k in range(len(words))]


def table(words):
    program = "crates/isa_table/out/isa_table"
    if not os.path.exists(program):
        subprocess.run(["rt", "run"], cwd="crates/isa_table", stdin=subprocess.DEVNULL, stdout=subprocess.DEVNULL, check=True)
    return run(program, text="".join(f"{w:08x}\n" for w in words)).splitlines()


def parsed(shown):
    """The name and the operands of a line of isa_table."""
    name, _, rest = shown.split(" ", 1)[1].partition(" ")
    operands = [(f, int(v)) for f, v in re.findall(r"(\w+): (\d+)", rest)]
    return name.lower(), [(f, v - 2**64 if f == "imm" and v >= 2**63 else v) for f, v in operands]


ROWS = set("lui auipc jal jalr fence ecall ebreak".split() + BRANCHES + LOADS + STORES + IMMEDIATES + SHIFTS + WORD_SHIFTS + REGISTERS)


def main():
    if "--rows" in sys.argv:
        chosen = list(rows([5, 18], lambda imms: imms[:1] if imms[0] is None else [imms[0], imms[-1]]))
        words = assembled(source(n, o) for n, o in chosen)
        for w, (n, o) in zip(words, chosen):
            print(f"{w:08x}\t{w:08x} {row(n, o)}")
        return 0
    faults = 0
    every = list(rows(REGS, lambda imms: imms))
    words = assembled(source(n, o) for n, o in every)
    assert len(words) == len(every)
    for w, shown, (n, o) in zip(words, table(words), every):
        if shown != f"{w:08x} {row(n, o)}":
            faults += 1
            print(f"{source(n, o)}: {w:08x} gives {shown}")
    print(f"rows: {len({n for n, _ in every})} names, {len(words)} words, {faults} differ")

    rng = random.Random(20261130)
    opcodes = [0x37, 0x17, 0x6f, 0x67, 0x63, 0x03, 0x23, 0x13, 0x1b, 0x33, 0x3b, 0x0f, 0x73]
    words = [rng.getrandbits(32) for _ in range(2000)]
    for _ in range(6000):
        w = rng.getrandbits(25) << 7 | rng.choice(opcodes)
        if rng.random() < 0.6:
            w = w & 0x01ffffff | rng.choice([0x00, 0x01, 0x20, 0x21, 0x02, 0x40]) << 25
        words.append(w)
    shown = table(words)
    seen = disassembled(words)
    some = [(w, s) for w, s in zip(words, shown) if s != "none"]
    again = assembled(source(*parsed(s)) for _, s in some)
    differ = sum(1 for (w, s), a in zip(some, again) if a != w or not s.startswith(f"{w:08x} "))
    for (w, s), a in zip(some, again):
        if a != w:
            print(f"{w:08x}: {s}, which the assembler makes {a:08x}")
    missed = 0
    for w, s, d in zip(words, shown, seen):
        known = d is not None and d[0] == w and d[1] in ROWS and (d[1] != "fence" or w == 0x0ff0000f)
        if known != (s != "none") or known and parsed(s)[0] != d[1]:
            missed += 1
            print(f"{w:08x}: {s}, and the disassembler says {d}")
    print(f"random words: {len(words)}, of them {len(some)} decode, {differ} assemble otherwise, {missed} disassemble otherwise")
    return 1 if faults or differ or missed else 0


sys.exit(main())
