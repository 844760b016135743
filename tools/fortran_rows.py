"""Runs blocks of Fortran statements, each of which prints one line, in one program that gfortran compiles."""
import os
import subprocess
import tempfile


def run(blocks):
    """What gfortran prints for the blocks, a line each."""
    with tempfile.TemporaryDirectory() as folder:
        source = os.path.join(folder, "rows.f90")
        with open(source, "w") as out:
            out.write("\n".join(["program rows"] + [line for lines in blocks for line in lines] + ["end program"]) + "\n")
        program = os.path.join(folder, "rows")
        subprocess.run(["gfortran", "-std=f2018", "-O0", "-w", "-ffree-line-length-none", "-o", program, source], check=True)
        lines = subprocess.run([program], check=True, capture_output=True, text=True).stdout.splitlines()
    assert len(lines) == len(blocks), (len(lines), len(blocks))
    return lines
