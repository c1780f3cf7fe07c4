"""Tests of tools/stack: short disassemblies, and a compiler's own figures.

usage: test_stack_tool.py CC
"""

import pathlib
import subprocess
import sys
import tempfile
import unittest

from tool_modules import load_tool

ROOT = pathlib.Path(__file__).resolve().parents[2]
CC = ["gcc"]

CALLER = """
0000000000000000 <outer>:
   0:\tpush   %rbx
   1:\tsub    $0x20,%rsp
   5:\tcall   a <outer+0xa>
\t\t\t6: R_X86_64_PLT32\t.text.inner-0x4
   a:\tadd    $0x20,%rsp
   e:\tpop    %rbx
   f:\tret

0000000000000000 <inner>:
   0:\tmov    %rax,-0x18(%rsp)
   5:\tjmp    a <inner+0xa>
\t\t\t6: R_X86_64_PLT32\tmemmove-0x4
"""


STACK = load_tool("stack")


class StackTool(unittest.TestCase):
    def test_frames_and_chain(self):
        functions = STACK.functions_of(CALLER.splitlines())
        self.assertEqual({name: f.frame for name, f in functions.items()}, {"outer": 40, "inner": 24})
        self.assertEqual(functions["inner"].calls, {"memmove"})
        self.assertEqual(STACK.deepest(functions, "outer"), (40 + 8 + 24 + 8, ("outer", "inner")))

    def test_no_figure(self):
        for line in ("sub    %rax,%rsp", "and    $0xffffffffffffffe0,%rsp", "call   *%rax"):
            with self.subTest(line=line), self.assertRaises(STACK.NoFigure):
                STACK.functions_of(["0000 <f>:", "   0:\t" + line])
        both = ["0000 <f>:", "   0:\tcall   0 <g>", "0000 <g>:", "   0:\tcall   0 <f>"]
        itself = ["0000 <f>:", "   0:\tcall   0 <f>"]
        for lines in (both, itself):
            with self.subTest(lines=lines), self.assertRaises(STACK.NoFigure):
                STACK.deepest(STACK.functions_of(lines), "f")

    def test_never_below_the_compiler(self):
        """What the compiler says has the return address, and no red zone."""
        with tempfile.TemporaryDirectory() as folder:
            compiled = pathlib.Path(folder) / "reference.o"
            subprocess.run([*CC, "-std=c11", "-O1", "-fstack-usage", "-ffunction-sections", f"-I{ROOT}/include",
                            "-c", str(ROOT / "tests" / "host" / "reference.c"), "-o", str(compiled)], check=True)
            said = [line.split("\t") for line in compiled.with_suffix(".su").read_text().splitlines()]
            text = subprocess.run(["objdump", "-dr", "--no-show-raw-insn", str(compiled)],
                                  capture_output=True, text=True, check=True).stdout
        functions = STACK.functions_of(text.splitlines())
        self.assertGreater(len(said), 10)
        for place, size, _ in said:
            name = place.split(":")[-1]
            self.assertGreaterEqual(functions[name].frame + STACK.RETURN_ADDRESS, int(size), name)


if __name__ == "__main__":
    CC = sys.argv[1:]
    unittest.main(argv=sys.argv[:1])
