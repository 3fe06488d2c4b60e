"""The compiler has kept each value where a function makes room for a large frame; and the script finds where it hasn't."""

import subprocess

from support import TESTS, Case, needs

LOST_VALUE = """
f: cmp $3, %edx
ja 2f
mov %r8d, %r11d
push %rbp
push %r15
push %r14
push %r13
push %r12
push %rbx
mov %ecx, %ebx
mov %edi, %ebp
mov %rsp, %r11
sub $0x6c00, %r11
1: sub $0xc00, %rsp
movq $0, (%rsp)
cmp %r11, %rsp
jne 1b
add %r11d, %r10d
2: ret
"""


def probed(*files):
    """The status of frame_probes, and its output."""
    done = subprocess.run([TESTS / "frame_probes", *files], stdout=subprocess.PIPE, text=True)
    return done.returncode, done.stdout


class Frames(Case):
    def test_programs(self):
        needs("objdump", "binutils")
        self.assertEqual(probed(self.program, *[self.tiles] * bool(self.tiles)), (0, ""))

    def test_value_that_is_lost(self):
        needs("objdump", "binutils")
        needs("as", "binutils")
        made = self.folder / "lost.o"
        subprocess.run(["as", "-o", made, "-"], input=LOST_VALUE, text=True, check=True)
        self.assertEqual(probed(made), (1, f"{made}: f: add    %r11d,%r10d\n"))
