"""C callers, compiled against the real library and run: the header's example, M1, and the demo's delay."""
import re
import subprocess
import tempfile
import unittest
from pathlib import Path

from support import DEMO, HEADER, M1_REPORT, byte_library, compiled

M1 = r"""
#include "identify.h"
#include <stdio.h>

int main(void)
{
    static const uint8_t config[24] = {0x3f, 0x80, 0, 0, 0x3f, 0x80, 0, 0, 0x3f, 0};
    static uint8_t calls[48], output[52];
    for (int k = 0; k < 4; k++) {
        calls[12 * k] = 0x3e;
        calls[12 * k + 1] = 0x80;
    }
    printf("%u ", (unsigned)identify_byte_run(config, sizeof config, calls, sizeof calls, output, sizeof output));
    for (int i = 0; i < 52; i++)
        printf("%02X", output[i]);
    return 0;
}
"""


def example() -> str:
    """The program in the header's comment, without the comment's marks."""
    text = HEADER.read_text(encoding="utf8")
    comment = text[text.index("Example:"):text.index("*/")]
    return "\n".join(line[7:] for line in comment.split("\n")[1:] if re.match(r" \*     ", line) or line == " *")


def run(source: str, *given: str) -> str:
    """What a C program writes that is linked with the library: for each text that it reads, or once for none."""
    with tempfile.TemporaryDirectory() as folder:
        program = compiled(Path(folder), [byte_library()], source, standard="c99")
        runs = (subprocess.run((program,), input=text, capture_output=True, text=True, check=True) for text in given or ("",))
        return "".join(run.stdout for run in runs)


class Header(unittest.TestCase):
    """A C caller."""

    def test_the_example_says_what_its_comment_says(self):
        program = example()
        said = re.findall(r"printf\(.*// ([^:\n]+)", program)
        self.assertEqual(len(said), 3)
        self.assertEqual(run(program).splitlines(), said)

    def test_m1(self):
        self.assertEqual(run(M1), f"0 {M1_REPORT}3F0000003E8000003E000000BEE00000")

    def test_the_delay_from_d_and_the_half_tick(self):
        logs = [(DEMO / f"{name}.csv").read_text() for name in ("noisy", "clean", "saturated")]
        program = (DEMO / "delay.c").read_text(encoding="utf8")
        self.assertEqual(run(program, *logs).splitlines(), ["3.5 ticks", "3 ticks", "no delay: kind 3"])


if __name__ == "__main__":
    unittest.main()
