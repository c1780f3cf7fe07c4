"""The README's C snippet as a program: its lines in a main, then a check.

usage: readme_snippet.py < README.md > program.c

The README has one block that begins with ```c. What it calls r is the commit's
reply, and the program's status says whether it is the reply that the README's
comment gives: done, value 510, version 1, generation 0.
"""

import re
import sys

PROGRAM = """#include "ospreyscreen.h"

int main(void)
{{
{snippet}
    return r.number == OSPREYSCREEN_DONE && r.first == 510 && r.second == 1 && r.third == 0 ? 0 : 1;
}}
"""


def main():
    snippets = re.findall(r"^```c\n(.*?)^```$", sys.stdin.read(), re.MULTILINE | re.DOTALL)
    if len(snippets) != 1:
        print(f"the README has {len(snippets)} C snippets, not one", file=sys.stderr)
        return 1
    print(PROGRAM.format(snippet=snippets[0].rstrip("\n")), end="")
    return 0


if __name__ == "__main__":
    sys.exit(main())
