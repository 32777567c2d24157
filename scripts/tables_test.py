#!/usr/bin/env python3
"""tables.py held to what it must find. The last line is 'N passed, M failed'."""
import pathlib
import subprocess
import sys
import tempfile

from tables import arrays, below, functions_of, need

OBJECT = """
static const unsigned char table[129] = {1, 2, 3};
static const unsigned short small[64] = {4, 5, 6};
int by_table(unsigned n) { return table[n]; }
int by_small(unsigned n) { return small[n]; }
int calls(unsigned n) { return by_table(n + 1) * 3; }
int a(int), b(int), c(int), d(int), e(int), f(int);
int by_jumps(unsigned n, unsigned m)
{
    switch (n) {
    case 0: a(1); break; case 1: b(2); break; case 2: c(3); break; case 3: d(4); break; case 4: e(5); break;
    default: f(6);
    }
    switch (m) {
    case 0: return b(1); case 1: return c(2); case 2: return d(3); case 3: return e(4); case 4: return f(5);
    case 5: return e(6); case 6: return b(7); default: return a(8);
    }
}
int by_jump(unsigned n)
{
    switch (n) {
    case 0: return a(1); case 1: return b(2); case 2: return c(3); case 3: return d(4); case 4: return e(5);
    default: return f(6);
    }
}
"""


def compiled():
    """What each function of the object above needs."""
    with tempfile.TemporaryDirectory() as name:
        folder = pathlib.Path(name)
        (folder / "x.c").write_text(OBJECT)
        sections = ["-ffunction-sections", "-fdata-sections", "-fno-inline", "-fno-pic"]
        subprocess.run(["gcc", "-O2", *sections, "-c", "-o", folder / "x.o", folder / "x.c"], check=True)
        subprocess.run(["ar", "rcs", folder / "x.a", folder / "x.o"], check=True)
        return {name: need(section) for name, section in functions_of(folder / "x.a").items() if section}


def main():
    needs = compiled()
    cases = {
        "the crates below": below(["isa"], "word:\nisa: word\nxm23: isa word\n") == ["isa", "word"],
        "the crates below those below": below(["c"], "a:\nb: a io\nc: b\nd: c\n") == ["a", "b", "c"],
        "a type of 129 elements": arrays("fn f(a: [u16; 129]) {}") == [129],
        "a type of sixteen's digits": arrays("fn f(a: [u16; 0x80]) {}") == [128],
        "a length that is no number": arrays("fn f(a: [u16; MANY]) {}") == [None],
        "a list": arrays("const A: [u8; 3] = [f(1, 2), 2, 3,];") == [3, 3],
        "a list of 129": arrays("let a = [" + "1, " * 129 + "];") == [129],
        "arrays that a caller lends": arrays("fn f(a: &mut [u8; 65536], b: &[u16; 200]) {}") == [],
        "a list of zeros that is lent": arrays("f(&[0u8; 200], &mut [0; 300]);") == [200, 300],
        "a string": arrays('let a = "' + "x" * 129 + '";') == [129],
        "an array in a comment or a contract": arrays("// [u8; 999]\nensures { λ r. ⌜ r ≡ [1; 999] ⌝ }\n") == [],
        "an array of arrays": sorted(arrays("let a: [[u8; 2]; 200];")) == [2, 200],
        "129 bytes of data": needs["by_table"][3] == 129,
        "data behind a call": needs["calls"][3] == 129,
        "128 bytes of data": needs["by_small"][1:] == (0, 128, 128, 0),
        "a jump table is no data": needs["by_jump"][1] >= 20 and needs["by_jump"][2] == 0,
        "the places of a jump table": needs["by_jump"][4] == 5,
        "the places of the longest of two": needs["by_jumps"][4] == 7,
    }
    wrong = [name for name, held in cases.items() if not held]
    for name in wrong:
        print(f"tables.py fails: {name}")
    print(f"{len(cases) - len(wrong)} passed, {len(wrong)} failed")
    return 1 if wrong else 0


if __name__ == "__main__":
    sys.exit(main())
