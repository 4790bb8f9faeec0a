#!/usr/bin/env python3
"""What the program writes to standard error behind the line of a fault, on wrong scripts and on random bytes.

    checks/faults.py PROGRAM

Standard output and the status are the same with a standard error that is closed, full or a pipe that nobody reads. The picture
has three lines, in which no control byte stands but a tab, and the line and the column of a text fault are those of its byte.
A script without a fault has none.
"""
import random
import subprocess
import sys

PROGRAM = sys.argv[1]
SCRIPTS = [b"foo;", b"1+;", b'"a', b"(" * 5000, b"1;" * 10000 + b"foo;", b" " * 1048570 + b"foo;", b"1" * 1048576, b"(*" + b"x" * 1000000,
           bytes(range(256)) * 100, b"1;\n" * 3000 + b"foo\n;", b'1; readval \\V using NETCDF1 at ("none.nc", "v", 0, 1);']
PICTURES = [
    (b"1;\n  2 + {3}; 4;\n", b"2:3:   2 + {3}; 4;\n       ^^^^^^^^\naql: the declaration that begins here has no type\n"),
    (b"1; {x | x <- gen!3};", b"1:9: 1; {x | x <- gen!3};\n             ^\naql: no value of the name `x` is declared here, and a name in a pattern without `\\` is compared\n"),
    (b"{count | \\x <- gen!3};", b"1:2: {count | \\x <- gen!3};\n      ^^^^^\naql: `count` is a macro: it is applied, `count!x`, and is no value\n"),
    (b"let val \\y = 3 in sum!y end;", b"1:19: let val \\y = 3 in sum!y end;\n                        ^^^\naql: no macro of the name `sum` is declared here\n"),
    (b"(fn \\x => x!3)!2;", b"1:11: (fn \\x => x!3)!2;\n                ^\naql: `x` is a local name, which has a value, and no macro\n"),
    (b"[[1; 2]];\nval\t\\x 3;", b"2:8: val\t\\x 3;\n        \t   ^\naql: `=` is wanted here, and the number `3` stands here\n"),
    ("\"é\" ≤ 1;".encode(), "1:6: \"é\" ≤ 1;\n         ^\naql: no sign, word, number or string begins here\n".encode()),
    (b"1; (* \x1b[31m \x9b", b"1:4: 1; (* ?[31m ?\n        ^^\naql: this comment is not closed: it goes to the next `*)`, and comments do not nest\n"),
]


def run(script, error=""):
    r = subprocess.run(["bash", "-c", f'"$0" {error}', PROGRAM], input=script, stdout=subprocess.PIPE, stderr=subprocess.PIPE, timeout=60)
    return (r.returncode, r.stdout), r.stderr


def is_plain(picture):
    lines = picture.split(b"\n")
    return len(lines) == 4 and lines[2].startswith(b"aql: ") and not any(b < 32 and b != 9 or b == 127 for line in lines for b in line)


def differ(script, error, what):
    print(f"{what}: {script[:80]!r}: {error!r}")
    return 1


failed = 0
for script in SCRIPTS:
    answer, error = run(script)
    if not is_plain(error):
        failed += differ(script, error, "no picture")
    for other in ("2>&-", "2>/dev/full", "2> >(true)"):
        if run(script, other)[0] != answer:
            failed += differ(script, answer, f"another answer with {other}")
for script, picture in PICTURES:
    error = run(script)[1]
    if error != picture:
        failed += differ(script, error, "another picture")
if run(b"1+2;")[1] != b"":
    failed += differ(b"1+2;", b"", "a picture without a fault")
random.seed(11)
for _ in range(500):
    script = bytes(random.choice(b'ab1 {}()[];,|\\<-=+"\n\t\x1b\x9b\xc2\xe2\x82\xac') for _ in range(random.randint(1, 60)))
    (status, output), error = run(script)
    if status == 0:
        failed += error != b"" and differ(script, error, "a picture without a fault")
    elif not is_plain(error):
        failed += differ(script, error, "no picture")
    elif status == 3:
        at = int(output.split()[-1])
        place = b"%d:%d: " % (script[:at].count(b"\n") + 1, at - script[:at].rfind(b"\n"))
        if not error.startswith(place):
            failed += differ(script, error, "another place")
sys.exit(1 if failed else 0)
