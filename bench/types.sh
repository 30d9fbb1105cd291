#!/bin/sh
# Measures how long equations between types take: 300,040 of them, one call each, in four values (a chain of unknowns, a
# tower of applications from above, one from below, and forty nested pairs), and those of 2,000 chained calls of a
# function, one call each and all in one call. It is no test, and rt ci does not run it. It needs python3.
set -eu
top=$(cd "$(dirname "$0")/.." && pwd)
(cd "$top/crates/type_equations" && rt run >/dev/null)
python3 - "$top/crates/type_equations/out/type_equations" <<'PYTHON'
import subprocess, sys, time
for name, words in (("shapes", []), ("calls, one by one", ["calls"]), ("calls, together", ["together"])):
    seconds = []
    for _turn in range(3):
        start = time.monotonic()
        run = subprocess.run(sys.argv[1:] + words, stdout=subprocess.PIPE)
        seconds.append(time.monotonic() - start)
    print("%s: %s in %.3f s, unknowns and types included" % (name, run.stdout.decode().strip(), min(seconds)))
PYTHON
