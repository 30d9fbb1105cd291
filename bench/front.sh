#!/bin/sh
# Measures the text front on 1 MiB of different sources: megabytes a second from bytes to laid-out tokens, and from bytes
# to what habit answers, which is the line of a refusal: so the grammar, the depth and the second form are in it.
# It is no test, and rt ci does not run it. It needs python3.
set -eu
top=$(cd "$(dirname "$0")/.." && pwd)
(cd "$top/crates/front_tokens" && rt run -- data/two.hb >/dev/null)
(cd "$top/crates/habit" && rt run -- run data/hello.hb data/empty.script /dev/null >/dev/null)
python3 - "$top/crates/front_tokens/out/front_tokens" "$top/crates/habit/out/habit" "$top/crates/hb_front/src/samples.rt" <<'PYTHON'
import os, re, subprocess, sys, tempfile, time
tokens, habit, samples = sys.argv[1:]
SIZE = 1 << 20
text = open(samples).read()
echo = re.search(r'pub const UART: &\[u8\] = b"(.*?)";', text, re.S).group(1)

def filled(piece, last=""):
    return (piece * (SIZE // len(piece) + 1))[:SIZE - len(last)] + last

sources = {
    "the echo, many times": filled(echo.replace("\\\\", "\\") + "\n")[:SIZE].rsplit("\nbitdata", 1)[0] + "\n",
    "short names": filled("x "),
    "new names": "".join("n%07d " % n for n in range(SIZE // 9)),
    "numbers": filled("18446744073709551615 "),
    "comments in comments": "{-" * (SIZE // 4) + "-}" * (SIZE // 4),
    "lambdas": "f = " + filled("\\x -> ", "x")[:SIZE - 4],
    "lines of equations": filled("f x = do { a <- g x; h a (b + c) }\n").rsplit("\n", 1)[0] + "\n",
    "signatures": filled("f :: (Eq a, Ord b) => a -> (b, Bit 8) -> M Unit\n").rsplit("\n", 1)[0] + "\n",
    "lines of a block": "f = do\n" + filled(" a b\n")[: SIZE - 7],
    "let and in": filled("let a = 1 in ", "a"),
    "one space": " " * SIZE,
}
def best(words):
    seconds = []
    for _turn in range(3):
        start = time.monotonic()
        run = subprocess.run(words, stdout=subprocess.PIPE)
        seconds.append(time.monotonic() - start)
    return min(seconds), run.stdout.decode().strip() or "status %d" % run.returncode

with tempfile.TemporaryDirectory() as folder:
    path, script, image = (os.path.join(folder, name) for name in ("source.hb", "empty.script", "image"))
    open(script, "w").close()
    for name, source in sources.items():
        open(path, "w").write(source)
        for words in ([tokens, path], [habit, "run", path, script, image]):
            seconds, answer = best(words)
            print("%-22s %8d bytes  %6.3f s  %7.1f MB a second  %s" % (name, len(source), seconds, len(source) / seconds / 1e6, answer))
PYTHON
