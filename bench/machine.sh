#!/bin/sh
# Measures the machine: millions of instructions a second on two loops, and the peak of memory for two numbers of steps.
# It is no test, and rt ci does not run it. It needs python3, and for the peak GNU time in /usr/bin/time.
set -eu
top=$(cd "$(dirname "$0")/.." && pwd)
folder=$(mktemp -d)
trap 'rm -rf "$folder"' EXIT
: >"$folder/empty.script"

# An image without ports, with areas of 4096 bytes and a stack of 4096 bytes. The words of code are the arguments.
image() {
    python3 -c '
import struct, sys
words = [int(word, 16) for word in sys.argv[2:]]
head = b"HBIM" + struct.pack("<HHIII", 1, 0, 4096, 4096, len(words))
open(sys.argv[1], "wb").write(head + struct.pack("<%dI" % len(words), *words))
' "$@"
}

# Runs an image for so many steps, and prints the seconds and the peak of memory, which GNU time reads.
measure() {
    python3 -c '
import os, subprocess, sys, time
name, steps, program, image, script, peak = sys.argv[1:]
command = [program, "exec", image, script, "--steps", steps]
timed = os.access("/usr/bin/time", os.X_OK)
if timed:
    command = ["/usr/bin/time", "-q", "-f", "%M", "-o", peak] + command
start = time.monotonic()
run = subprocess.run(command, stdout=subprocess.PIPE)
seconds = time.monotonic() - start
if run.returncode != 9 or run.stdout != b"end steps %d\n" % int(steps):
    sys.exit("machine.sh: the run answered status %d and %r" % (run.returncode, run.stdout))
kibibytes = open(peak).read().strip() if timed else "unknown:"
print("%-16s %11s steps  %7.2f s  %6.1f million a second  peak %s KiB"
      % (name, steps, seconds, int(steps) / seconds / 1e6, kibibytes))
' "$1" "$2" "$top/crates/habit/out/habit" "$folder/$3" "$folder/empty.script" "$folder/peak"
}

# ADDI x5, x5, 1; ADDI x6, x6, 1; JAL x0, -8
image "$folder/count.img" 00128293 00130313 FF9FF06F
# LUI x5, 20000; then SW x6, 0(x5); LW x6, 0(x5); ADDI x6, x6, 1; JAL x0, -12
image "$folder/memory.img" 200002B7 0062A023 0002A303 00130313 FF5FF06F

# The launcher builds the program where it has to. Its words are refused with status 2.
"$top/habit" >"$folder/refused" || [ $? -eq 2 ]

lscpu 2>/dev/null | grep -E '^(Model name|CPU\(s\)):' || true
echo "load average before the runs: $(cut -d ' ' -f 1-3 /proc/loadavg)"
for steps in 40000000 400000000; do
    measure counting "$steps" count.img
    measure 'loads and stores' "$steps" memory.img
done
