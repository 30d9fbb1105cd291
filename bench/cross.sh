#!/bin/sh
# Compares which words the machine takes for instructions of RV32I with a standard disassembler, on 300 random words.
# Each word becomes an image of its own, and `habit exec` does one step of it. It is no test, and rt ci does not run it.
# Words: cross.sh [SEED]. It needs python3, and GNU objdump for RISC-V or llvm-mc; it ends with status 0 where both are
# missing, and with status 1 where an answer differs. OBJDUMP and LLVM_MC may name the tools.
set -eu
top=$(cd "$(dirname "$0")/.." && pwd)

first_of() {
    for name in "$@"; do
        if command -v "$name" 2>/dev/null; then
            return
        fi
    done
}

objdump=${OBJDUMP:-$(first_of riscv64-unknown-elf-objdump riscv32-unknown-elf-objdump riscv64-linux-gnu-objdump)}
llvm_mc=${LLVM_MC:-$(first_of llvm-mc llvm-mc-19 llvm-mc-18 llvm-mc-17 llvm-mc-16 llvm-mc-15 llvm-mc-14)}
if [ -z "$objdump$llvm_mc" ]; then
    echo "cross.sh: skipped: there is neither GNU objdump for RISC-V nor llvm-mc"
    exit 0
fi

folder=$(mktemp -d)
trap 'rm -rf "$folder"' EXIT

# The launcher builds the program where it has to. Its words are refused with status 2.
"$top/habit" >"$folder/refused" || [ $? -eq 2 ]

cat >"$folder/cross.py" <<'PYTHON'
import os, random, re, struct, subprocess, sys

program, folder, seed, objdump, llvm_mc = sys.argv[1:]
COUNT = 300
FENCE = 0b0001111
RV32I = set("""lui auipc jal jalr beq bne blt bge bltu bgeu lb lh lw lbu lhu sb sh sw addi slti sltiu xori ori andi
    slli srli srai add sub sll slt sltu xor srl sra or and fence ecall ebreak""".split())
OPCODES = [0b0110111, 0b0010111, 0b1101111, 0b1100111, 0b1100011, 0b0000011, 0b0100011, 0b0010011, 0b0110011, FENCE,
           0b1110011]


def random_word(source, has_opcode):
    """A word, with an opcode of RV32I if said. Half of those for shifts and registers then have one of the two funct7
    in use, and half of those of SYSTEM are an environment call, a breakpoint or next to them."""
    word = source.getrandbits(32)
    if has_opcode:
        opcode = source.choice(OPCODES)
        word = word & ~0x7F | opcode
        if source.getrandbits(1) and opcode in (0b0010011, 0b0110011):
            word = word & 0x01FFFFFF | source.choice([0, 0x40000000])
        if source.getrandbits(1) and opcode == 0b1110011:
            word = source.randrange(4) << 20 | opcode
    # The ISA says that the reserved fields of FENCE are ignored. Disassemblers differ there, so the fields are 0.
    if word & 0x707F == FENCE:
        word &= 0x0FF0707F
    return word


def machine_takes(word):
    """Whether one step of an image of this word ends otherwise than as an illegal word. Register x17 is 0."""
    image = os.path.join(folder, "word.img")
    with open(image, "wb") as file:
        file.write(b"HBIM" + struct.pack("<HHIIII", 1, 0, 0, 4096, 1, word))
    run = subprocess.run([program, "exec", image, os.path.join(folder, "empty.script"), "--steps", "1"],
                         stdout=subprocess.PIPE)
    if run.returncode not in (0, 9, 11) or not run.stdout.startswith(b"end "):
        sys.exit("cross.sh: %08X: status %d and %r" % (word, run.returncode, run.stdout))
    return run.stdout != b"end illegal 1\n"


def objdump_says(word):
    path = os.path.join(folder, "word.bin")
    with open(path, "wb") as file:
        file.write(struct.pack("<I", word))
    text = subprocess.run([objdump, "-D", "-b", "binary", "-m", "riscv:rv32", "-M", "no-aliases", path], check=True,
                          stdout=subprocess.PIPE, universal_newlines=True).stdout
    found = re.search(r"^\s*0:\s+([0-9a-f]{8})\s+(.*)$", text, re.MULTILINE)
    return found.group(2).strip() if found else ""


def llvm_says(word):
    line = " ".join("0x%02x" % byte for byte in struct.pack("<I", word))
    text = subprocess.run([llvm_mc, "--disassemble", "--triple=riscv32", "-M", "no-aliases"], input=line, check=True,
                          stdout=subprocess.PIPE, stderr=subprocess.STDOUT, universal_newlines=True).stdout
    lines = [line.strip() for line in text.splitlines() if not line.strip().startswith(".text")]
    return lines[0] if len(lines) == 1 else ""


def tool_takes(said):
    """Whether the text is an instruction of RV32I. GNU objdump prints shifts by 32 and more, which RV32I has not."""
    fields = re.split(r"[\s,]+", said)
    if fields[0] in ("slli", "srli", "srai"):
        return int(fields[3], 0) < 32
    return fields[0] in RV32I


tools = ([(objdump, objdump_says)] if objdump else []) + ([(llvm_mc, llvm_says)] if llvm_mc else [])
source = random.Random(int(seed))
words = [random_word(source, place % 2 == 1) for place in range(COUNT)]
open(os.path.join(folder, "empty.script"), "w").close()
taken = {word: machine_takes(word) for word in words}
print("seed %s: the machine takes %d of %d words" % (seed, sum(taken[word] for word in words), COUNT))
differ = 0
for tool, says in tools:
    agree = 0
    for word in words:
        said = says(word)
        if tool_takes(said) == taken[word]:
            agree += 1
        else:
            print("%08X: the machine says %s, and %s says %r"
                  % (word, "an instruction" if taken[word] else "illegal", tool, said))
    print("%s: %d of %d agree" % (tool, agree, COUNT))
    differ += COUNT - agree
sys.exit(1 if differ else 0)
PYTHON
python3 "$folder/cross.py" "$top/crates/habit/out/habit" "$folder" "${1:-1}" "$objdump" "$llvm_mc"
