"""The tools that make modules and judge them, and changes that are planted."""
import os, random, re, subprocess

HERE = os.path.dirname(os.path.abspath(__file__))
LEAST = ["--disable-multi-value", "--disable-reference-types", "--disable-bulk-memory", "--disable-saturating-float-to-int", "--disable-simd"]
SAME = "add sub mul div_s div_u rem_s rem_u and or xor shl shr_s shr_u rotl rotr eq ne lt_s lt_u gt_s gt_u le_s le_u ge_s ge_u eqz clz ctz popcnt const load store".split()


def run(*words, given=None, folder=None):
    return subprocess.run(words, input=given, capture_output=True, cwd=folder)


def read(path):
    with open(path, "rb") as file:
        return file.read()


def write(path, data):
    with open(path, "wb") as file:
        file.write(data)


def is_valid(room, module):
    """What the other validator says."""
    write(f"{room}/judged.wasm", module)
    return run("wasm-validate", *LEAST, f"{room}/judged.wasm").returncode == 0


def text_of(room, module):
    write(f"{room}/read.wasm", module)
    return run("wasm2wat", "--no-check", f"{room}/read.wasm").stdout.decode()


def of_text(room, text, *words):
    """The module of a text, or nothing where there is none."""
    write(f"{room}/text.wat", text.encode())
    made = run("wat2wasm", *LEAST, *words, f"{room}/text.wat", "-o", f"{room}/text.wasm")
    return read(f"{room}/text.wasm") if made.returncode == 0 else None


def other_type(word):
    return word.replace("i32", "i64") if "i32" in word else word.replace("i64", "i32")


def planted(choice, text):
    """The text with one thing changed, by a choice that is made at random."""
    lines = text.split("\n")
    typed = [k for k, line in enumerate(lines) if re.match(r" +i(32|64)\.(" + "|".join(SAME) + r")\b", line)]
    local = [k for k, line in enumerate(lines) if re.match(r" +local\.(get|set|tee) ", line)]
    plain = [k for k, line in enumerate(lines) if re.match(r" +(i32|i64|local|global|drop|select|call|memory|return|br)", line)]
    label = [k for k, line in enumerate(lines) if re.match(r" +(br|br_if) ", line)]
    result = [k for k, line in enumerate(lines) if "(result i" in line or "(param i" in line or "(local i" in line]
    index = [k for k, line in enumerate(lines) if re.match(r" +(call|global\.get|global\.set) ", line)]
    changes = [(typed, lambda line: [re.sub(r"i(32|64)\.", lambda m: other_type(m[0]), line, count=1)]),
        (local, lambda line: [re.sub(r"\d+", lambda m: str(int(m[0]) + choice.choice([1, 2, 9])), line)]),
        (plain, lambda line: []), (plain, lambda line: [line, line]), (plain, lambda line: ["drop", line]), (plain, lambda line: [line, "drop"]),
        (plain, lambda line: [line, "unreachable"]), (plain, lambda line: [choice.choice(["i32.const 1", "i64.const 1"]), line]),
        (label, lambda line: [re.sub(r"(br|br_if) (\d+).*", lambda m: f"{m[1]} {int(m[2]) + choice.choice([1, 2, 7])}", line)]),
        (result, lambda line: [re.sub(r"\((result|param|local) [i0-9 ]+\)", lambda m: other_type(m[0]), line, count=1)]),
        (index, lambda line: [re.sub(r"(call|global\.get|global\.set) (\d+)", lambda m: f"{m[1]} {int(m[2]) + 1}", line)])]
    places, change = choice.choice([it for it in changes if it[0]] or [(range(len(lines)), lambda line: [line])])
    at = choice.choice(list(places))
    return "\n".join(lines[:at] + change(lines[at]) + lines[at + 1:])


def whole(room):
    """The modules of texts, of clang and of random bytes, by name."""
    modules = {}
    name = None
    texts = {}
    for line in read(f"{HERE}/texts.txt").decode().split("\n"):
        if line.startswith("= "):
            name = line[2:]
            texts[name] = ""
        elif name:
            texts[name] += line + "\n"
    for name, text in texts.items():
        modules[f"wabt_{name}"] = of_text(room, text)
        assert modules[f"wabt_{name}"], name
    functions = re.findall(r"^(?:u32|u64|int|void) (\w+)\(", read(f"{HERE}/functions.c").decode(), re.M)
    for level in ("O0", "O1", "O2", "Os"):
        run("clang", "--target=wasm32", f"-{level}", "-fno-builtin", "-ffunction-sections", "-fdata-sections", "-c", f"{HERE}/functions.c", "-o", f"{room}/all.o").check_returncode()
        for function in functions:
            run("wasm-ld", "--no-entry", f"--export={function}", "-s", f"{room}/all.o", "-o", f"{room}/one.wasm").check_returncode()
            modules[f"clang_{function}_{level.lower()}"] = read(f"{room}/one.wasm")
    for name, words in [*((name, ["-O3"]) for name in [*modules] if name.endswith("_o0")), *((f"wabt_{name}", ["--flatten"]) for name in texts)]:
        write(f"{room}/old.wasm", modules[name])
        # (some dead code, and exported globals that change, it doesn't take)
        if run("wasm-opt", *words, "--mvp-features", f"{room}/old.wasm", "-o", f"{room}/new.wasm").returncode == 0:
            modules["binaryen_" + name] = read(f"{room}/new.wasm")
    for seed in range(60):
        choice = random.Random(seed)
        write(f"{room}/random", bytes(choice.randrange(256) for _ in range(choice.choice([20, 40, 80, 160]))))
        run("wasm-opt", f"{room}/random", "-ttf", "--mvp-features", "--remove-unused-module-elements", "-o", f"{room}/random.wasm").check_returncode()
        modules[f"random_{seed}"] = read(f"{room}/random.wasm")
    seen, kept = set(), {}
    for name, module in modules.items():
        if module not in seen and len(module) <= 700 and not re.search(r"\bf(32|64)\b", text_of(room, module)):
            seen.add(module)
            kept[name] = module
    return kept
