// Prints the tables of src/intops.rt, as another WebAssembly engine computes them: run `node vectors.js`.
// Each operator is compiled in a module of its own, from the opcodes of section 5.4.5 of the standard.
const I32 = 0x7f, I64 = 0x7e;

function operator(opcode, params, result) {
  const type = [0x60, params.length, ...params, 1, result];
  const body = [0, ...params.flatMap((_, i) => [0x20, i]), opcode, 0x0b];
  const bytes = [0, 0x61, 0x73, 0x6d, 1, 0, 0, 0, 1, type.length + 1, 1, ...type, 3, 2, 1, 0,
    7, 5, 1, 1, 0x66, 0, 0, 10, body.length + 2, 1, body.length, ...body];
  const f = new WebAssembly.Instance(new WebAssembly.Module(new Uint8Array(bytes))).exports.f;
  const argument = (type, word) => (type === I32 ? Number(BigInt.asIntN(32, word)) : BigInt.asIntN(64, word));
  return (...words) => BigInt.asUintN(result === I32 ? 32 : 64, BigInt(f(...words.map((w, i) => argument(params[i], w)))));
}

const grouped = (digits) => (digits.length > 8 ? digits.replace(/\B(?=(.{4})+$)/g, "_") : digits);
const hex = (n) => (n < 100n ? `${n}` : `0x${grouped(n.toString(16).toUpperCase())}`);
const row = (values) => `[${values.map(hex).join(", ")}]`;

function outcome(f, words) {
  try {
    return `Ok(${hex(f(...words))})`;
  } catch (error) {
    return `Err(${/zero/.test(error.message) ? "DivideByZero" : "Overflow"})`;
  }
}

const counts = ["Clz", "Ctz", "Popcnt"], extensions = ["Extend8S", "Extend16S", "Extend32S"];
const compare = ["Eq", "Ne", "LtS", "LtU", "GtS", "GtU", "LeS", "LeU", "GeS", "GeU"];
const binary = ["Add", "Sub", "Mul", "DivS", "DivU", "RemS", "RemU", "And", "Or", "Xor", "Shl", "ShrS", "ShrU", "Rotl", "Rotr"];

for (const [name, type, bits, word, eqz, eq, clz, add, extend] of [
  ["32", I32, 32n, 0x89abcde6n, 0x45, 0x46, 0x67, 0x6a, 0xc0],
  ["64", I64, 64n, 0x89abcdef01234560n, 0x50, 0x51, 0x79, 0x7c, 0xc2],
]) {
  const unary = [...counts.map((op, i) => [op, clz + i]), ...extensions.slice(0, type === I32 ? 2 : 3).map((op, i) => [op, extend + i])];
  const modulus = 1n << bits, minus = (n) => modulus - n;
  const least = 1n << (bits - 1n), greatest = least - 1n;
  const words = [0n, 1n, minus(1n), least, greatest, word, word >> 4n];
  const pairs = [[0n, 1n], [minus(1n), least], [greatest, minus(1n)], [minus(7n), 2n], [7n, minus(2n)], [least, greatest],
    [least, bits - 1n], [word, bits - 1n], [word, bits], [word, bits + 1n], [word, word]];
  const unusual = [[1n, 0n], [least, 0n], [least, minus(1n)]];

  console.log(`\nconst WORDS_${name}: [u${name}; ${words.length}] = ${row(words)};`);
  console.log(`const UNARY_${name}: [(UnaryOp, [u64; ${words.length}]); ${unary.length}] = [`);
  unary.forEach(([op, opcode]) => console.log(`(UnaryOp::${op}, ${row(words.map((w) => operator(opcode, [type], type)(w)))}),`));
  console.log(`];\nconst EQZ_${name}: [u64; ${words.length}] = ${row(words.map((w) => operator(eqz, [type], I32)(w)))};`);
  console.log(`const PAIRS_${name}: [(u${name}, u${name}); ${pairs.length}] = [${pairs.map(([a, b]) => `(${hex(a)}, ${hex(b)})`).join(", ")}];`);
  console.log(`const COMPARE_${name}: [(CompareOp, [u64; ${pairs.length}]); ${compare.length}] = [`);
  compare.forEach((op, i) => console.log(`(CompareOp::${op}, ${row(pairs.map((p) => operator(eq + i, [type, type], I32)(...p)))}),`));
  console.log(`];\nconst BINARY_${name}: [(BinaryOp, [u64; ${pairs.length}]); ${binary.length}] = [`);
  binary.forEach((op, i) => console.log(`(BinaryOp::${op}, ${row(pairs.map((p) => operator(add + i, [type, type], type)(...p)))}),`));
  console.log(`];\nconst UNUSUAL_${name}: [(BinaryOp, u${name}, u${name}, Result<u64, Trap>); ${4 * unusual.length}] = [`);
  [3, 4, 5, 6].forEach((i) => unusual.forEach((p) =>
    console.log(`(BinaryOp::${binary[i]}, ${p.map(hex).join(", ")}, ${outcome(operator(add + i, [type, type], type), p)}),`)));
  console.log("];");
  const conversions = type === I32 ? [["EXTEND_S", 0xac, I64], ["EXTEND_U", 0xad, I64]] : [["WRAP", 0xa7, I32]];
  conversions.forEach(([label, opcode, result]) =>
    console.log(`const ${label}: [u64; ${words.length}] = ${row(words.map((w) => operator(opcode, [type], result)(w)))};`));
}
