// A machine for RV32IM by hand from the unprivileged ISA manual, apart from the compiler's own: what `step` is held against.
// machine(file, input) has step(), which answers undefined, { ended: status } or { trapped: true }.

export function machine(file, input) {
  const elf = new DataView(file.buffer, file.byteOffset, file.length), segments = [];
  for (let k = 0; k < elf.getUint16(44, true); k++) {
    const at = elf.getUint32(28, true) + 32 * k, get = n => elf.getUint32(at + n, true);
    if (get(0) !== 1 || get(20) === 0) continue;
    const bytes = new Uint8Array(get(20));
    bytes.set(file.subarray(get(4), get(4) + get(16)));
    segments.push({ start: get(8), bytes, flags: get(24), view: new DataView(bytes.buffer) });
  }
  const x = new Int32Array(32), output = [];
  let pc = elf.getUint32(24, true), next = 0;
  const find = (address, size, flag) => segments.find(s => address >= s.start && address + size <= s.start + s.bytes.length && s.flags & flag);
  const trapped = { trapped: true };

  const load = (kind, address) => {
    const size = 1 << (kind & 3), s = find(address, size, 4);
    if (address % size || !s) return undefined;
    const at = address - s.start;
    return [() => s.view.getInt8(at), () => s.view.getInt16(at, true), () => s.view.getInt32(at, true), , () => s.view.getUint8(at), () => s.view.getUint16(at, true)][kind]();
  };
  const store = (kind, address, value) => {
    const size = 1 << kind, s = find(address, size, 2);
    if (address % size || !s) return false;
    s.view[['setInt8', 'setInt16', 'setInt32'][kind]](address - s.start, value, true);
    return true;
  };
  const high = (a, b) => Number(BigInt.asIntN(32, (a * b) >> 32n));
  const big = v => BigInt(v), bigU = v => BigInt(v >>> 0);
  const multiply = [(a, b) => Math.imul(a, b), (a, b) => high(big(a), big(b)), (a, b) => high(big(a), bigU(b)), (a, b) => high(bigU(a), bigU(b)),
    (a, b) => b === 0 ? -1 : a === -2147483648 && b === -1 ? a : Math.trunc(a / b), (a, b) => b === 0 ? -1 : Math.floor((a >>> 0) / (b >>> 0)) | 0,
    (a, b) => b === 0 ? a : a === -2147483648 && b === -1 ? 0 : a % b, (a, b) => b === 0 ? a : ((a >>> 0) % (b >>> 0)) | 0];
  const operate = (kind, other, a, b) => [() => other ? a - b : a + b, () => a << (b & 31), () => +(a < b), () => +((a >>> 0) < (b >>> 0)), () => a ^ b,
    () => other ? a >> (b & 31) : a >>> (b & 31), () => a | b, () => a & b][kind]() | 0;
  const test = (kind, a, b) => [a === b, a !== b, false, false, a < b, a >= b, (a >>> 0) < (b >>> 0), (a >>> 0) >= (b >>> 0)][kind];

  function call() {
    const [file_number, address, count] = [x[10], x[11] >>> 0, x[12]];
    if (x[17] === 93) return { ended: x[10] & 255 };
    if (x[17] === 63 && file_number === 0 && count === 1) {
      if (!find(address, 1, 2)) return trapped;
      x[10] = 0;
      if (next < input.length) { store(0, address, input[next++]); x[10] = 1; }
    } else if (x[17] === 64 && file_number === 1 && count === 1) {
      const byte = load(4, address);
      if (byte === undefined) return trapped;
      output.push(byte); x[10] = 1;
    } else return trapped;
    pc += 4;
  }

  function step() {
    const s = find(pc, 4, 1);
    if (pc % 4 || !s) return trapped;
    const w = s.view.getUint32(pc - s.start, true), rd = w >> 7 & 31, kind = w >> 12 & 7, a = x[w >> 15 & 31], b = x[w >> 20 & 31], i = w | 0;
    let to = pc + 4 >>> 0, value;
    switch (w & 127) {
      case 0x37: value = i & ~4095; break;
      case 0x17: value = pc + (i & ~4095); break;
      case 0x6f: value = to; to = pc + (i >> 31 << 20 | w & 0xff000 | (w >> 20 & 1) << 11 | (w >> 21 & 1023) << 1) >>> 0; break;
      case 0x67: value = to; to = (a + (i >> 20) & ~1) >>> 0; break;
      case 0x63: if (test(kind, a, b)) to = pc + (i >> 31 << 12 | (w >> 7 & 1) << 11 | (w >> 25 & 63) << 5 | (w >> 8 & 15) << 1) >>> 0; break;
      case 0x03: value = load(kind, a + (i >> 20) >>> 0); if (value === undefined) return trapped; break;
      case 0x23: if (!store(kind, a + (i >> 25 << 5 | rd) >>> 0, b)) return trapped; pc = to; return;
      case 0x13: value = operate(kind, kind === 5 && w >> 30 & 1, a, i >> 20); break;
      case 0x33: value = w >> 25 === 1 ? multiply[kind](a, b) : operate(kind, w >> 30 & 1, a, b); break;
      case 0x0f: break;
      case 0x73: return w === 0x73 ? call() : trapped;
      default: return trapped;
    }
    if (to % 4) return trapped;
    if (value !== undefined && rd) x[rd] = value;
    pc = to;
  }
  return { step, x, output, get pc() { return pc; }, byte: address => (find(address, 1, 4) ?? { bytes: [0], start: address }).bytes[address - (find(address, 1, 4) ?? { start: address }).start] };
}
