// The bench's own run of a script in the module: its reader of lines, and its output.

const MOST_OF_A_LINE = 520; // bytes that a line prints at most

// Runs a script, given as bytes, on the factory card. Returns what ./bench prints on standard output, and its status.
export function bench(module, script) {
  const calls = new WebAssembly.Instance(module, { env: { soffitfennel_store: () => -1n } }).exports;
  const room = MOST_OF_A_LINE * (script.reduce((sum, it) => sum + (it === 10), 0) + 1);
  const [given, output, size] = [script.length + 1, room, 8].map((it) => calls.alloc(it));
  new Uint8Array(calls.memory.buffer, given, script.length).set(script);
  const status = calls.soffitfennel_run(given, BigInt(script.length), output, BigInt(room), size);
  const count = Number(new DataView(calls.memory.buffer).getBigUint64(size, true));
  const bytes = new Uint8Array(calls.memory.buffer, output, count);
  return { output: new TextDecoder("latin1").decode(bytes), status };
}
