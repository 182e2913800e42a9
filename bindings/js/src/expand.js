// Expands a block of LZ4.

/** The `size` bytes that were compressed into these. */
export function expand(bytes, size) {
  const output = new Uint8Array(size);
  let from = 0;
  let to = 0;

  /** A number that begins in half a token, and goes on in bytes. */
  function read(half) {
    let sum = half;
    if (half === 15) for (let more = 255; more === 255; sum += more) more = bytes[from++];
    return sum;
  }

  for (;;) {
    const token = bytes[from++];
    for (const end = to + read(token >> 4); to < end; to++) output[to] = bytes[from++];
    if (to === size) return output;
    const back = bytes[from++] | (bytes[from++] << 8);
    for (const end = to + 4 + read(token & 15); to < end; to++) output[to] = output[to - back];
  }
}
