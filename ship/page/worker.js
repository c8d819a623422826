// One question to the program, in an instance of its own.
'use strict';

// What C sees of the memory: addresses and lengths of 64 bits.
function call({ exports }, words, files, room) {
  const seen = (at, count) => new Uint8Array(exports.memory.buffer, Number(at), count);
  const take = count => {
    const at = BigInt.asUintN(64, exports.page_room(BigInt(count)));
    if (at === 0n) throw new Error('there is no memory for the texts');
    return [at, BigInt(count)];
  };
  const put = bytes => {
    const place = take(bytes.length);
    seen(place[0], bytes.length).set(bytes);
    return place;
  };
  const lines = new TextEncoder().encode(words.join('\n'));
  const given = [lines, ...files].flatMap(put);
  const text = take(room.text), proof = take(room.proof), lengths = take(16);
  const number = exports.circ_page(...given, ...text, ...proof, lengths[0]);
  const long = new BigUint64Array(exports.memory.buffer, Number(lengths[0]), 2);
  const cut = { text: Number(long[0]), proof: Number(long[1]) };
  const copy = (place, count, most) => seen(place[0], Math.min(count, most)).slice();
  return {
    number,
    lengths: cut,
    text: copy(text, cut.text, room.text),
    proof: copy(proof, cut.proof, room.proof),
    memory: exports.memory.buffer.byteLength,
  };
}

onmessage = async ({ data: { module, words, files } }) => {
  try {
    const began = performance.now();
    let room = { text: 2 ** 20 - 16, proof: 2 ** 20 - 16 };
    let answer = call(await WebAssembly.instantiate(module), words, files, room);
    if (answer.lengths.text > room.text || answer.lengths.proof > room.proof) {
      // What did not fit is asked for again, with room enough.
      room = answer.lengths;
      answer = call(await WebAssembly.instantiate(module), words, files, room);
      if (answer.lengths.text > room.text || answer.lengths.proof > room.proof) {
        throw new Error('the answer was cut');
      }
    }
    postMessage({ ...answer, took: performance.now() - began });
  } catch (fault) {
    postMessage({ fault: String(fault) });
  }
};
