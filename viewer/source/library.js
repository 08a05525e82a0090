"use strict";

/**
 * The proved program in a page or a worker: a call of the library of `library/`, as WebAssembly. Each call has an instance of
 * its own, whose memory is given up with it.
 */
const Library = (() => {
  const PAGE = 65536;
  const HEAD = 16; // in front of each block stands its class

  /**
   * The heap of an instance, which takes the place of malloc, realloc and free: blocks of 2 to the power of their class octets, with a
   * list of free ones for each class. It ends where the memory has as many octets as `limit`.
   */
  function heapOf(limit) {
    let memory, view, top;
    const free = new Array(64).fill(0);

    function grown(end) {
      const have = memory.buffer.byteLength;
      if (end <= have) return true;
      if (end > limit) return false;
      const step = Math.min(Math.max(end - have, have / 4), limit - have);
      try {
        memory.grow(BigInt(Math.ceil(step / PAGE)));
      } catch {
        return false;
      }
      view = new DataView(memory.buffer);
      return true;
    }

    function classOf(length) {
      let power = 4;
      while (2 ** power < length) power++;
      return power;
    }

    const at = (place) => Number(view.getBigUint64(place, true));
    const put = (place, value) => view.setBigUint64(place, BigInt(value), true);

    /** A block of so many octets, aligned to 16, or 0. */
    function take(length) {
      const power = classOf(length);
      const place = free[power];
      if (place) {
        free[power] = at(place);
        return place;
      }
      const end = top + HEAD + 2 ** power;
      if (!grown(end)) return 0;
      put(top, power);
      const block = top + HEAD;
      top = end;
      return block;
    }

    function give(place) {
      const power = at(place - HEAD);
      put(place, free[power]);
      free[power] = place;
    }

    function resize(place, kept, length) {
      if (length <= 2 ** at(place - HEAD)) return place;
      const moved = take(length);
      if (!moved) return 0;
      new Uint8Array(memory.buffer).copyWithin(moved, place, place + kept);
      give(place);
      return moved;
    }

    /** An answer goes out by its place: whether there is a block, and where it is. */
    function tell(place, block) {
      view.setUint8(Number(place), block ? 1 : 0);
      put(Number(place) + 8, block || HEAD);
    }

    const imports = {
      rattle_alloc: (answer, length) => tell(answer, take(Number(length))),
      rattle_realloc: (answer, place, kept, length) => tell(answer, resize(Number(place), Number(kept), Number(length))),
      rattle_dealloc: (place) => give(Number(place)),
    };

    function start(ofInstance, base) {
      memory = ofInstance;
      view = new DataView(memory.buffer);
      top = Math.ceil(base / HEAD) * HEAD;
    }

    return { start, take, imports };
  }

  /** Whether this browser has memories with addresses of 64 bits: the smallest module with one. */
  const isThere = () => WebAssembly.validate(new Uint8Array([0, 97, 115, 109, 1, 0, 0, 0, 5, 3, 1, 4, 0]));

  /** The octets at a place, for the time until the memory grows. */
  const octetsAt = (memory, place, length) => new Uint8Array(memory.buffer, place, length);

  /**
   * Runs a command: its words as text, its input as octets, at most so many octets of output, and of memory.
   * @returns {{status: number, output: Uint8Array, count: number}} as ipswitch.h has them, of a call with this room
   */
  function run(module, words, input, room, limit) {
    const heap = heapOf(limit);
    const { exports } = new WebAssembly.Instance(module, { env: heap.imports });
    const memory = exports.memory;
    heap.start(memory, Number(exports.__heap_base.value));
    const said = new TextEncoder().encode(words);
    // no block overlaps another, and none is empty
    const places = [said.length, input.length, room, 8].map((length) => heap.take(length));
    if (places.includes(0)) return { status: 5, output: new Uint8Array(), count: 0 };
    const [wordsAt, inputAt, roomAt, countAt] = places;
    octetsAt(memory, wordsAt, said.length).set(said);
    octetsAt(memory, inputAt, input.length).set(input);
    const given = [wordsAt, said.length, inputAt, input.length, roomAt, room, countAt];
    // of what a call gives back the lowest octet is the status
    const status = exports.ipswitch_call(...given.map(BigInt)) & 255;
    const count = Number(new DataView(memory.buffer).getBigUint64(countAt, true));
    const isGiven = [0, 1, 2, 6].includes(status);
    return { status, output: octetsAt(memory, roomAt, isGiven ? count : 0).slice(), count };
  }

  return { isThere, run };
})();
