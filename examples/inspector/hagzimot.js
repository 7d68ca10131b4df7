// The functions of hagzimot.h over a module for WebAssembly of 64 bits, whose pointers are BigInts.
"use strict";

const STATUS = {OK: 0, MEMORY: 1, ROOM: 4, REFUSED: 5, FRAMING: 6, VALUE: 7, SIZE: 8, NO: 9};
const STATUS_TEXTS = {
  1: "memory: an allocation was refused, or a value is too deep",
  6: "input: it doesn't begin with a message",
  7: "message: it has no value within the limits",
  8: "message: it is too large",
  10: "arguments: a flag is unknown, or the root is not UTF-8",
};
const DEFAULT_WORDS = 8388608, DEFAULT_LEVELS = 64;

// A call that failed, with the status of hagzimot.h.
class HagzimotError extends Error {
  constructor(status, text) {
    super(text || STATUS_TEXTS[status] || `status ${status}`);
    this.status = status;
  }
}

// A module, and memory of it that calls read and write.
class Library {
  static async load(bytes) {
    const {instance} = await WebAssembly.instantiate(bytes, {});
    return new Library(instance.exports);
  }

  constructor(exports) {
    this.exports = exports;
    this.length = this.room(16);
  }

  // Returns the place of so many new bytes.
  room(size) {
    const at = this.exports.malloc(BigInt(Math.max(size, 1)));
    if (at === 0n) {
      throw new HagzimotError(STATUS.MEMORY);
    }
    return at;
  }

  bytes(at, size) {
    return new Uint8Array(this.exports.memory.buffer, Number(at), size);
  }

  // Returns a length that a call wrote.
  written(index = 0) {
    return Number(new DataView(this.exports.memory.buffer).getBigUint64(Number(this.length) + 8 * index, true));
  }

  // Calls a function with memory for each of some inputs and outputs, and frees the memory.
  lend(inputs, sizes, call) {
    const places = [];
    try {
      const slices = [];
      for (const input of inputs) {
        const at = this.room(input.length);
        places.push(at);
        this.bytes(at, input.length).set(input);
        slices.push(at, BigInt(input.length));
      }
      const outs = sizes.map((size) => places[places.push(this.room(size)) - 1]);
      return call(slices, outs);
    } finally {
      places.forEach((at) => this.exports.free(at));
    }
  }

  // Returns a copy of an output that was written.
  copied(at, size, index = 0) {
    return this.bytes(at, Math.min(size, this.written(index))).slice();
  }

  isCanonical(message) {
    return this.lend([message], [], (slices) => {
      const status = this.exports.hagzimot_is_canonical(...slices, DEFAULT_WORDS, DEFAULT_LEVELS);
      if (status !== STATUS.OK && status !== STATUS.NO) {
        throw new HagzimotError(status);
      }
      return status === STATUS.OK;
    });
  }

  // Returns the sentence of the first break between two versions of a schema; null if they are compatible.
  firstBreak(older, newer, root) {
    const inputs = [older, newer, new Uint8Array(0), new TextEncoder().encode(root)];
    return this.lend(inputs, [4096], (slices, [out]) => {
      const status = this.exports.hagzimot_compatible(...slices, out, 4096n, this.length);
      const text = new TextDecoder().decode(this.copied(out, 4096));
      if (status !== STATUS.OK && status !== STATUS.NO) {
        throw new HagzimotError(status, text);
      }
      return status === STATUS.OK ? null : text;
    });
  }
}

// A relay: a schema, the struct at the root of messages, and calls.
class Relay {
  constructor(library, schema, root, calls) {
    this.library = library;
    this.handle = library.room(8);
    library.bytes(this.handle, 8).fill(0);
    const encoder = new TextEncoder();
    library.lend([schema, encoder.encode(root), encoder.encode(JSON.stringify({calls}))], [4096], (slices, [out]) => {
      const status = library.exports.hagzimot_open(this.handle, ...slices, 0, out, 4096n, library.length);
      if (status !== STATUS.OK) {
        throw new HagzimotError(status, status === STATUS.REFUSED ? new TextDecoder().decode(library.copied(out, 4096)) : "");
      }
    });
  }

  // Returns the output and the log of the last call, which had too little room.
  take(outSize, logSize) {
    const {library} = this;
    return library.lend([], [outSize, logSize], (_, [out, log]) => {
      const lengths = [library.length, library.length + 8n];
      library.exports.hagzimot_take(this.handle, out, BigInt(outSize), lengths[0], log, BigInt(logSize), lengths[1]);
      return [library.copied(out, outSize), library.copied(log, logSize, 1)];
    });
  }

  // Answers messages: what was written, the log, and the status that ended the run.
  relay(messages) {
    const {library} = this;
    return library.lend([messages], [0, 0], (slices, [out, log]) => {
      const lengths = [library.length, library.length + 8n];
      const status = library.exports.hagzimot_relay(this.handle, ...slices, out, 0n, lengths[0], log, 0n, lengths[1]);
      const [written, lines] = this.take(library.written(), library.written(1));
      return {out: written, log: new TextDecoder().decode(lines), status: status === STATUS.ROOM ? STATUS.OK : status};
    });
  }

  // Returns the record of the first message as text on one line.
  show(message) {
    const {library} = this;
    return library.lend([message], [1024], (slices, [out]) => {
      const status = library.exports.hagzimot_show(this.handle, ...slices, out, 1024n, library.length);
      if (status !== STATUS.OK && status !== STATUS.ROOM) {
        throw new HagzimotError(status);
      }
      const text = status === STATUS.ROOM ? this.take(library.written(), 0)[0] : library.copied(out, 1024);
      return new TextDecoder().decode(text);
    });
  }

  close() {
    this.library.exports.hagzimot_close(this.handle);
    this.library.exports.free(this.handle);
  }
}
