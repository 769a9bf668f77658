// Runs a program of the kit, which was compiled to WebAssembly, as a system would: it gives it its words, its
// standard input and its files, and takes what it writes, and its status.
'use strict';

const FULL = 1 << 28;   // no program writes more
const FOLDER = 'logs';  // the one folder that there is
const NO_ENTRY = 2, BAD_FILE = 9, IS_FOLDER = 21, NO_SPACE = 28, NO_CALL = 38;
const CREATE = 0o100, TRUNCATE = 0o1000;
const FIRST_FILE = 3;
const KNOWN = 0x7ff, A_FILE = 0o100644, A_FOLDER = 0o040755;

class Ended extends Error {}
class Fault extends Error {}
const fault = errno => { throw Object.assign(new Fault('fault'), { errno }); };
const ended = status => { throw Object.assign(new Ended('exit'), { status }); };

// What a program sees of a system. `files` has the bytes of each file by its path, `logs/member-0.log` say.
class System {
    constructor(words, input, files) {
        this.words = ['program', ...words].map(word => new TextEncoder().encode(word));
        this.input = input;
        this.files = files;
        this.opened = new Map();    // the path of each open file, by its number
        this.places = new Map();    // how far each was read
        this.written = { 1: [], 2: [] };
        this.memory = null;
        this.errno = this.size = 0;
    }

    bytes(at, length) {
        return new Uint8Array(this.memory.buffer, Number(at), Number(length));
    }

    text(at) {
        const rest = new Uint8Array(this.memory.buffer, Number(at));
        return new TextDecoder().decode(rest.slice(0, rest.indexOf(0)));
    }

    // Puts bytes where they are wanted, and says how many.
    give(at, part) {
        this.bytes(at, part.length).set(part);
        return BigInt(part.length);
    }

    content(file) {
        const path = this.opened.get(file) ?? fault(BAD_FILE);
        return this.files.get(path) ?? fault(IS_FOLDER);
    }

    resize(file, length) {
        const content = new Uint8Array(length);
        content.set(this.content(file).subarray(0, length));
        this.files.set(this.opened.get(file), content);
    }
}

// Calls that answer 32 bits, and those that answer 64. Of each -1 tells of a fault.
const SHORT = {
    open(system, at, flags) {
        const path = system.text(at), { files, opened } = system;
        const isThere = files.has(path);
        if (path !== FOLDER && !isThere && !(flags & CREATE && path.startsWith(`${FOLDER}/`))) fault(NO_ENTRY);
        if (path !== FOLDER && (!isThere || flags & TRUNCATE)) files.set(path, new Uint8Array(0));
        let file = FIRST_FILE;
        while (opened.has(file)) file += 1;
        opened.set(file, path);
        system.places.delete(file);
        return file;
    },
    close: ({ opened }, file) => opened.delete(file) ? 0 : fault(BAD_FILE),
    rename(system, from, to) {
        const path = system.text(from), { files } = system;
        files.set(system.text(to), files.get(path) ?? fault(NO_ENTRY));
        files.delete(path);
        return 0;
    },
    ftruncate(system, file, length) {
        system.resize(file, Number(length));
        return 0;
    },
    // The record of a file, as Linux lays it out: what is known of it, its kind, its size.
    statx(system, file, path, flags, mask, to) {
        if (!system.opened.has(file)) fault(BAD_FILE);
        const content = system.files.get(system.opened.get(file));
        const record = new DataView(system.memory.buffer, Number(to), 256);
        system.bytes(to, 256).fill(0);
        record.setUint32(0, KNOWN, true);
        record.setUint16(28, content ? A_FILE : A_FOLDER, true);
        record.setBigUint64(40, BigInt(content ? content.length : 0), true);
        return 0;
    },
    // Nobody else is here who could hold a lock, and nothing here outlives the page.
    flock: () => 0,
    fsync: () => 0,
    fdatasync: () => 0,
    fchmod: () => 0,
    getentropy(system, at, length) {
        crypto.getRandomValues(system.bytes(at, length));
        return 0;
    },
    isatty: () => 0,
    sched_yield: () => 0,
    pthread_create: () => NO_CALL,
    clock_gettime(system, clock, at) {
        const now = Date.now(), parts = [BigInt(Math.floor(now / 1000)), BigInt(now % 1000) * 1000000n];
        new BigInt64Array(system.memory.buffer, Number(at), 2).set(parts);
        return 0;
    },
    __xpg_strerror_r(system, number, at, length) {
        system.give(at, new TextEncoder().encode(`error ${number}\0`).subarray(0, Number(length)));
        return 0;
    },
    rattle_errno: ({ errno }) => errno,
    rattle_set_errno(system, number) { system.errno = number; },
    _exit: (system, status) => ended(status),
    abort() { throw new Error('the program called abort'); },
};
const LONG = {
    read(system, file, at, length) {
        const from = system.places.get(file) ?? 0, content = file === 0 ? system.input : system.content(file);
        const part = content.subarray(from, from + Number(length));
        system.places.set(file, from + part.length);
        return system.give(at, part);
    },
    pread: (system, file, at, length, from) =>
        system.give(at, system.content(file).subarray(Number(from), Number(from + length))),
    write(system, file, at, length) {
        const parts = system.written[file];
        if (!parts) {
            const from = system.places.get(file) ?? 0;
            system.places.set(file, from + Number(length));
            return LONG.pwrite(system, file, at, length, BigInt(from));
        }
        system.size += Number(length);
        if (system.size > FULL) fault(NO_SPACE);
        parts.push(system.bytes(at, length).slice());
        return length;
    },
    pwrite(system, file, at, length, to) {
        const end = Number(to + length);
        if (end > FULL) fault(NO_SPACE);
        if (end > system.content(file).length) system.resize(file, end);
        system.content(file).set(system.bytes(at, length), Number(to));
        return length;
    },
    rattle_arg(system, i, at, length) {
        const word = system.words[Number(i)];
        return !word ? -1n : word.length > Number(length) ? -2n : system.give(at, word);
    },
    __sysv_signal: () => 0n,
};
LONG.__write = LONG.write;

// A call of a system as the module imports it.
function imported(system, call, failed) {
    return (...words) => {
        try {
            return call(system, ...words);
        } catch (error) {
            if (!(error instanceof Fault)) throw error;
            system.errno = error.errno;
            return failed;
        }
    };
}

function importsOf(module, system) {
    const imports = {};
    for (const { module: from, name } of WebAssembly.Module.imports(module)) {
        imports[from] ??= {};
        imports[from][name] = name in SHORT ? imported(system, SHORT[name], -1)
            : name in LONG ? imported(system, LONG[name], -1n)
            : () => { throw new Error(`the page has no ${name}`); };
    }
    return imports;
}

// The module's run with these words over these bytes: {status, out, err}, or a `trap` where it broke off. What it
// leaves in files stands in `files` then.
function runProgram(module, words, input, files = new Map()) {
    const system = new System(words, input, files);
    let status = null, trap = null;
    try {
        const instance = new WebAssembly.Instance(module, importsOf(module, system));
        system.memory = instance.exports.memory;
        status = instance.exports.main(0, 0n);
    } catch (error) {
        if (error instanceof Ended) status = error.status;
        else trap = String(error.message ?? error);
    }
    const { 1: out, 2: err } = system.written;
    return { status: status === null ? null : status & 255, trap, out: joined(out), err: joined(err) };
}

function joined(parts) {
    const all = new Uint8Array(parts.reduce((sum, part) => sum + part.length, 0));
    let at = 0;
    for (const part of parts) { all.set(part, at); at += part.length; }
    return all;
}

// Calls one after the other, over the same files, which were not there before.
function runAll(modules, sequence) {
    const files = new Map();
    return sequence.map(({ program, words, input }) => {
        const began = performance.now();
        const end = runProgram(modules[program], words, input, files);
        return { ...end, took: performance.now() - began };
    });
}
