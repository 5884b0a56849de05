// What the program's module asks of a system: files in memory, streams, words, memory and threads. One `runOnfiseq` is one run of the program.
// Works in a browser and in Node. Threads take turns, where the engine can suspend a module (JSPI); where it can't, none starts, and the program says so.
"use strict";
const ERRORS = { ENOENT: 2, EBADF: 9, EAGAIN: 11, EEXIST: 17, EISDIR: 21, EINVAL: 22, ESPIPE: 29 };
const ERROR_WORDS = { 2: "No such file or directory", 9: "Bad file descriptor", 12: "Cannot allocate memory", 17: "File exists", 21: "Is a directory", 22: "Invalid argument", 29: "Illegal seek" };
const THREAD_STACK = 1 << 20, PATH_MOST = 4096;
const canSuspend = typeof WebAssembly.Suspending === "function" && typeof WebAssembly.promising === "function";

// How a run ends that calls _exit.
class Ended { constructor(status) { this.status = status; } }

// The module's memory by blocks: each has the next power of two for its size, and what is given back is taken again for the same.
class Heap {
    constructor(memory, begin) { this.memory = memory; this.top = begin + 15 & ~15; this.free = new Map(); this.sizes = new Map(); }
    take(asked) {
        const size = 2 ** Math.max(4, Math.ceil(Math.log2(Math.max(1, asked)))), same = this.free.get(size);
        let at = same && same.pop();
        if (at === undefined) {
            if (this.top + size > 2 ** 32 - 65536) return 0;
            const lacking = this.top + size - this.memory.buffer.byteLength;
            try { if (lacking > 0) this.memory.grow(Math.ceil(lacking / 65536)); } catch (fault) { return 0; }
            at = this.top;
            this.top += size;
        }
        this.sizes.set(at, size);
        return at;
    }
    give(at) {
        const size = this.sizes.get(at);
        if (!this.free.has(size)) this.free.set(size, []);
        this.free.get(size).push(at);
    }
}

// A file's bytes, which grow; its number tells two paths of one file.
class StoredFile {
    constructor(bytes, number) { this.room = bytes; this.length = bytes.length; this.number = number; }
    bytes() { return this.room.subarray(0, this.length); }
    resize(length) {
        if (length > this.room.length) {
            const room = new Uint8Array(Math.max(length, 2 * this.room.length));
            room.set(this.bytes());
            this.room = room;
        } else if (length < this.length) this.room = this.room.slice(0, length);
        this.length = length;
    }
    write(at, bytes) {
        if (at + bytes.length > this.length) this.resize(at + bytes.length);
        this.room.set(bytes, at);
    }
}

// A path from the folder on, without `.`, `..` and doubled slashes.
function wholePath(path) {
    const parts = [];
    for (const part of path.split("/")) {
        if (part === "..") parts.pop();
        else if (part !== "" && part !== ".") parts.push(part);
    }
    return parts.join("/");
}

// The files of a run, by path. A folder is there where a file stands in it.
class Files {
    constructor(given) {
        this.byPath = new Map();
        this.count = 0;
        for (const [path, bytes] of given) this.add(wholePath(path), bytes.slice());
    }
    add(path, bytes) {
        const file = new StoredFile(bytes, ++this.count);
        this.byPath.set(path, file);
        return file;
    }
    isFolder(path) { return path === "" || [...this.byPath.keys()].some(it => it.startsWith(path + "/")); }
}

// A stream or an open file of the program.
class Opened {
    constructor(file, canSeek, appends) { this.file = file; this.canSeek = canSeek; this.appends = appends; this.at = 0; }
}

class System {
    constructor(words, files, input) {
        this.words = words.map(it => new TextEncoder().encode(it));
        this.files = files;
        this.opened = [new Opened(new StoredFile(input, 0), false), new Opened(new StoredFile(new Uint8Array(0), 0), false, true), new Opened(new StoredFile(new Uint8Array(0), 0), false, true)];
        this.errno = 0;
        this.fault = null;
        this.threads = [];
        this.waiting = [];
    }
    begin(module) {
        this.module = module;
        this.heap = new Heap(module.memory, Number(module.__heap_base.value));
    }
    bytes(at, count) { return new Uint8Array(this.module.memory.buffer, at >>> 0, Number(count)); }
    view() { return new DataView(this.module.memory.buffer); }
    path(at) {
        const bytes = this.bytes(at, Math.min(PATH_MOST, this.module.memory.buffer.byteLength - (at >>> 0))), end = bytes.indexOf(0);
        return new TextDecoder().decode(bytes.slice(0, end < 0 ? bytes.length : end));
    }
    fail(name, answer) {
        this.errno = ERRORS[name];
        return answer;
    }
    copyText(text, at, count) {
        if (!text) return -1n;
        this.bytes(at, count).set(text.subarray(0, Number(count)));
        return text.length <= Number(count) ? BigInt(text.length) : -2n;
    }

    // A word of 64 bits that threads share: only one thread is in the module at a time, so plain reads and writes serve.
    word(at) { return this.view().getBigUint64(at >>> 0, true); }
    // Changes the word, and answers what it was.
    change(at, value) {
        const old = this.word(at);
        this.view().setBigUint64(at >>> 0, BigInt.asUintN(64, value), true);
        return old;
    }

    // ---- files

    open(at, flags) {
        const path = wholePath(this.path(at)), file = this.files.byPath.get(path);
        if (!file && this.files.isFolder(path)) return flags & 3 ? this.fail("EISDIR", -1) : this.keep(new Opened(null, false));
        if (!file && !(flags & 0o100)) return this.fail("ENOENT", -1);
        if (file && (flags & 0o300) === 0o300) return this.fail("EEXIST", -1);
        const made = file || this.files.add(path, new Uint8Array(0));
        if (flags & 0o1000) made.resize(0);
        return this.keep(new Opened(made, true, (flags & 0o2000) !== 0));
    }
    keep(it) {
        let number = 3;
        while (this.opened[number]) number++;
        this.opened[number] = it;
        return number;
    }
    read(number, at, count) {
        const it = this.opened[number];
        if (!it) return this.fail("EBADF", -1n);
        if (!it.file) return this.fail("EISDIR", -1n);
        const bytes = it.file.bytes().subarray(it.at, it.at + Number(count));
        this.bytes(at, bytes.length).set(bytes);
        it.at += bytes.length;
        return BigInt(bytes.length);
    }
    write(number, at, count) {
        const it = this.opened[number];
        if (!it || !it.file) return this.fail("EBADF", -1n);
        if (it.appends) it.at = it.file.length;
        it.file.write(it.at, this.bytes(at, count));
        it.at += Number(count);
        return count;
    }
    lseek(number, offset, whence) {
        const it = this.opened[number];
        if (!it) return this.fail("EBADF", -1n);
        if (!it.canSeek) return this.fail("ESPIPE", -1n);
        const to = Number(offset) + (whence === 0 ? 0 : whence === 1 ? it.at : it.file.length);
        if (to < 0) return this.fail("EINVAL", -1n);
        it.at = to;
        return BigInt(to);
    }
    stat(folder, pathAt, flags, at) {
        const path = flags & 0x1000 ? null : wholePath(this.path(pathAt)), opened = this.opened[folder];
        if (path === null && !opened) return this.fail("EBADF", -1);
        const file = path === null ? opened.file : this.files.byPath.get(path), isFolder = path === null ? !opened.file : !file && this.files.isFolder(path);
        if (!file && !isFolder) return this.fail("ENOENT", -1);
        const kind = isFolder ? 0o040755 : path === null && !opened.canSeek ? 0o010644 : 0o100644, view = this.view();
        this.bytes(at, 256).fill(0);
        for (const [place, number] of [[0, 0x7ff], [4, 4096], [16, 1]]) view.setUint32(at + place, number, true);
        view.setUint16(at + 28, kind, true);
        view.setBigUint64(at + 32, BigInt(file ? file.number : 1 << 30), true);
        view.setBigUint64(at + 40, BigInt(file ? file.length : 0), true);
        view.setUint32(at + 140, 1, true);
        return 0;
    }
    rename(from, to) {
        const [one, other] = [wholePath(this.path(from)), wholePath(this.path(to))], file = this.files.byPath.get(one);
        if (!file) return this.fail("ENOENT", -1);
        this.files.byPath.delete(one);
        this.files.byPath.set(other, file);
        return 0;
    }
    unlink(at) { return this.files.byPath.delete(wholePath(this.path(at))) ? 0 : this.fail("ENOENT", -1); }
    realpath(at, to) {
        const path = wholePath(this.path(at));
        if (!this.files.byPath.has(path) && !this.files.isFolder(path)) return this.fail("ENOENT", 0);
        const text = new TextEncoder().encode("/" + path + "\0");
        this.bytes(to, text.length).set(text);
        return to;
    }

    // ---- memory

    tell(answer, block) {
        this.view().setBigUint64(answer, block ? 1n : 0n, true);
        this.view().setBigUint64(answer + 8, BigInt(block || 16), true);
    }
    again(answer, old, kept, size, alignment) {
        const asked = Number(size || alignment), has = this.heap.sizes.get(old >>> 0);
        if (asked <= has && asked > has / 4) return this.tell(answer, old >>> 0);
        const block = this.heap.take(asked);
        if (block) {
            this.bytes(block, asked).set(this.bytes(old, Math.min(Number(kept), asked)));
            this.heap.give(old >>> 0);
        }
        return this.tell(answer, block);
    }

    // ---- threads: one at a time is in the module, and lets the next in where it yields, waits or ends

    // A thread begins when it is let in.
    start(at, start, given) {
        const block = canSuspend ? this.heap.take(THREAD_STACK) : 0;
        if (!block) return 11;
        const thread = { isOver: false }, begun = WebAssembly.promising(this.module.__indirect_function_table.get(start));
        this.threads.push(thread);
        this.view().setBigUint64(at, BigInt(this.threads.length + 1), true);
        const end = fault => {
            if (fault && !this.fault) this.fault = fault;
            thread.isOver = true;
            this.heap.give(block);
            this.letIn();
        };
        this.waiting.push({ stack: block + THREAD_STACK, go: () => begun(given).then(() => end(null), end) });
        return 0;
    }
    letIn() {
        const next = this.waiting.shift();
        if (!next) return;
        this.module.__stack_pointer.value = next.stack;
        next.go();
    }
    // Lets the others in, and comes again behind them.
    yield(answer) {
        if (this.waiting.length === 0) return answer;
        const stack = this.module.__stack_pointer.value;
        return new Promise(go => {
            this.waiting.push({ stack, go: () => go(answer) });
            this.letIn();
        });
    }
    async join(number) {
        const thread = this.threads[Number(number) - 2];
        while (thread && !thread.isOver) await this.yield(0);
        return thread ? 0 : 3;
    }
    // The one call of the system by number: to sleep until a word changes, and to wake who sleeps. A sleeper may wake for no reason, so here it only lets others in.
    sleep(word, operation, value) {
        if (operation & 127n) return 0n;
        if (this.view().getUint32(word >>> 0, true) === Number(BigInt.asUintN(32, value))) return this.yield(0n);
        return this.fail("EAGAIN", -1n);
    }
}

// What the module imports, by name. Those of the second list may suspend the module.
function importsOf(it) {
    const done = () => 0, calls = {
        isatty: done, close: number => (it.opened[number] && number > 2 && (it.opened[number] = undefined), 0), fsync: done, fdatasync: done, fchmod: done, flock: done,
        open: (at, flags) => it.open(at, flags), read: (number, at, count) => it.read(number, at, count), write: (number, at, count) => it.write(number, at, count),
        lseek: (number, offset, whence) => it.lseek(number, offset, whence), statx: (folder, path, flags, mask, at) => it.stat(folder, path, flags, at),
        realpath: (at, to) => it.realpath(at, to), readlink: () => it.fail("EINVAL", -1n), rename: (from, to) => it.rename(from, to), unlink: at => it.unlink(at),
        ftruncate: (number, length) => (it.opened[number].file.resize(Number(length)), 0), mkdir: done,
        rattle_errno: () => it.errno, rattle_set_errno: number => { it.errno = number; }, rattle_arg_count: () => BigInt(it.words.length),
        rattle_arg: (number, at, count) => it.copyText(it.words[Number(number)], at, count), rattle_env: () => -1n,
        __xpg_strerror_r: (number, at, count) => {
            const text = new TextEncoder().encode(ERROR_WORDS[number] || "Error " + number).subarray(0, Number(count) - 1);
            it.bytes(at, count).set([...text, 0]);
            return 0;
        },
        clock_gettime: (clock, at) => {
            const now = clock === 0 ? Date.now() : performance.now();
            it.view().setBigUint64(at, BigInt(Math.floor(now / 1000)), true);
            it.view().setBigUint64(at + 8, BigInt(Math.floor(now % 1000 * 1e6)), true);
            return 0;
        },
        __sysv_signal: () => 0n, _exit: status => { throw new Ended(status); }, abort: () => { throw new Error("the program aborts"); },
        w_rattle_alloc: (answer, size, alignment) => it.tell(answer, it.heap.take(Number(size || alignment))),
        w_rattle_realloc: (answer, old, kept, size, alignment) => it.again(answer, old, kept, size, alignment), w_rattle_dealloc: at => it.heap.give(at >>> 0),
        malloc: size => it.heap.take(Number(size)), free: at => { if (at) it.heap.give(at >>> 0); },
        pthread_attr_init: done, pthread_attr_destroy: done, pthread_attr_setguardsize: done, pthread_attr_setstacksize: done, pthread_detach: done, pthread_self: () => 1n,
        pthread_create: (at, attributes, start, given) => it.start(at, start, given),
        atomic_load: at => it.word(at), atomic_store: (at, value) => { it.change(at, value); }, atomic_add: (at, value) => it.change(at, it.word(at) + value),
        atomic_sub: (at, value) => it.change(at, it.word(at) - value), atomic_xchg: (at, value) => it.change(at, value),
        atomic_cmpxchg: (at, wanted, value) => it.word(at) === BigInt.asUintN(64, wanted) ? it.change(at, value) : it.word(at),
    };
    const yielding = { pthread_join: number => it.join(number), sched_yield: () => it.yield(0), syscall: (number, word, operation, value) => it.sleep(word, operation, value) };
    for (const [name, call] of Object.entries(yielding)) calls[name] = canSuspend ? new WebAssembly.Suspending(call) : call;
    return calls;
}

// Runs the program with these words (the first is its name), files (a Map of paths and bytes) and input. Its status, streams and files.
async function runOnfiseq(compiled, words, given, input = new Uint8Array(0)) {
    const files = new Files(given), it = new System(words, files, input), calls = importsOf(it), imports = {};
    for (const { module, name } of WebAssembly.Module.imports(compiled)) {
        const call = calls[name];
        if (!call) throw new Error("the page hasn't " + name);
        (imports[module] = imports[module] || {})[name] = call;
    }
    it.begin((await WebAssembly.instantiate(compiled, imports)).exports);
    const main = it.module.onfiseq_main;
    let status;
    try {
        status = canSuspend ? await WebAssembly.promising(main)() : main();
        if (it.fault) throw it.fault;
    } catch (fault) {
        if (!(fault instanceof Ended)) throw fault;
        status = fault.status;
    }
    return { status, output: it.opened[1].file.bytes(), errors: it.opened[2].file.bytes(), files: new Map([...files.byPath].map(([path, file]) => [path, file.bytes()])) };
}
if (typeof module !== "undefined") module.exports = { runOnfiseq, canSuspend };
