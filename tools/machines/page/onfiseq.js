// The calls of onfiseq.h over the WebAssembly module: records are objects, slices are arrays. `shape` is what header.py --json prints.
// Works in a browser and in Node, with the module of the kit for wasm64 (memory64), with that lowered to 32 bits, and with the one for wasm32, whose calls begin with `w_`.
"use strict";
async function onfiseqLoad(bytes, shape) {
    const compiled = await WebAssembly.compile(bytes);
    let module, roomAt;
    const SCALARS = { uint8_t: 1, bool: 1, char: 1, uint16_t: 2, uint32_t: 4, uint64_t: 8, size_t: 8, onfiseq_u64: 8 };
    let seen;
    const view = () => (seen && seen.buffer === module.memory.buffer ? seen : (seen = new DataView(module.memory.buffer)));
    const sizeOf = kind => SCALARS[kind] || shape.records[kind].size;

    function grow(pages) {
        try { module.memory.grow(pages); } catch (e) { module.memory.grow(BigInt(pages)); }
    }
    // So many bytes of the module's memory, until the call ends.
    function room(size) {
        const at = (roomAt + 15) & ~15;
        if (size > 0x7fff0000 || at + size > 0x7fff0000) throw new RangeError("too much for the module's memory");
        const lacking = at + size - module.memory.buffer.byteLength;
        if (lacking > 0) grow(Math.ceil(lacking / 65536));
        roomAt = at + size;
        return at;
    }
    // What verify and assemble ask for: all of it is room again when the call ends.
    let last = -1;
    function told(answer, at) {
        view().setBigUint64(Number(answer), 1n, true);
        view().setBigUint64(Number(answer) + 8, BigInt(at), true);
    }
    const host = {
        rattle_alloc(answer, size, alignment) { told(answer, last = room(Number(size || alignment))); },
        rattle_realloc(answer, old, kept, size, alignment) {
            const wanted = Number(size || alignment);
            if (Number(old) === last) { roomAt = last; room(wanted); return told(answer, last); }
            const at = room(wanted);
            new Uint8Array(module.memory.buffer).copyWithin(at, Number(old), Number(old) + Math.min(Number(kept), wanted));
            told(answer, last = at);
        },
        rattle_dealloc(old) { if (Number(old) === last) { roomAt = last; last = -1; } },
    };
    const is32 = WebAssembly.Module.exports(compiled).some(it => it.name.startsWith("w_onfiseq_"));
    const prefix = is32 ? "w_" : "", place = at => is32 ? at : BigInt(at);
    function renew() {
        const imports = {};
        for (const it of WebAssembly.Module.imports(compiled)) (imports[it.module] = imports[it.module] || {})[it.name] = host[it.name.slice(prefix.length)];
        module = new WebAssembly.Instance(compiled, imports).exports;
    }
    function put(kind, at, value) {
        const v = view();
        switch (SCALARS[kind]) {
            case 1: return v.setUint8(at, Number(value));
            case 2: return v.setUint16(at, Number(value), true);
            case 4: return v.setUint32(at, Number(value), true);
            case 8: return v.setBigUint64(at, BigInt(value), true);
        }
        for (const f of shape.records[kind].fields)
            for (let k = 0; k < (f.count || 1); k++) put(f.kind, at + f.at + k * f.size, f.count ? value[f.name][k] : value[f.name]);
    }
    // What stands in an opaque record has all its bits.
    const element = (f, at) => f.size === 8 ? view().getBigUint64(at, true) : get(f.kind, at);
    function get(kind, at) {
        const v = view();
        switch (SCALARS[kind]) {
            case 1: return kind === "bool" ? v.getUint8(at) !== 0 : v.getUint8(at);
            case 2: return v.getUint16(at, true);
            case 4: return v.getUint32(at, true);
            case 8: return Number(v.getBigUint64(at, true));
        }
        const answer = {};
        for (const f of shape.records[kind].fields)
            answer[f.name] = f.count ? Array.from({ length: f.count }, (_, k) => element(f, at + f.at + k * f.size)) : get(f.kind, at + f.at);
        return answer;
    }
    // A call is given its arguments in the order of onfiseq.h, without the lengths of slices; the room of a slice that is written is a number.
    // It answers what the call answers; what is written by a pointer is put back into the object or array that was given, or a {value} for a size_t.
    function call(name, given) {
        const how = shape.calls[name], words = [], after = [];
        roomAt = Number(module.__heap_base.value);
        last = -1;
        const byRecord = how.answer in shape.records;
        const at = byRecord ? room(sizeOf(how.answer)) : 0;
        if (byRecord) words.push(place(at));
        let next = 0;
        for (const g of how.given) {
            const size = sizeOf(g.kind);
            if (g.by === "length") continue;
            const value = given[next++];
            if (g.by === "slice") {
                const p = room(value.length * size);
                if (size === 1) new Uint8Array(module.memory.buffer).set(value, p);
                else for (let k = 0; k < value.length; k++) put(g.kind, p + k * size, value[k]);
                words.push(place(p), BigInt(value.length));
                if (!g.const) after.push(() => { for (let k = 0; k < value.length; k++) value[k] = get(g.kind, p + k * size); });
            } else if (g.by === "pointer") {
                const p = room(size);
                if (g.kind !== "size_t") put(g.kind, p, value);
                words.push(place(p));
                if (!g.const) after.push(() => { g.kind === "size_t" ? (value.value = get(g.kind, p)) : Object.assign(value, get(g.kind, p)); });
            } else words.push(size === 8 ? BigInt(value) : Number(value));
        }
        let answer;
        try { answer = module[prefix + name](...words); } catch (e) { renew(); throw e; }
        for (const it of after) it();
        return byRecord ? get(how.answer, at) : Number(answer) >>> 0;
    }
    renew();
    const lib = { call, imports: WebAssembly.Module.imports(compiled) };
    for (const name of Object.keys(shape.calls)) if (module[prefix + name]) lib[name.slice("onfiseq_".length)] = (...given) => call(name, given);
    lib.says = (letter, number) => {
        const text = new Uint8Array(160);
        lib.words(letter * 256 + number, text);
        return new TextDecoder().decode(text.subarray(0, text.indexOf(0)));
    };
    // A channel of so many targets to which nothing has happened.
    const empty = kind => Object.fromEntries(shape.records[kind].fields.map(f => [f.name, Array.from({ length: f.count }, () => 0n)]));
    lib.begun = (geometry, targets) => {
        const bus = empty("onfiseq_bus");
        lib.begin_sized(bus, shape.records.onfiseq_bus.size, shape.version, geometry, targets);
        return bus;
    };
    return lib;
}
if (typeof module !== "undefined") module.exports = { onfiseqLoad };
