// Replays in Node what cases.c printed on x86-64, call by call on the WebAssembly module: node replay.js MODULE.wasm shape.json chip.page cases.jsonl
// The last line says how many answers there were; the status is 1 where one differs. In a browser, tools/machines/try/browser.py loads it after onfiseq.js.
"use strict";

// The sum of sums.h over numbers, and over the fields of a record.
class Sum {
    constructor(shape) { this.shape = shape; this.high = 0xcbf29ce4; this.low = 0x84222325; }
    byte(it) {
        this.low ^= it;
        const low = (this.low >>> 0) * 0x1b3, carried = Math.floor(low / 4294967296);
        this.high = (((this.high >>> 0) * 0x1b3 % 4294967296) + carried + ((this.low << 8) >>> 0)) >>> 0;
        this.low = low >>> 0;
    }
    number(it) {
        let low = Number(BigInt(it) % 4294967296n), high = Number(BigInt(it) / 4294967296n);
        for (let k = 0; k < 4; k++, low = Math.floor(low / 256)) this.byte(low & 255);
        for (let k = 0; k < 4; k++, high = Math.floor(high / 256)) this.byte(high & 255);
    }
    record(kind, value) {
        for (const field of this.shape.records[kind].fields)
            for (let k = 0; k < (field.count || 1); k++) {
                const it = field.count ? value[field.name][k] : value[field.name];
                if (field.kind in this.shape.records) this.record(field.kind, it);
                else this.number(it);
            }
        return this;
    }
    text() { return (this.high >>> 0).toString(16).padStart(8, "0") + (this.low >>> 0).toString(16).padStart(8, "0"); }
}

const bytesOf = text => Uint8Array.from((text.match(/../g) || []).map(it => parseInt(it, 16)));
const itemOf = ([ce, kind, byte, fail]) => ({ ce, kind, byte, fail });
function geometryOf([page_bytes, spare_bytes, pages, blocks, luns, plane_bits, enhanced, multi_plane, cache, optional]) {
    return { page_bytes, spare_bytes, pages, blocks, luns, plane_bits, enhanced, multi_plane, cache, optional };
}

class Replay {
    constructor(lib, shape, page) { Object.assign(this, { lib, shape, page, answers: 0, differing: 0, first: "" }); }
    same(what, got, wanted) {
        this.answers++;
        if (JSON.stringify(got) === JSON.stringify(wanted)) return;
        if (this.differing++ === 0) this.first = what + ": " + JSON.stringify(got) + ", not " + JSON.stringify(wanted);
    }
    sum(kind, value) { return new Sum(this.shape).record(kind, value).text(); }
    placed(it) { return [it.letter, it.number, it.at, it.length]; }
    verdict(it) { return [it.letter, it.number, it.at]; }
    empty(kind) {
        const one = field => field.kind in this.shape.records ? this.empty(field.kind) : 0;
        return Object.fromEntries(this.shape.records[kind].fields.map(field => [field.name, field.count ? Array.from({ length: field.count }, () => one(field)) : one(field)]));
    }

    samples(it) {
        const sum = new Sum(this.shape);
        sum.record("onfiseq_abi", this.lib.sizes()).record("onfiseq_live_abi", this.lib.live_sizes()).record("onfiseq_live_sample", this.lib.live_make_sample());
        sum.record("onfiseq_page", this.lib.read_page(this.page));
        for (let bit = 0; bit < 32; bit++) sum.record("onfiseq_sample", this.lib.make_sample(Math.pow(2, bit)));
        this.same("samples", sum.text(), it.sum);
    }
    begun(chip, targets) { return this.lib.begun(chip, targets); }
    begunLive(chip, targets) {
        const live = this.empty("onfiseq_live");
        this.lib.live_begin_sized(live, this.shape.records.onfiseq_live.size, this.shape.version, chip, targets);
        return live;
    }
    looks(bus) {
        const sum = new Sum(this.shape);
        for (let at = 0; at < 25; at++) sum.record("onfiseq_look", this.lib.look_at(bus, Math.floor(at / 5), at % 5));
        return sum.text();
    }
    trace(it) {
        const chip = geometryOf(it.chip), items = it.items.map(itemOf), bus = this.begun(chip, it.targets);
        this.same("push", items.map(item => this.lib.push(bus, item)), it.push);
        this.same("ask", items.map(item => this.lib.ask(bus, item)), it.ask);
        this.same("looks", this.looks(bus), it.looks);
        const status = this.begun(chip, it.targets), done = { value: 0 };
        this.same("push_status", items.flatMap(item => [this.lib.push_status(status, item, done), done.value]), it.status);
        this.same("looks of push_status", this.looks(status), it.status_looks);
        const whole = this.begun(chip, it.targets), answer = this.lib.check(chip, it.targets, items), rule = this.lib.push_all(whole, items, done);
        this.same("check, push_all", [answer.letter, answer.number, answer.at, rule, done.value], it.whole);
        this.same("looks of push_all", this.looks(whole), it.whole_looks);
    }
    assembly(it) {
        const file = new Uint8Array(4112), made = this.lib.assemble(new TextEncoder().encode(it.text), file);
        this.same("assemble", this.placed(made), it.made);
        return it.file === undefined ? new Uint8Array(0) : bytesOf(it.file);
    }
    program(it) {
        const file = this.assembly(it);
        if (it.file === undefined) return;
        const text = new Uint8Array(65536), shown = this.lib.disassemble(file, text), sum = new Sum(this.shape), end = { count: 0, at: 0, number: 0, forbidden: 0 };
        for (const byte of text.subarray(0, shown.length)) sum.number(byte);
        this.same("disassemble", [this.placed(shown), sum.text()], [it.shown, it.shown_text]);
        const run = Array.from({ length: 256 }, () => itemOf([0, 0, 0, 0])), verdict = this.lib.verify_run(this.page, file, 1000, run, end);
        this.same("verify", this.verdict(this.lib.verify(this.page, file)), it.verdict);
        this.same("verify_run", [this.verdict(verdict), [end.count, end.at, end.number, end.forbidden]], [it.verdict_run, it.run_end]);
        this.same("run", run.slice(0, end.count).map(item => [item.ce, item.kind, item.byte, item.fail]), it.run);
        if (it.words) this.words(it);
    }
    words(it) {
        const [letter, number, room, length] = it.words, text = new Uint8Array(160), part = text.subarray(0, room), sum = new Sum(this.shape);
        this.same("words", this.lib.words(letter * 256 + number, part), length);
        for (const byte of text) sum.number(byte);
        this.same("words", sum.text(), it.words_text);
    }

    job(live, it, k) {
        const file = this.assembly(it["program" + k]), [ce, lun, base, letter, number] = it["begun" + k], job = this.empty("onfiseq_job");
        const step = this.lib.job_begin(live, ce, lun, base, file, file.length > 10 ? file[8] | file[9] << 8 : 0, job);
        this.same("job_begin", [step.letter, step.number], [letter, number]);
        return { file, job };
    }
    step(live, work, [, hex, ...wanted], sum) {
        const turn = this.lib.job_next(live, work.job, work.file), step = this.lib.job_finish(live, work.job, work.file, bytesOf(hex));
        sum.record("onfiseq_turn", turn).record("onfiseq_step", step).record("onfiseq_job", work.job);
        this.same("step", [turn.letter, turn.number, step.letter, step.number], wanted);
    }
    ready(live, [, ce, lun, failed, ofArray, wanted], sum) {
        const rule = ofArray ? this.lib.live_array_ready(live, ce, lun, failed !== 0) : this.lib.live_ready(live, ce, lun, failed);
        sum.number(rule);
        this.same("ready", rule, wanted);
    }
    jobs(it) {
        const live = this.begunLive(geometryOf(it.chip), it.targets), works = [0, 1, 2].map(k => this.job(live, it, k)), sum = new Sum(this.shape);
        for (const step of it.steps.slice(1)) step[0] === 9 ? this.ready(live, step, sum) : this.step(live, works[step[0]], step, sum);
        this.same("answers", sum.text(), it.answers);
    }
    line(text) {
        const it = JSON.parse(text);
        if (it.samples) this.samples(it);
        else if (it.items) this.trace(it);
        else if (it.live) this.jobs(it);
        else this.program(it);
    }
    told() { return this.differing ? this.differing + " of " + this.answers + " answers DIFFER, the first: " + this.first : this.answers + " answers are the same"; }
}

async function main([modulePath, shapePath, pagePath, casesPath]) {
    const fs = require("fs"), { onfiseqLoad } = require("../page/onfiseq.js"), shape = JSON.parse(fs.readFileSync(shapePath));
    const replay = new Replay(await onfiseqLoad(fs.readFileSync(modulePath), shape), shape, new Uint8Array(fs.readFileSync(pagePath)));
    for (const line of fs.readFileSync(casesPath, "utf8").split("\n")) if (line) replay.line(line);
    console.log(replay.told());
    process.exitCode = replay.differing ? 1 : 0;
}
if (typeof process !== "undefined" && typeof require !== "undefined") main(process.argv.slice(2));
