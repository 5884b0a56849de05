// The page: a folder of files and commands of the program, which run anew at each edit of either.
const $ = id => document.getElementById(id);
const bytesOf = base64 => Uint8Array.from(atob(base64), it => it.charCodeAt(0));
const textOf = bytes => new TextDecoder().decode(bytes);
const MOST_SHOWN = 200000, MOST_LINKED = 200000;
// What a button puts into each command of these kinds, or takes out again.
const OPTIONS = [
    { name: "all faults", option: "--all", kinds: ["check"] },
    { name: "R/B# isn't recorded", option: "--readies-from-status", kinds: ["check"] },
    { name: "begins in the middle", option: "--from-middle", kinds: ["check"] },
    { name: "optional commands", option: "--profile onfi", kinds: ["check", "verify", "capture", "ops", "lint", "explain", "draw", "wave"] },
];
// The commands for a file that comes, by what it is.
const FOR_KIND = {
    capture: name => [`capture chip.page 1 ${name} ${name}.trace`, `check chip.page 1 ${name}.trace --recorded --readies-from-status --all`, `ops chip.page 1 ${name}.trace`],
    trace: name => [`check chip.page 1 ${name} --recorded --all`, `draw chip.page 1 ${name} ${name}.svg`],
    program: name => [`verify chip.page ${name} --draw ${name}.svg`, `lint chip.page ${name}`],
    run: name => [`run ${name} --quiet --draw ${name}.svg`],
    page: name => [`page --show ${name}`],
};
let compiled, files = new Map(), open = "", waiting = 0, takes = 0, turn = 0;

// ---- what a file is

function isText(bytes) { return !bytes.subarray(0, 4096).includes(0); }
function kindOf(name, bytes) {
    if (textOf(bytes.subarray(0, 4)) === "ONFI") return "page";
    if (/\.(vcd|csv)$/i.test(name) || /^\s*\$(date|version|timescale|comment)/.test(textOf(bytes.subarray(0, 64)))) return "capture";
    if (/\.(asm|nmp)$/i.test(name) || textOf(bytes.subarray(0, 3)) === "NMP") return "program";
    if (/\.run$/i.test(name)) return "run";
    return isText(bytes) ? "trace" : "";
}

// ---- the files and the editor

function showNames() {
    $("names").replaceChildren(...[...files.keys()].map(name => {
        const it = document.createElement("button");
        it.type = "button";
        it.textContent = name;
        it.setAttribute("aria-pressed", name === open);
        it.onclick = () => openFile(name);
        return it;
    }));
}
function openFile(name) {
    open = name;
    const bytes = files.get(name) || new Uint8Array(0), canEdit = isText(bytes) && bytes.length <= 4 * MOST_SHOWN;
    $("text").value = canEdit ? textOf(bytes) : `${bytes.length} bytes, which aren't shown`;
    $("text").readOnly = !canEdit;
    $("text").scrollTop = 0;
    showNames();
    showLines(0);
}
function showLines(marked) {
    const count = Math.min($("text").value.split("\n").length, 100000), numbers = [];
    for (let line = 1; line <= count; line++) numbers.push(line === marked ? `<b>${line}</b>` : line);
    $("lines").innerHTML = numbers.join("\n");
    $("lines").scrollTop = $("text").scrollTop;
}
function goTo(name, line) {
    if (name !== open) openFile(name);
    const lines = $("text").value.split("\n"), begin = lines.slice(0, line - 1).reduce((sum, it) => sum + it.length + 1, 0);
    $("text").focus();
    $("text").setSelectionRange(begin, begin + (lines[line - 1] || "").length);
    $("text").scrollTop = (line - 8) * 14 * 1.45;
    showLines(line);
}
// The files that come: a parameter page becomes the chip, and the first other one tells which commands run.
async function addFiles(given) {
    let commands = null;
    for (const it of given) {
        const bytes = new Uint8Array(await it.arrayBuffer()), kind = kindOf(it.name, bytes), name = kind === "page" ? "chip.page" : it.name.replace(/\s+/g, "_");
        files.set(name, bytes);
        if (kind && (!commands || commands[0].startsWith("page"))) {
            commands = FOR_KIND[kind](name);
            open = name;
        }
    }
    if (commands) $("commands").value = commands.join("\n");
    openFile(open);
    judge();
}

// ---- the commands

// The words of a line, and where its streams are: as a shell reads quotes and `<` and `>`.
function readLine(line) {
    const words = [], streams = {};
    let next = null;
    for (const [whole, quoted, plain] of line.matchAll(/"([^"]*)"|'[^']*'|([^\s"']+)/g)) {
        const word = quoted !== undefined ? quoted : plain !== undefined ? plain : whole.slice(1, -1);
        if (plain === "<" || plain === ">") next = plain;
        else if (next) { streams[next] = word; next = null; }
        else words.push(word);
    }
    if (words[0] === "onfiseq" || /\/onfiseq$/.test(words[0] || "")) words.shift();
    return { words, streams };
}
async function runAll() {
    const folder = new Map(files), done = [];
    for (const line of $("commands").value.split("\n")) {
        const { words, streams } = readLine(line);
        if (words.length === 0) continue;
        const input = streams["<"] === undefined ? new Uint8Array(0) : folder.get(streams["<"]);
        if (input === undefined) {
            done.push({ line, status: 2, output: new Uint8Array(0), errors: new TextEncoder().encode(`there is no file ${streams["<"]}\n`), made: [] });
            continue;
        }
        const ran = await runOnfiseq(compiled, ["onfiseq", ...words], folder, input);
        const made = [...ran.files].filter(([name, bytes]) => { const before = folder.get(name); return !before || before.length !== bytes.length || before.some((it, at) => it !== bytes[at]); });
        if (streams[">"] !== undefined) made.push([streams[">"], ran.output]);
        for (const [name, bytes] of made) folder.set(name, bytes);
        done.push({ line, status: ran.status, output: streams[">"] === undefined ? ran.output : new Uint8Array(0), errors: ran.errors, made });
    }
    return done;
}

// ---- the answers

function saved(name, bytes) {
    const it = document.createElement("a");
    it.textContent = `${name}, ${bytes.length} bytes`;
    it.href = URL.createObjectURL(new Blob([bytes]));
    it.download = name.split("/").pop();
    return it;
}
// Adds a text; what stands between backticks is code, and the backticks stay for whoever copies it.
function addText(it, text) {
    let from = 0;
    const tick = () => { const mark = document.createElement("span"); mark.className = "tick"; mark.textContent = "`"; return mark; };
    for (const found of text.matchAll(/`([^`\n]+)`/g)) {
        const code = document.createElement("code");
        code.textContent = found[1];
        it.append(text.slice(from, found.index), tick(), code, tick());
        from = found.index + found[0].length;
    }
    it.append(text.slice(from));
}
// What a stream says; its places, as `FILE:LINE:`, are links that go there.
function placed(text, stream) {
    const it = document.createElement("pre"), shown = text.length > MOST_SHOWN ? text.slice(0, MOST_SHOWN) + "\n.." : text;
    let from = 0;
    it.className = stream;
    for (const found of shown.matchAll(/^(\S+?):(\d+):/gm)) {
        if (!files.has(found[1])) continue;
        addText(it, shown.slice(from, found.index));
        const link = document.createElement("a");
        link.href = "#";
        link.textContent = found[0];
        link.onclick = event => { event.preventDefault(); goTo(found[1], +found[2]); };
        it.append(link);
        from = found.index + found[0].length;
    }
    addText(it, shown.slice(from));
    return it;
}
function pictureOf(name, bytes) {
    const it = document.createElement("div"), picture = document.createElement("img");
    it.className = "picture";
    it.tabIndex = 0;
    picture.alt = name;
    picture.src = URL.createObjectURL(new Blob([bytes], { type: "image/svg+xml" }));
    it.append(picture);
    return it;
}
function answerOf({ line, status, output, errors, made }) {
    const it = document.createElement("div"), head = document.createElement("div"), name = document.createElement("code");
    it.className = "ran" + (status === 0 ? " good" : "");
    name.textContent = "onfiseq " + line.trim();
    head.append(name, status === 0 ? "" : `, status ${status}`);
    it.append(head);
    if (output.length) it.append(placed(textOf(output), "output"));
    if (errors.length) it.append(placed(textOf(errors), "errors"));
    for (const [path, bytes] of made) {
        if (/\.svg$/.test(path)) it.append(pictureOf(path, bytes));
        it.append(saved(path, bytes), " ");
    }
    return it;
}
function markFirst(done) {
    for (const { errors } of done) {
        for (const found of textOf(errors.subarray(0, MOST_SHOWN)).matchAll(/^(\S+?):(\d+):/gm))
            if (found[1] === open) return showLines(+found[2]);
    }
    showLines(0);
}
async function judge() {
    waiting = 0;
    const mine = ++turn, begun = performance.now();
    let done, fault = null;
    try { done = await runAll(); } catch (it) { fault = it; }
    if (mine !== turn) return;
    takes = performance.now() - begun;
    if (fault) $("answers").textContent = "The program can't go on: " + fault;
    else {
        $("answers").replaceChildren(...done.map(answerOf));
        markFirst(done);
    }
    $("answers").dataset.turn = turn;
    $("answers").dataset.milliseconds = takes.toFixed(1);
    showOptions();
}
function judgeSoon() {
    if (!waiting) waiting = setTimeout(judge, Math.min(2000, 10 + 2 * takes));
}

// ---- options, examples, links

const isOf = (line, kinds) => kinds.includes(line.trim().replace(/^onfiseq\s+/, "").split(/\s/)[0]);
function showOptions() {
    const lines = $("commands").value.split("\n");
    $("options").replaceChildren(...OPTIONS.filter(it => lines.some(line => isOf(line, it.kinds))).map(({ name, option, kinds }) => {
        const it = document.createElement("button"), has = lines.some(line => isOf(line, kinds) && line.includes(option));
        it.type = "button";
        it.textContent = name;
        it.title = option;
        it.setAttribute("aria-pressed", has);
        it.onclick = () => {
            $("commands").value = lines.map(line => !isOf(line, kinds) ? line : has ? line.replace(new RegExp(` *${option}`), "") : line.includes(option) ? line : `${line.trimEnd()} ${option}`).join("\n");
            judge();
        };
        return it;
    }));
}
function takeExample({ files: given, commands, open: name }) {
    files = new Map(given.map(it => [it.name, bytesOf(it.base64)]));
    $("commands").value = commands.join("\n");
    openFile(name);
    judge();
}
function showExamples() {
    $("examples").replaceChildren(...EXAMPLES.map(it => {
        const button = document.createElement("button");
        button.type = "button";
        button.textContent = it.name;
        button.onclick = () => takeExample(it);
        return button;
    }));
}
function makeLink() {
    const given = [...files].map(([name, bytes]) => ({ name, base64: btoa([...bytes].map(it => String.fromCharCode(it)).join("")) }));
    const text = encodeURIComponent(JSON.stringify({ files: given, commands: $("commands").value.split("\n"), open }));
    if (text.length > MOST_LINKED) { $("linked").textContent = "The files are too long for a link."; return; }
    location.hash = text;
    $("linked").textContent = "It stands in the address line.";
    if (navigator.clipboard) navigator.clipboard.writeText(location.href).then(() => { $("linked").textContent = "Copied."; }, () => {});
}
function readLink() {
    if (location.hash.length < 2) return null;
    try {
        const it = JSON.parse(decodeURIComponent(location.hash.slice(1)));
        return Array.isArray(it.files) && Array.isArray(it.commands) ? it : null;
    } catch (fault) { return null; }
}

function listen() {
    $("text").oninput = () => {
        if (!open) openFile("new.trace");
        files.set(open, new TextEncoder().encode($("text").value));
        showNames();
        judgeSoon();
    };
    $("text").onscroll = () => { $("lines").scrollTop = $("text").scrollTop; };
    $("commands").oninput = judgeSoon;
    $("add").onchange = event => addFiles(event.target.files);
    $("new").onclick = () => {
        const name = prompt("The file's name", "new.asm");
        if (name) { files.set(name, files.get(name) || new Uint8Array(0)); openFile(name); }
    };
    $("remove").onclick = () => { files.delete(open); openFile([...files.keys()][0] || ""); judge(); };
    $("link").onclick = makeLink;
    document.ondragover = event => { event.preventDefault(); $("files").classList.add("over"); };
    document.ondragleave = () => $("files").classList.remove("over");
    document.ondrop = event => { event.preventDefault(); $("files").classList.remove("over"); addFiles(event.dataTransfer.files); };
    window.onhashchange = () => { const it = readLink(); if (it) takeExample(it); };
}

WebAssembly.compile(bytesOf(MODULE)).then(it => {
    compiled = it;
    showExamples();
    listen();
    takeExample(readLink() || EXAMPLES[0]);
    document.body.dataset.ready = "yes";
});
