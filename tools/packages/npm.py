"""The package for Node and for bundlers: the WebAssembly module, the script that calls it, and its types; tools/dist calls it."""
import json
import os
import sys

import archive
import version

sys.path.insert(0, "tools/machines")
import header

INDEX = """"use strict";
const fs = require("fs"), path = require("path"), {{ onfiseqLoad }} = require("./onfiseq.js");
const shape = {shape};
/** The library; each call of onfiseq.h without its prefix. */
module.exports.load = (bytes = fs.readFileSync(path.join(__dirname, "onfiseq.wasm"))) => onfiseqLoad(bytes, shape);
module.exports.shape = shape;
"""
NUMBERS = {"bool": "boolean"}


def find_module():
    """The module with the calls of the header: that of release/, or the one that tools/machines has built; None where there is none."""
    return next((archive.read(path) for path in ("release/onfiseq.wasm", "out/machines/wasm/whole.wasm") if os.path.isfile(path)), None)


def type_name(kind):
    """A type's name in TypeScript: onfiseq_live_abi is LiveAbi."""
    if not header.is_record(kind):
        return NUMBERS.get(kind, "number")
    return "".join(part.capitalize() for part in kind.split("_")[1:])


def type_of_field(field):
    return type_name(field["kind"]) + ("[]" if field["count"] else "")


def type_of_given(it):
    """The type of an argument: a slice of bytes is a Uint8Array, a count that is written an object with its value."""
    if it["by"] == "slice":
        return type_name(it["kind"]) + "[]" if header.is_record(it["kind"]) else "Uint8Array"
    return "{ value: number }" if it["by"] == "pointer" and it["kind"] == "size_t" else type_name(it["kind"])


def types(records, calls):
    """index.d.ts: a record is an object, and a call has no lengths of slices."""
    lines = []
    for name, record in records.items():
        fields = " ".join("%s: %s;" % (field["name"], type_of_field(field)) for field in record["fields"])
        lines.append("export interface %s { %s }" % (type_name(name), fields))
    lines.append("export interface Library {")
    for name, call in calls.items():
        given = ", ".join("%s: %s" % (it["name"], type_of_given(it)) for it in call["given"] if it["by"] != "length")
        lines.append("    %s(%s): %s;" % (name[len("onfiseq_") :], given, type_name(call["answer"])))
    lines += ["    /** What a code means. */", "    says(letter: number, number: number): string;", "}"]
    return "\n".join(lines + ["export function load(module?: BufferSource): Promise<Library>;"]) + "\n"


def contents(module):
    """The files of the package, by their names in it."""
    records, calls = header.read("include/onfiseq.h")
    manifest = {"name": version.NAME, "version": version.number(), "description": version.SAID, "license": "MIT", "main": "index.js", "types": "index.d.ts"}
    return {
        "package.json": (json.dumps(manifest, indent=2) + "\n").encode(),
        "index.js": INDEX.format(shape=json.dumps({"records": records, "calls": calls})).encode(),
        "index.d.ts": types(records, calls).encode(),
        "onfiseq.js": archive.read("tools/machines/page/onfiseq.js"),
        "onfiseq.wasm": module,
        "LICENSE": archive.read("LICENSE"),
    }


def write(folder):
    module = find_module()
    if module is None:
        sys.exit("dist: no module with the calls of onfiseq.h is in release/, and tools/machines hasn't built it: the package for Node isn't made")
    archive.write_tar("%s/%s-%s.tgz" % (folder, version.NAME, version.number()), contents(module), "package")
