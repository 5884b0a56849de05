"""What a release is made of, as SPDX 2.3: our crates, the kit's that they stand on, what made the C files, and each of these files; tools/release calls it."""
import hashlib
import json
import re
from datetime import datetime, timezone

import archive
import version


def identifier(*words):
    return "SPDXRef-" + re.sub(r"[^A-Za-z0-9.-]", "-", "-".join(words))


def read_crates():
    """The crates of crates.txt, each with those that it stands on."""
    lines = (line.partition("#")[0].partition(":") for line in archive.read("crates.txt").decode().splitlines())
    return {head.split()[0]: names.split() for head, colon, names in lines if colon}


def read_stamp():
    """What release/STAMP says: the kit, and the compilers, each as its name and its version."""
    told = archive.read("release/STAMP").decode()
    compilers = re.findall(r"(?m)^compiler (\S+) (?:version )?(\S+)", told)
    return re.search(r"(?m)^kit (\S+)", told)[1], compilers


def package(kind, name, number, license_of_it, said=None):
    told = {"SPDXID": identifier(kind, name), "name": name, "versionInfo": number, "downloadLocation": "NOASSERTION", "filesAnalyzed": False}
    told.update({"licenseConcluded": license_of_it, "licenseDeclared": license_of_it, "copyrightText": "NOASSERTION"})
    return {**told, **({"summary": said} if said else {})}


def relation(one, kind, other):
    return {"spdxElementId": one, "relationshipType": kind, "relatedSpdxElement": other}


def file_of(name, content):
    sums = [{"algorithm": kind.upper(), "checksumValue": hashlib.new(kind, content).hexdigest()} for kind in ("sha1", "sha256")]
    return {"SPDXID": identifier("file", name), "fileName": "./" + name, "checksums": sums, "licenseConcluded": "MIT", "copyrightText": "NOASSERTION"}


def relations(crates, files, tools):
    root = identifier("package", version.NAME)
    told = [relation("SPDXRef-DOCUMENT", "DESCRIBES", root)]
    told += [relation(root, "CONTAINS", identifier("crate", name)) for name in crates]
    for name, below in crates.items():
        told += [relation(identifier("crate", name), "DEPENDS_ON", identifier("crate" if it in crates else "kit", it)) for it in below if not it.startswith("may_wait=")]
    told += [relation(root, "CONTAINS", it["SPDXID"]) for it in files]
    return told + [relation(identifier("tool", name), "BUILD_TOOL_OF", root) for name, _ in tools]


def written(release):
    """The document; `release` has the files of release/ by their names."""
    crates, (kit, tools) = read_crates(), read_stamp()
    below = sorted({it for names in crates.values() for it in names if it not in crates and "=" not in it})
    files = [file_of("release/" + name, content) for name, content in sorted(release.items())]
    packages = [package("package", version.NAME, version.number(), "MIT", version.SAID)]
    packages += [package("crate", name, version.number(), "MIT") for name in crates]
    packages += [package("kit", name, kit, "NOASSERTION", "a crate of the Rattle kit") for name in below]
    packages += [package("tool", name, number, "NOASSERTION", "it made the C files") for name, number in tools]
    made = datetime.fromtimestamp(version.time(), timezone.utc).strftime("%Y-%m-%dT%H:%M:%SZ")
    told = {"spdxVersion": "SPDX-2.3", "dataLicense": "CC0-1.0", "SPDXID": "SPDXRef-DOCUMENT", "name": "%s-%s" % (version.NAME, version.number())}
    told["documentNamespace"] = "https://onfiseq.invalid/spdx/%s-%s" % (version.number(), version.commit())
    told["creationInfo"] = {"created": made, "creators": ["Tool: tools/release of onfiseq"]}
    told.update({"packages": packages, "files": files, "relationships": relations(crates, files, tools)})
    return (json.dumps(told, indent=1) + "\n").encode()
