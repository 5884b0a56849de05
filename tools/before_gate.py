"""Says what the gate would refuse before it proves anything: texts, names, links, edits and files that aren't formatted.

    python3 tools/before_gate.py

at the root; it takes seconds. It asks the functions of the kit's own `rt`, so it says what that says.
"""
import os
import re
import sys

from kit_gate import load_gate


def stops(call, *given):
    try:
        call(*given)
    except SystemExit:
        return True
    return False


def main():
    gate, root = load_gate(), os.getcwd()
    library = gate.rtlib
    library.stop, library.Crate, gate.Crate.cuts_libraries, gate.Crate.allowed = gate.stop, gate.Crate, True, gate.handles_of(root)
    crates, refused = library.crates_below(root), []
    for crate in crates:
        code = library.code_of(crate.folder)
        beyond = [it for it, words in gate.REACHES.items() if it not in crate.allowed and re.search(words, code)]
        is_refused = [
            stops(library.stop_on_links, crate.folder),
            stops(library.stop_on_unread, crate.folder, crates),
            stops(library.stop_on_text, crate, "verdict"),
            stops(gate.stop_on_words, crate),
            bool(beyond or re.search(gate.RENAMES, code) or re.search(gate.IGNORED, code)),
            library.fmt(crate.folder, "--check", sys.stdout) != 0,
            bool(gate.edits_of(crate)[1]),
        ]
        if any(is_refused):
            refused.append(crate.name)
    print(f"refused: {' '.join(refused)}" if refused else f"nothing is refused, {len(crates)} crates")
    sys.exit(1 if refused else 0)


main()
