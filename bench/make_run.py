"""Makes the files of a run for run.sh and backlog.sh: make_run.py FOLDER read|program|erase [JOBS [ORDER]]. So many jobs (1,000), each of which reads a whole page, programs
one from a file of its length, or erases a block; on 8 LUNs in turn (in_turn), on one after the other (lun_by_lun), or all on the first (one_lun)."""
import sys
from pathlib import Path

PAGE_BYTES, SPARE_BYTES, PAGES, BLOCKS, LUNS, TARGETS = 4096, 256, 64, 1024, 2, 4


def checksum(data):
    """The checksum of a parameter page (docs/model/MODEL.md)."""
    register = 0x4F4E
    for byte in data:
        register ^= byte << 8
        for _ in range(8):
            register = (register << 1) ^ (0x8005 if register & 0x8000 else 0)
            register &= 0xFFFF
    return register


def parameter_page():
    page = bytearray(256)
    page[0:4] = b"ONFI"
    page[6] = 0b10  # operations of several LUNs
    page[8] = 0b1000  # Read Status Enhanced
    page[80:84] = PAGE_BYTES.to_bytes(4, "little")
    page[84:86] = SPARE_BYTES.to_bytes(2, "little")
    page[92:96] = PAGES.to_bytes(4, "little")
    page[96:100] = BLOCKS.to_bytes(4, "little")
    page[100] = LUNS
    page[101] = 0x23
    page[254:256] = checksum(page[:254]).to_bytes(2, "little")
    return bytes(page)


LENGTH = PAGE_BYTES + SPARE_BYTES
WORDS = {
    "read": f" cmd 00\n addr 0 5\n cmd 30\n wait\n cmd 00\n get {LENGTH}\n",
    "program": f" cmd 80\n addr 0 5\n put {LENGTH}\n cmd 10\n wait\n",
    "erase": " cmd 60\n addr 2 3\n cmd d0\n wait\n",
}
ORDERS = {
    "in_turn": lambda job, jobs: job % (TARGETS * LUNS),
    "lun_by_lun": lambda job, jobs: job * TARGETS * LUNS // jobs,
    "one_lun": lambda job, jobs: 0,
}


def program(work):
    length = 0 if work == "erase" else LENGTH
    return f"rows 1\nbuffer {length}\nbudget {length + 12}\n{WORDS[work]} end 0\n"


def run_file(folder, work, jobs, order):
    lines = [f"page {folder}/chip.page", f"targets {TARGETS}", "polls 2"]
    data = f"{folder}/data" if work == "program" else "-"
    for job in range(jobs):
        lun = ORDERS[order](job, jobs)
        row = job % BLOCKS * PAGES if work == "erase" else job % 4096
        lines.append(f"job {lun // LUNS} {lun % LUNS} {row} {folder}/words.nmp {data} -")
    return "\n".join(lines) + "\n"


folder, work = Path(sys.argv[1]), sys.argv[2]
jobs = int(sys.argv[3]) if len(sys.argv) > 3 else 1000
order = sys.argv[4] if len(sys.argv) > 4 else "in_turn"
folder.mkdir(parents=True, exist_ok=True)
(folder / "chip.page").write_bytes(parameter_page())
(folder / "words.asm").write_text(program(work))
(folder / "data").write_bytes(bytes(place % 251 for place in range(LENGTH)))
(folder / "run").write_text(run_file(folder, work, jobs, order))
