"""The files of portable vectors, and what makes each: written, or compared with what is stored."""
from pathlib import Path

from portable.batches import batch_cases
from portable.digests import digest_cases
from portable.finder import finder_cases
from portable.form import file_text
from portable.keyed import keyed_cases
from portable.letters import checking_cases, writing_cases
from portable.logs import log_cases
from portable.orders import order_vectors
from portable.panel import keyed_panel_cases, panel_cases
from portable.parts import parts_cases
from portable.passages import checked_cases, found_cases, written_cases
from portable.shape import shape_cases
from portable.stored import stored_cases

VECTORS = Path(__file__).resolve().parents[2] / "vectors"
# A file: what it is about, the section of docs/RULES.md that decides, and its cases.
FILES = {
    "orders.json": ("every two refusals of a call at once", "3", order_vectors),
    "digests.json": ("digests, plain and keyed, beside BLAKE3's published ones in blake3-published.txt", "5", digest_cases),
    "keyed.json": ("keys, modes, and what is worked out under a key", "5.5", keyed_cases),
    "parts.json": ("digests in parts: inputs cut in many ways; states begun, added to and ended", "5.7", parts_cases),
    "shape.json": ("sizes, positions of leaves and leaf counts", "6", shape_cases),
    "logs.json": ("whole logs, appends and roots", "7", log_cases),
    "batches.json": ("many records in one append", "7.7", batch_cases),
    "stored.json": ("stored nodes, written and read", "8", stored_cases),
    "letters-written.json": ("letters written", "9", writing_cases),
    "letters-checked.json": ("letters checked: true, damaged, forged", "9", checking_cases),
    "finder.json": ("letters beside the log that they are of", "10", finder_cases),
    "panel.json": ("what the panel's program reads, and the number that it writes", "11", panel_cases),
    "panel-keyed.json": ("what the panel's program for keyed logs reads, and the number that it writes", "11", keyed_panel_cases),
    "passages-written.json": ("passages written", "12", written_cases),
    "passages-checked.json": ("passages checked and handed out: true, damaged, forged", "12", checked_cases),
    "passages-found.json": ("passages beside the log that they are of", "12.9", found_cases),
}


def texts():
    """Each file's name, its text, and how many cases it has."""
    for name, (about, section, made) in FILES.items():
        cases = list(made())
        yield name, file_text(about, section, cases), len(cases)


def write_vectors():
    """Write every file."""
    for name, text, count in texts():
        (VECTORS / name).write_text(text)
        print(f"vectors/{name}: {count} cases written")
    return True


def verify_vectors():
    """Compare every file with what is made now, and look for files that nothing makes."""
    good = True
    for name, text, count in texts():
        stored = VECTORS / name
        same = stored.is_file() and stored.read_text() == text
        print(f"vectors/{name}: " + (f"{count} cases as expected" if same else "differs from what is expected"))
        good &= same
    for other in sorted({path.name for path in VECTORS.glob("*.json")} - set(FILES)):
        print(f"vectors/{other}: nothing makes it")
        good = False
    return good
