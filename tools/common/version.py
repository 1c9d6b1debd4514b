"""The tools' version: the first letters of the SHA-256 over all their files, so that no two versions share one."""
import hashlib
from pathlib import Path

TOOLS = Path(__file__).resolve().parents[1]
LETTERS = 16


def version():
    digest = hashlib.sha256()
    for path in sorted(path for path in TOOLS.rglob("*") if path.is_file() and "__pycache__" not in path.parts):
        digest.update(str(path.relative_to(TOOLS)).encode() + b"\0" + path.read_bytes() + b"\0")
    return digest.hexdigest()[:LETTERS]
