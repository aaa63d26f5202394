"""Regtuma's node, and its client."""
import pathlib

_FILE = pathlib.Path(__file__).resolve().parents[2] / "VERSION"
VERSION = _FILE.read_text(encoding="ascii").strip() if _FILE.is_file() else "unknown"
