"""Where the scripts of the gate and the client in python are found, and what they have of servers that were apart."""
import sys
from pathlib import Path

ROOT = Path(__file__).resolve().parent.parent.parent
sys.path[:0] = [str(ROOT / ".ci" / "python"), str(ROOT / "clients" / "python")]

from late import folder_with, meet, spent  # noqa: E402, F401
