"""Another reader of dumps, `vcd2fst`, where it is installed."""
import shutil
import subprocess
import tempfile
from pathlib import Path

READER = shutil.which("vcd2fst")


def is_read(content):
    """Whether the other reader takes this dump."""
    with tempfile.TemporaryDirectory() as name:
        path = Path(name) / "dump.vcd"
        path.write_bytes(content)
        return subprocess.run([READER, path, path.with_suffix(".fst")], capture_output=True).returncode == 0
