"""What several tests use. The modules of scripts/ are found next to it, also if a test is called alone."""

import pathlib
import sys

sys.path.append(str(pathlib.Path(__file__).resolve().parents[2] / "scripts"))
