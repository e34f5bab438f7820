"""What the tests of the companion share."""
import os
import pathlib
import subprocess
import sys

from hypothesis import settings

settings.register_profile("gate", database=None, deadline=None, derandomize=True, max_examples=60)
settings.load_profile("gate")
COMPANION = pathlib.Path(__file__).resolve().parents[1]
TOP = COMPANION.parent
sys.path.insert(0, str(COMPANION))

import pytest  # noqa: E402: the path comes first
from layer.program import Complaint, Tool, lab_of  # noqa: E402

TOOL = Tool()
PATH = f"{pathlib.Path(sys.executable).parent}:{os.environ['PATH']}"
ENVIRONMENT = os.environ | {"GATEPAST_TOOL": TOOL.command()[0], "PATH": PATH, "PYTHONDONTWRITEBYTECODE": "1"}

try:
    ENVIRONMENT["GATEPAST_LAB"] = lab_of(None).command()[0]
except Complaint:
    pass
WITH_LAB = pytest.mark.skipif("GATEPAST_LAB" not in ENVIRONMENT, reason="there is no fsoe_lab")


def gatepast(*words, text=""):
    """Status, standard output and standard error of the companion."""
    ran = subprocess.run(
        [sys.executable, COMPANION / "gatepast", *map(str, words)],
        input=text,
        capture_output=True,
        text=True,
        env=ENVIRONMENT,
    )
    return ran.returncode, ran.stdout, ran.stderr
