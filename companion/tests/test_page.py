"""The outputs on the companion's page are those of its commands, the chart in docs/ is that of its plant, and the
plants of the page ran so."""
import re
import shutil
import subprocess
import sys

import pytest
from conftest import ENVIRONMENT, TOP, WITH_LAB

PAGE = (TOP / "docs" / "companion.md").read_text()
SHOWN = re.findall(r"```sh\n(.*?)```\n\n```text\n(.*?)```", PAGE, re.S)


@pytest.fixture(scope="module")
def folder(tmp_path_factory):
    return tmp_path_factory.mktemp("page")


@pytest.mark.parametrize("command, wanted", SHOWN, ids=[command.split("\n")[-2] for command, _ in SHOWN])
def test_output_is_as_shown(folder, command, wanted):
    if re.search("tshark|gatepast trace", command) and not shutil.which("tshark"):
        pytest.skip("there is no tshark")
    if "gatepast plant" in command and "GATEPAST_LAB" not in ENVIRONMENT:
        pytest.skip("there is no fsoe_lab")
    environment = ENVIRONMENT | {"TMP": str(folder)}
    ran = subprocess.run(["bash", "-c", command], cwd=TOP, capture_output=True, text=True, env=environment)
    assert (ran.stdout, ran.stderr) == (wanted, "")
    if "--chart" in command:
        assert (folder / "stop.html").read_text() == (TOP / "docs" / "plant.html").read_text()


@WITH_LAB
def test_the_examples_of_the_page_ran_so(tmp_path):
    subprocess.run([sys.executable, TOP / "page" / "plants", tmp_path / "plants.json"], env=ENVIRONMENT, check=True)
    assert (tmp_path / "plants.json").read_text() == (TOP / "page" / "src" / "plants.json").read_text()
