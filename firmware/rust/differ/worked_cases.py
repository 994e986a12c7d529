"""The runs of the worked examples on an image and a script, as the comparisons of this folder take them."""
import re
import sys
from pathlib import Path

ROOT = Path(__file__).resolve().parents[3]
sys.dont_write_bytecode = True
sys.path[:0] = [str(ROOT / "bench")]
import cases  # noqa: E402

NO_STORE = "ee: image (?:unformatted|no live set|two live sets|foreign word)"


def all_cases():
    """The runs of the worked examples whose texts are an image and a script, also where the image holds no store."""
    for run in cases.worked.runs():
        if run.step.status == 0 or re.match(NO_STORE, run.step.printed):
            yield cases.Case(run.name, cases.worked.text_of(run.start), [run.script])
