"""CBOR for the programs of this folder: the reader and writer of examples/judge, which stands there so that the example can be
copied out alone. A link in place of this file is refused by the gate."""
import importlib.util
import os

PATH = os.path.join(os.path.dirname(os.path.abspath(__file__)), "..", "..", "examples", "judge", "cbor.py")
spec = importlib.util.spec_from_file_location("examples_judge_cbor", PATH)
module = importlib.util.module_from_spec(spec)
spec.loader.exec_module(module)
globals().update({name: value for name, value in vars(module).items() if not name.startswith("__")})
