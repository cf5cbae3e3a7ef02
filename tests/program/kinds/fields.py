"""Events, of which `collect --fields` prints the fields: formats and payloads, true and malformed."""

from made.fields import cases

# How often each of these is there at least, in every thousand cases.
OFTEN = {"status 0": 100, "malformed": 200, "not whole": 300, "uncut": 200, "JSON uncut": 100, "too many": 20}
OFTEN |= {"names": 100, "JSON names": 50, "bits": 25, "quoted": 40, "function": 20, "task": 30, "JSON task": 30}
OFTEN |= {"signed": 300, "unsigned": 300, "word": 300, "address": 300}
OFTEN |= {f"here {kind}": 100 for kind in ("number", "numbers", "text", "bytes")}
OFTEN |= {f"{place} {kind}": 50 for place in ("rest", "located", "relative") for kind in ("numbers", "text", "bytes")}
ALSO = ()

__all__ = ["ALSO", "OFTEN", "cases"]
