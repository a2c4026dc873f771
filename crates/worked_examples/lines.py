#!/usr/bin/env python3
"""Writes the file `stdout` that the program must print, from the list and the texts in `data` alone."""
import pathlib
import tomllib

here = pathlib.Path(__file__).parent
data = here / "data"
examples = tomllib.loads((data / "examples.toml").read_text())["example"]
lines = []
for example in examples:
    told = example["told"]
    text = (data / told["text"]).read_bytes() if "text" in told else b""
    taken = told.get("taken", len(text))
    assert taken <= len(text)
    lines.append(f"{example['name']}: exit {told['exit']}, message `{told['message']}`, {taken} bytes, as told")
lines.append(f"{len(examples)} examples")
(here / "stdout").write_text("\n".join(lines) + "\n")
