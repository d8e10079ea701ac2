#!/usr/bin/env python3
"""Gives names of the source their underscores back in the names of goals and steps, in crates/*/proofs/*/Answers and Invariants.

usage: python3 tools/source_names.py      at the top of the repository, once, after tools/respell.py
"""
import glob
import os
import re

# words of the check's own, and methods of the library, that stand in names of goals and steps
MORE = {"type_inv", "in_ok", "in_err", "copy_from_slice", "is_empty", "is_none", "is_some", "is_ascii_digit", "try_from", "as_slice", "as_str", "as_bytes", "well_formed", "in_default", "from_residual", "write_str", "write_char", "write_fmt", "split_at", "count_ones", "split_first", "split_last", "unwrap_or", "strip_prefix", "to_le_bytes", "from_le_bytes"}
TOKEN = re.compile(r"[^\s(){}\[\],.;:\"`]+")


def main():
    for crate in sorted(glob.glob("crates/*")):
        words = set(MORE)
        for f in glob.glob(crate + "/src/**/*.rt", recursive=True):
            code = "\n".join(re.sub(r"//.*", "", line) for line in open(f, encoding="utf-8"))
            words |= {w for w in re.findall(r"[A-Za-z][A-Za-z0-9]*(?:_[A-Za-z0-9]+)+", code)}
        rows = sorted(words, key=lambda w: (-len(w), w))
        pattern = re.compile(r"(?<![^-])(" + "|".join(re.escape(w.replace("_", "-")) for w in rows) + r")(?![^-])")
        for f in glob.glob(crate + "/proofs/**/*.antt", recursive=True):
            if os.path.basename(f) not in ("Answers.antt", "Invariants.antt"):
                continue
            with open(f, encoding="utf-8") as o:
                text = o.read()
            new = "\n".join(line if line.startswith("--") else TOKEN.sub(lambda m: pattern.sub(lambda w: w[1].replace("-", "_"), m[0]), line) for line in text.split("\n"))
            if new != text:
                with open(f, "w", encoding="utf-8") as o:
                    o.write(new)


main()
