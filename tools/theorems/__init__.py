"""Certificates as terms of tools/coq: formulas, proofs and models, and the files in which Coq finds a theorem."""
