"""The modules of tools/explain: faults of scripts with a caret and a guess. `explaining.faults.explain` is the call."""
