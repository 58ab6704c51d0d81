"""Formulas in the forms of other programs, which tools/from-other turns into the workbench's."""
