"""The checks of the tools beside the workbench, which tools/check-tools runs."""
