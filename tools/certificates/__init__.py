"""The second checker of certificates. It is written from docs/CERTIFICATES.md alone, and shares nothing with the workbench.

The tools beside the workbench read formulas and certificates by these modules, and by no others.
"""
