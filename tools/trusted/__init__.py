"""What tools/trusted-reading reads: the definitions in the crates' specs and sources, and which reach which."""
