"""The modules of tools/shell: what is entered at a prompt, and its runs. `shelling.session.Session` is the state."""
