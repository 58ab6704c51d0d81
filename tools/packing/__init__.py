"""Makes a package of the built program: what is in it, its manual pages from the documents, and its archives."""
