"""What each tool does alike: reading a file or standard input, and ending where one of them or the output fails."""
