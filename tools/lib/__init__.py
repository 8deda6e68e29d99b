"""What the tools share. A tool is a program of its own beside this folder."""
