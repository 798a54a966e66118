"""What redline-docx does: its words, its calls of redline with files in memory, and what it makes of their output."""
