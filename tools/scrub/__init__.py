"""Takes out of a package what a reader doesn't see: `redline-docx scrub`. Bytes are only cut; all others stay as they are."""
