"""What the scripts share: the formats of docs/FORMATS.md, a folder's files, the report, and how a script ends."""
