"""What the scripts beside `dwv` share. Nothing is proved of it.

Sound files are read by the table of the C library (`c_file`), which resolves strings and references. The reader of
`reading`, `dwarf` and `entries` is for all others: `explain` and `--every` need the place of a fault, the entry there,
those above it and what these refer to, of bytes of which nothing is known, and work without the library. `joining`
reads the files of dwz by `reading` alone, because it changes forms and values in place. pyelftools reads the ELF files
that are prepared, and the source files of a line table.
"""
VERSION = "0.9.0"
