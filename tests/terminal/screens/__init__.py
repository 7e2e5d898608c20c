"""Terminals that show bytes and say what they show, for `try-screens`. Each module has one terminal, with

- `NAME`, as the terminal is called;
- `version()`, the first line of what it says of its version;
- `open_terminal(folder, width, height)`, which returns an object with `show(sent)`, `rows()` and `close()`.

`show` writes bytes and returns the cursor's row and column, counted from 0. `rows` returns for each row a list of its cells, where a
cell that a symbol before it covers is empty; or a text, if the terminal does not say at which column a symbol is. Both functions
raise `Absent` if the terminal is not installed. `folder` is an empty one for files of the terminal's own."""
