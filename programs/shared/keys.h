/* The keys that the help of each program and its page of keys name. */
#ifndef KEYS_H
#define KEYS_H

/* keys: made by tools/dev/make-pages */
#define KEYS \
    "Keys:\n" \
    "  Down, j                   moves down, to the next item\n" \
    "  Up, k                     moves up, to the previous item\n" \
    "  Right, l, Shift-Right, L  moves in: to the first section of a file, or the\n" \
    "                            first line of a section\n" \
    "  Left, h                   moves out: to the section of a line, or the file of\n" \
    "                            a folded section; folds an open section, and a file\n" \
    "  Space                     marks the selected item, or takes its mark away; of\n" \
    "                            a file or section, everything in it\n" \
    "  a                         inverts all marks\n" \
    "  F                         unfolds everything, or folds all if everything is\n" \
    "                            unfolded\n" \
    "  c                         accepts what is marked\n" \
    "  q                         gives up; asks first if something is marked or a\n" \
    "                            message is not empty (then Enter quits, and q goes\n" \
    "                            back); with the layer the programs do not ask where\n" \
    "                            no mark and no message was changed\n" \
    "  ?                         opens or closes the help, which names the keys\n" \
    "  /                         searches for a text, downwards\n" \
    "  n, N                      searches for it again, downwards or upwards\n" \
    "  v                         begins a range at the selected line; ends it\n" \
    "  Space                     while a range is begun: marks its lines, or takes\n" \
    "                            their marks away, and ends it\n" \
    "  Esc                       while a range is begun: ends it\n" \
    "  u                         undoes the last change of marks\n" \
    "  ctrl-r                    does again what was undone last\n" \
    "  g, Home                   selects the first item\n" \
    "  G, End                    selects the last item that is not folded away\n" \
    "  ], [                      selects the next or the previous section, also in a\n" \
    "                            file that is folded\n" \
    "  }, {                      selects the next or the previous file\n" \
    "  ctrl-n, ctrl-p            selects the next or the previous item\n" \
    "  >, <                      shows the columns further right or left\n"

#define KEYS_OF_LAYER \
    "With the layer:\n" \
    "  /                         searches for a text, downwards\n" \
    "  n, N                      searches for it again, downwards or upwards\n" \
    "  v                         begins a range at the selected line; ends it\n" \
    "  Space                     while a range is begun: marks its lines, or takes\n" \
    "                            their marks away, and ends it\n" \
    "  Esc                       while a range is begun: ends it\n" \
    "  u                         undoes the last change of marks\n" \
    "  ctrl-r                    does again what was undone last\n" \
    "  g, Home                   selects the first item\n" \
    "  G, End                    selects the last item that is not folded away\n" \
    "  }, {                      selects the next or the previous file\n" \
    "  ctrl-n, ctrl-p            selects the next or the previous item\n" \
    "  >, <                      shows the columns further right or left\n"

#define KEYS_OF_SECTIONS \
    "  ], [                      selects the next or the previous section, also in\n" \
    "                            a file that is folded\n"

#define KEYS_AT_TERMINAL \
    "\n" \
    "At a terminal:\n" \
    "  Tab                       shows both commits, or one\n" \
    "  ctrl-l                    draws every row anew\n" \
    "  ctrl-z                    stops the program, which fg continues\n" \
    "  p                         shows the selected item's file with the marked\n" \
    "                            changes, line by line; p or Esc goes back\n" \
    "  P                         shows it with the other changes; P or Esc goes\n" \
    "                            back\n" \
    "  E                         opens the selected item's file in your editor, at\n" \
    "                            its line, in a tool that shows files as they are\n" \
    "                            on the disk\n" \
    "  ? ?                       shows all keys, also your own, in a tool with the\n" \
    "                            layer; ? or Esc goes back\n"

#define KEYS_OF_SESSION \
    "\n" \
    "Move:\n" \
    "  Down, j                   moves down, to the next item\n" \
    "  Up, k                     moves up, to the previous item\n" \
    "  Right, l, Shift-Right, L  moves in: to the first section of a file, or the\n" \
    "                            first line of a section\n" \
    "  Left, h                   moves out: to the section of a line, or the file\n" \
    "                            of a folded section; folds an open section, and a\n" \
    "                            file\n" \
    "  Shift-Left, H             moves out: to the section of a line, or the file\n" \
    "                            of a section; folds a file\n" \
    "  Page Down                 moves to the next item of the same kind: file,\n" \
    "                            section or line\n" \
    "  Page Up                   moves to the previous item of the same kind\n" \
    "  ctrl-d                    moves down by half a screen\n" \
    "  ctrl-u                    moves up by half a screen\n" \
    "\n" \
    "Mark:\n" \
    "  Space                     marks the selected item, or takes its mark away;\n" \
    "                            of a file or section, everything in it\n" \
    "  Enter                     does the same, and moves to the next item of the\n" \
    "                            same kind\n" \
    "  a                         inverts all marks\n" \
    "  A                         marks everything, or takes all marks away if\n" \
    "                            everything is marked\n" \
    "\n" \
    "Fold and scroll:\n" \
    "  f                         unfolds the selected file or section, or folds it\n" \
    "  F                         unfolds everything, or folds all if everything is\n" \
    "                            unfolded\n" \
    "  ctrl-Down, ctrl-e         scrolls down by a row\n" \
    "  ctrl-Up, ctrl-y           scrolls up by a row\n" \
    "  ctrl-Page Down, ctrl-f    scrolls down by a screen\n" \
    "  ctrl-Page Up, ctrl-b      scrolls up by a screen\n" \
    "\n" \
    "End:\n" \
    "  e                         edits the message of the commit, where there is\n" \
    "                            one\n" \
    "  c                         accepts what is marked\n" \
    "  q                         gives up; asks first if something is marked or a\n" \
    "                            message is not empty (then Enter quits, and q goes\n" \
    "                            back); with the layer the programs do not ask\n" \
    "                            where no mark and no message was changed\n" \
    "  ctrl-c                    gives up as q does; while the question is open,\n" \
    "                            gives up at once\n" \
    "  Esc                       closes the question or the help\n" \
    "  ?                         opens or closes the help, which names the keys\n"
/* end of keys */

/* The lines of the page of keys, of which those for sections are `sections`. Those of the user's own come before them. */
#define PAGE_OF_KEYS(sections) KEYS_OF_LAYER sections KEYS_AT_TERMINAL KEYS_OF_SESSION

/* How many columns of these lines the keys have. */
enum { WIDTH_OF_KEYS = 26 };

#endif
