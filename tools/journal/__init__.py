"""What `tell-journal`, `draw-journal`, `strike-journal` and `journal-page` share. `files` reads a journal, `redone` takes its steps again."""
