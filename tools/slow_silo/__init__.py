"""A plain and slow silo, written from docs/formats.md, docs/steps.md and the definitions in crates/*/specs.

It shares no code with the program. To read it beside the definitions, begin with `names` and `values`, then `kinds`
(what a grain's methods come to), `storage` (rows under versions), `steps` (what a step says, and whose it is) and
`machine` (one tenant's silo, one function for each kind of step). `silo` holds the machines of all tenants beside one
another. `lines` reads and writes the lines, `answer` answers each at once, `serve` runs the lanes of several clients,
`log` reads and writes a log's text, `data` has the folder of it, `logged` answers with one,
`receipts` has what is kept of requests that act once, `room` how many bytes a tenant keeps, `tenants` how tenants come and go, `once` reads
the lines that ask for these,
`checkpoint` reads and writes the text of what is kept of a silo, `switched` has it in the place of a log, `listed` prints its rows,
`journal` reads and writes a journal's text, `audit` compares a journal with the machines, `laws` looks at what is promised
of every run, and `program` reads the program's words. `rows`, `answer_rows` and `resting_rows` have worked examples in the
words of `short_lines`, `call_rows` those that no line makes, `folder_rows`, `listed_rows`, `running_rows` and `switch_rows` those of checkpoints,
`cut_rows` lives that end at each call, and `row_checks` runs all.
"""
