"""A model of what the program prints for a script, written beside it from the manual pages and virtiofsd's source.

Each subject is a module:

- `text` words, numbers and bytes; `messages` the fields of requests; `config` settings; `start` the tree of a script;
  `script` the reader of it all;
- `linux` numbers; `seat` who calls; `tree` objects and names; `host` the calls; `session` the tables and their events;
- `maps` ids and names of attributes; `plan` the checked settings; `job` steps, holds and scopes; `parts` what requests
  share; `requests` and `attributes` the requests; `by_handle` inodes by file handle; `read_only` the rules of a file
  system without changes;
- `run` a run and its report; `counts`, `pool`, `plus` and `audit` other words of the program;
- `generate` random scripts, with `generate_tree`, `generate_jobs`, `generate_races` and `generate_sweep`.

A request is a generator: each `yield` is one step, and what is sent back is its reply. A new request is a function of
that form, a name in `BODIES` of its module, its fields in `messages`, and a line that makes it in `generate_jobs`.
"""
