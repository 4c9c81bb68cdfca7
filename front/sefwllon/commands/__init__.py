"""The commands of `sefwllon`, a module each.

A module has `add`, which adds its words to those of the command line and names with `set_defaults(run=..)` the call that
runs the command and gives its exit status. `COMMANDS` in `cli.py` names the modules. All of them are imported at the start,
so what only one command needs and Python does not bring is imported where it runs.
"""
