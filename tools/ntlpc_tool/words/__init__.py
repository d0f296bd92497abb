"""The words of `ntlpc-tool`, a module for each.

A word's module has `NAME`, a docstring whose first line tells what the word is for, `add_arguments(parser)`, and
`run(arguments)`, which returns the exit status.
"""
