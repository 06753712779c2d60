"""The parts of `wtround-batch`, which converts or checks all pages of a wiki.

`command` reads the arguments. `wiki` has the pages, in a folder or an export, and `store` what is known of
them from one run to the next. `engine` keeps a `worker` busy on each processor, which the `nursery` forks;
a worker asks its `program`, by the rules of `examine`. `outputs` writes what was converted, and `report`
what came of it.
"""
