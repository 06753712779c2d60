"""The parts of `serve`: Parsoid's routes, and saving, over a folder of pages.

`program` runs wtround, `pages` reads and writes the folder, `fingerprints` says when a page is stale,
`foreseen` which page an edit will probably make, `site` has what each route answers, `handler` speaks HTTP.
The modules in `mending` make of an editor's HTML what `wtround edit` takes.
"""
