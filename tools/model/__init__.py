"""A second opinion on what the program prints, written from the rules of docs/COMMANDS.md and docs/FORMATS.md alone. It shares
nothing with the program, so what tests and stored documents expect can come from it. It keeps close to the rules, and is
quick for small workflows only."""
# Documents: reading, tables, survey. A plan: workflow, graph, sites, clusters, tasks, order, plan. A run: transformations, store,
# engine, resume, evaluation, joint, rehearsal. A record: record, book, judge. Words of a call: commands, whose `answer` is what
# other tools and tests call.
