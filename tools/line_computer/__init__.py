"""The line computer: orders in a database, brought to the drives of a bench's buses, with their ends and labels back.

docs/LINE_COMPUTER.md says how it is used and what is promised. The data that must not be lost are in the store
(`database`, `schema`, `orders`, `labels`, `work`) and in each bus's journal (`journals`); `bus` is the process of a
bus, over its `link`; `told` reads what a drive tells, `program` asks dali_bench; `page` shows all of it, `listing` as
tables; `label_template` fills what a printer gets; `commands` is the command line. A `station` serves a person with a
scanner: `scans` and `template` make orders of what is scanned, `stations` is what the store knows of it, `luminaire`
asks which luminaire is there, `screen` and `station_page` show what to do.
"""
