"""A site on which users resynchronize their tokens and replace their phones. It takes most of it from wakdulg_helpdesk.

`python3 -m wakdulg_selfservice` is the program, which docs/how-to/self-service.md shows. `program` has its words, and
`pages` what it answers.
"""
