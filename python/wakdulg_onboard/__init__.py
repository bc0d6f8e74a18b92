"""Changes the rows of a users file: new phones, tokens of lists, replaced tokens, retired users.

`python3 -m wakdulg_onboard` is the program, which docs/how-to/onboarding.md shows. `program` has its commands.
`users_file` changes a file as a whole. `tokens` has tokens and rows, and `names` the rules of new names. `lists` and
`pskc` read files of vendors and of other programs. `phone` makes QR codes.
"""
