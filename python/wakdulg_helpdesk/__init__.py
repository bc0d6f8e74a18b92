"""A helpdesk in the browser for a cluster, and what the self-service shares with it.

`python3 -m wakdulg_helpdesk` is the program, which docs/how-to/helpdesk.md shows. `program` has its words, and `pages`
what it answers. `staff_line` and `record_program` are programs for its files of staff and of acts.

`acts` has the acts, and `book` the users file that they change. `members` asks the members of a `cluster_file`, and
`naming` has what differs between a cluster by names and one without names. `web` has what the pages of sites share,
`sessions` their logins, `keeping` their new secrets, and `record` what was done. `service` runs a site.
"""
