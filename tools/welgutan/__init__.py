"""What `welgutan-nft` is made of: admitted flow rules, said to the Linux kernel at once or as they come and go.

`flowspec` reads rules; `parts` says what a rule tests and does; `ruleset` writes that for `nft -f`, and `expressions`
for netlink. `layout` keeps a table's maps and chains, `table` hands their changes to the kernel, and `follower` follows
a stream of changes within the bounds of `policy`, telling by `report` and `service`. `command` reads the words.
"""
