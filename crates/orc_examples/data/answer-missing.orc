# Missing: a call deletes a service that doesn't live, since it was never created or is deleted. What to do: look at its
# name, and in `history` at what was committed.
orc 1
device r1 plain
script
call al 1
literal a
write r1 /if:port[e0]/mtu = 9000
end
settle
# The answer comes at once, so no `settle` is needed after it.
call al 2
delete aa
end
history
call al 2
delete a
end
settle
call al 3
delete a
end
settle
show r1
history
