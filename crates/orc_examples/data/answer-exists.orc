# Exists: a call creates a service whose name a living one has. What to do: take another name, or delete that one first,
# in a call of its own.
orc 1
device r1 plain
script
call al 1
literal a
write r1 /if:port[e0]/mtu = 9000
end
settle
# The answer comes at once, so no `settle` is needed after it.
call al 2
literal a
end
show r1
# Nothing of a refused call is done, whichever of its actions is at fault; and its number is free.
call al 2
literal b
write r1 /if:port[e1]/mtu = 9000
literal a
end
show r1
call al 2
delete a
end
settle
call al 3
literal a
write r1 /if:port[e1]/mtu = 9000
end
settle
show r1
