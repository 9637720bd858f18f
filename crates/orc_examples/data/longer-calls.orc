# Calls of several actions: services and plain data together, all or none of it.
orc 1
yang 3
module p { namespace "urn:example:p"; prefix p;
  list profile { key name; leaf name { type string; } leaf mtu { type uint16; } }
  leaf standard { type leafref { path "/p:profile/p:name"; } } }
datamodel p
device r1 plain
device r2 plain
data /p:profile[gold]
script
call al 1
set /p:profile[iron]/mtu = 1500
literal a
write r1 /if:mtu = 1500
write r2 /if:port[e0]/mtu = 1500
literal b
write r1 /if:mtu = 1500
set /p:standard = iron
end
settle

# Services of one call that clash: the first in the call is the one that is refused, and the least other by its name.
call al 2
literal c
write r1 /if:desc = one
literal d
write r1 /if:desc = two
end
settle
call al 3
literal d
write r1 /if:desc = two
literal c
write r1 /if:desc = one
end
settle
call al 4
literal z
write r1 /if:desc = one
literal m
write r1 /if:desc = two
literal k
write r1 /if:desc = three
end
settle
call al 5
literal z
write r1 /if:desc = one
literal k
write r1 /if:desc = one
literal m
write r1 /if:desc = two
end
settle

# The first device in the order of declaration, and on it the least path.
call al 6
literal c
write r2 /if:desc = one
write r1 /if:desc = one
literal d
write r2 /if:desc = two
literal e
write r1 /if:desc = two
end
settle
call al 7
literal d
write r2 /if:desc = two
literal e
write r1 /if:desc = two
literal c
write r2 /if:desc = one
write r1 /if:desc = one
end
settle
call al 8
literal c
write r1 /if:speed = 1
write r1 /if:desc = one
literal d
write r1 /if:speed = 2
literal e
write r1 /if:desc = two
end
settle

# Against living services, and against none that goes with the same call.
call al 9
literal x
write r1 /if:mtu = 9000
end
settle
call al 10
literal x
write r1 /if:mtu = 9000
delete a
end
settle
call al 11
literal x
write r1 /if:mtu = 9000
delete b
end
settle
call al 12
literal y
write r2 /if:desc = y
literal x
write r1 /if:mtu = 9000
end
settle
call al 13
literal x
write r1 /if:mtu = 9000
delete a
delete b
end
settle
show r1
show r2
call al 14
delete x
literal a
write r1 /if:mtu = 1400
literal b
write r1 /if:mtu = 1400
end
settle
show r1

# The first action at fault, by the services that live before the call.
call al 15
literal n
delete zz
literal a
end
settle
call al 16
literal a
delete zz
end
settle
call al 17
delete a
literal b
end
settle

# Services that are there or missing go before the data, and the data before a clash.
call al 18
set /p:standard = tin
literal n
write r1 /if:mtu = 1
literal a
write r1 /if:mtu = 1
end
settle
call al 19
literal n
write r1 /if:mtu = 1
delete zz
set /p:standard = tin
end
settle
call al 20
literal n
write r1 /if:mtu = 1
set /p:standard = tin
end
settle
call al 21
literal n
write r1 /if:mtu = 1
set /p:standard = gold
unset /p:profile[iron]
end
settle
show r1
data
call al 22
set /p:standard = gold
delete a
unset /p:profile[iron]
literal n
write r1 /if:mtu = 1400
end
settle
show r1
data
history
