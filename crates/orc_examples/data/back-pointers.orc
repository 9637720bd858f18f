# Back pointers: how many services write a path, which ones they are, and what the base has there.
orc 1
device r1 plain
script
call al 1
literal a
write r1 /if:mtu = 9000
end
settle
call bo 1
literal b
write r1 /if:mtu = 9000
end
settle
meta r1 /if:mtu
call al 2
delete a
end
settle
meta r1 /if:mtu
show r1
# no service writes this one
meta r1 /if:desc
