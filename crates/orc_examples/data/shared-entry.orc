# A list's entry stays as long as something below it is written by a service.
orc 1
device r1 plain
script
call al 1
literal a
write r1 /if:port[e0]/mtu = 9000
end
settle
call bo 1
literal b
write r1 /if:port[e0]/desc = x
end
settle
call al 2
delete a
end
settle
show r1
