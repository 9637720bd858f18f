# A log shows what each edit takes away and what it puts: a deletion takes the service's own port away, and puts the mtu of the
# base back in the place of its own.
orc 1
device r1 plain
base r1 /if:port[ge-0]/mtu = 1500
script

# The service covers the mtu of one port, and makes another port.
call anna 1
literal uplink
write r1 /if:port[ge-0]/mtu = 9000
write r1 /if:port[ge-1]/vlan = 10
end
settle
log r1

# Its deletion: each path that goes has a line, and these come first.
call anna 2
delete uplink
end
settle
log r1
show r1
