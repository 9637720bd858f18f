# The least that shows something: a device, its base, and a look at it.
orc 1
device r1 plain
base r1 /if:mtu = 1500
base r1 /if:port[e0]/mtu = 9000
script
show r1
