# VLANs of an office over three switches. Two of them share the trunk between the floors.

orc 1

# ground floor, first floor, and the room with the servers
device sw0 plain
device sw1 plain
device servers plain

base sw0 /if:port[Te1/1/1]/description = to sw1
base sw1 /if:port[Te1/1/1]/description = to sw0
base servers /if:port[Te1/1/1]/description = to sw0

script

call anna 1
literal printers
write sw0 /vlan:vlan[20]/name = Printers & scanners
write sw0 /if:port[Te1/1/1]/mode = trunk
write sw0 /if:port[Te1/1/1]/tagged[20]
write sw0 /if:port[Gi1/0/7]/access = 20
write sw1 /vlan:vlan[20]/name = Printers & scanners
write sw1 /if:port[Te1/1/1]/mode = trunk
write sw1 /if:port[Te1/1/1]/tagged[20]
end
settle

call ben 1
literal phones
write sw0 /vlan:vlan[30]/name = Phones
write sw0 /if:port[Te1/1/1]/mode = trunk
write sw0 /if:port[Te1/1/1]/tagged[30]
write sw0 /if:port[Te1/1/2]/mode = trunk
write sw0 /if:port[Te1/1/2]/tagged[30]
write sw1 /vlan:vlan[30]/name = Phones
write sw1 /if:port[Te1/1/1]/mode = trunk
write sw1 /if:port[Te1/1/1]/tagged[30]
write servers /vlan:vlan[30]/name = Phones
write servers /if:port[Te1/1/1]/mode = trunk
write servers /if:port[Te1/1/1]/tagged[30]
end
settle
show sw0

# The port is an access port elsewhere, so it can't be a trunk.
call ben 2
literal camera
write sw0 /if:port[Gi1/0/7]/access = 40
end
settle

# Without the printers the trunk stays, since the phones have it.
call anna 2
delete printers
end
settle
show sw0
show sw1
show servers

# That one was there before.
call anna 3
delete printers
end
settle
history
