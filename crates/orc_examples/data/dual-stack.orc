# IPv6 beside IPv4 on two routers: a service replaces values of the base, and the base comes back without it.

orc 1
device r1 plain
device r2 plain

base r1 /if:interface[ge-0/0/1]/mtu = 1500
base r1 /if:interface[ge-0/0/1]/ipv4[198.51.100.1/30]
base r1 /bgp:neighbor[198.51.100.2]/remote-as = 64512
base r1 /bgp:router-id = 192.0.2.1
base r2 /if:interface[Ethernet\s1]/mtu = 1500
base r2 /if:interface[Ethernet\s1]/ipv4[198.51.100.2/30]
base r2 /bgp:neighbor[198.51.100.1]/remote-as = 64511
base r2 /bgp:router-id = 192.0.2.2

script

call ops 1
literal ipv6
write r1 /if:interface[ge-0/0/1]/mtu = 9000
write r1 /if:interface[ge-0/0/1]/ipv6[2001:db8:ffff::1/127]
write r1 /bgp:neighbor[2001:db8:ffff::]/remote-as = 64512
write r2 /if:interface[Ethernet\s1]/mtu = 9000
write r2 /if:interface[Ethernet\s1]/ipv6[2001:db8:ffff::/127]
write r2 /bgp:neighbor[2001:db8:ffff::1]/remote-as = 64511
end
settle
show r1
show r2

# Sent again, it is the same call: it is answered as before, and nothing is done.
call ops 1
literal ipv6
write r1 /if:interface[ge-0/0/1]/mtu = 9000
write r1 /if:interface[ge-0/0/1]/ipv6[2001:db8:ffff::1/127]
write r1 /bgp:neighbor[2001:db8:ffff::]/remote-as = 64512
write r2 /if:interface[Ethernet\s1]/mtu = 9000
write r2 /if:interface[Ethernet\s1]/ipv6[2001:db8:ffff::/127]
write r2 /bgp:neighbor[2001:db8:ffff::1]/remote-as = 64511
end
settle

call ops 2
delete ipv6
end
settle
show r1
show r2
