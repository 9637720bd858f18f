# Two sites of a customer in one VPN: a VRF on each router, the addresses of its port, and a route to the other site.

orc 1
device pe1 plain
device pe2 plain

# What the routers have without any service.
base pe1 /sys:hostname = pe1.example.net
base pe1 /if:interface[ge-0/0/0]/description = Core, do not touch
base pe1 /if:interface[ge-0/0/0]/ipv4[192.0.2.0/31]
base pe2 /sys:hostname = pe2.example.net
base pe2 /if:interface[ge-0/0/0]/description = Core, do not touch
base pe2 /if:interface[ge-0/0/0]/ipv4[192.0.2.1/31]

script
show pe2

call noc 1
literal acme
# Bern
write pe1 /vpn:vrf[acme]/rd = 65000:7
write pe1 /vpn:vrf[acme]/port[ge-0/0/1]
write pe1 /vpn:vrf[acme]/route[10.2.0.0/24]/next-hop = 192.0.2.1
write pe1 /if:interface[ge-0/0/1]/description = acme, Bern
write pe1 /if:interface[ge-0/0/1]/ipv4[10.1.0.1/24]
write pe1 /if:interface[ge-0/0/1]/ipv6[2001:db8:1::1/64]
# Zürich
write pe2 /vpn:vrf[acme]/rd = 65000:7
write pe2 /vpn:vrf[acme]/port[xe-1/0/3.100]
write pe2 /vpn:vrf[acme]/route[10.1.0.0/24]/next-hop = 192.0.2.0
write pe2 /if:interface[xe-1/0/3.100]/description = acme, Zürich
write pe2 /if:interface[xe-1/0/3.100]/ipv4[10.2.0.1/24]
write pe2 /if:interface[xe-1/0/3.100]/ipv6[2001:db8:2::1/64]
end
settle
show pe1
show pe2

# Another customer's site, at a port that is taken.
call noc 2
literal globex
write pe1 /vpn:vrf[globex]/rd = 65000:8
write pe1 /vpn:vrf[globex]/port[ge-0/0/1]
write pe1 /if:interface[ge-0/0/1]/description = globex, Bern
write pe1 /if:interface[ge-0/0/1]/ipv4[10.9.0.1/24]
end
settle

# At the next port it is free.
call noc 3
literal globex
write pe1 /vpn:vrf[globex]/rd = 65000:8
write pe1 /vpn:vrf[globex]/port[ge-0/0/2]
write pe1 /if:interface[ge-0/0/2]/description = globex, Bern
write pe1 /if:interface[ge-0/0/2]/ipv4[10.9.0.1/24]
end
settle

# The first customer leaves.
call noc 4
delete acme
end
settle
show pe1
show pe2
